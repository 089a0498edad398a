//! Rules that hold over a whole run of a flow from fresh, checked without the model: a queue of our
//! own follows the library's answers.

use crate::kind::{Call, Side};
use crate::model::{Row, State};
use crate::shared::kind::What;
use crate::shared::shadow::{plain_verdict, Packets};

/// The time after the drop that made a flow active in which nothing is dropped early.
const GRACE: u64 = 128_000;

pub struct Shadow {
    packets: Packets,
    row: Row,
    clock: u64,
    /// The end of the time in which nothing is dropped early.
    pub grace_until: u64,
}

impl Shadow {
    pub fn new(clock: u64, row: Row) -> Shadow {
        Shadow { packets: Packets::default(), row, clock, grace_until: 0 }
    }

    /// Whether the rules of a run hold after this call; the sentence says which does not.
    pub fn follow(&mut self, call: &Call, before: &Side, after: &Side) -> Result<(), String> {
        let flow = call.to as usize;
        let others = |side: &Side| -> Vec<Row> {
            let rows = side.state.counts.iter().enumerate();
            rows.filter(|(place, _)| *place != flow).map(|(_, row)| *row).collect()
        };
        if others(before) != others(after) {
            return Err("the row of another flow was changed".into());
        }
        if after.answer == 102 || after.answer == 109 {
            return Err(format!("refusal {} in a run from fresh", after.answer - 100));
        }
        if flow > 15 || after.answer >= 100 {
            return self.agrees(&after.state, &after.state.counts[flow.min(15)], flow > 15);
        }
        self.clock = call.clock;
        match call.what {
            What::Arrival(packet) => {
                self.arrived((packet.handle, packet.size), &before.state, after)?;
            }
            What::Departure => self.packets.leave((after.packet.handle, after.packet.size))?,
            What::Fresh(_) => *self = Shadow::new(call.clock, [0; 5]),
            What::Tick(_) => {}
        }
        self.agrees(&after.state, &after.state.counts[flow], false)
    }

    fn arrived(&mut self, packet: (u32, u32), before: &State, after: &Side) -> Result<(), String> {
        let verdict = after.answer as usize;
        self.row[verdict] += 1;
        if verdict == 1 {
            return Err("a packet was marked".into());
        }
        if verdict == 0 {
            self.packets.enter(packet);
        }
        let room = before.settings.buffer - before.bytes;
        let slot = before.count < before.settings.slots;
        let plain = plain_verdict(u64::from(packet.1) <= room, slot);
        let protected = before.probability == 0 || before.allowance > 0;
        if protected && verdict != plain {
            return Err("dropped early with probability 0 or an allowance".into());
        }
        if self.clock < self.grace_until && verdict != plain {
            return Err("dropped early within 128,000 of the drop that made the flow active".into());
        }
        if before.activity != 2 && after.state.activity == 2 {
            self.grace_until = self.clock + GRACE;
        }
        Ok(())
    }

    /// Counts, bytes and clock are those of the answers so far.
    fn agrees(&self, state: &State, row: &Row, other_row: bool) -> Result<(), String> {
        let bytes = self.packets.bytes();
        let same = state.count == self.packets.count()
            && state.bytes == bytes
            && state.clock == self.clock
            && (other_row || *row == self.row);
        if same {
            return Ok(());
        }
        let (count, clock, ours) = (self.packets.count(), self.clock, self.row);
        Err(format!(
            "the record has count {}, bytes {}, clock {} and the row {row:?}; the answers so far \
             make it {count}, {bytes}, {clock} and {ours:?}",
            state.count, state.bytes, state.clock
        ))
    }
}
