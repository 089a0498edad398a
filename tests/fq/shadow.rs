//! Rules that hold over a whole run from fresh, checked without the model: queues and lists of our own
//! follow the library's answers. The lists are two, as the page has them.

use crate::flows::hash::Key;
use crate::flows::{Record, FLOWS};
use crate::kind::{view_of, Call, Side};
use crate::shared::kind::{Arriving, What};
use crate::shared::shadow::{sound, Shadow};
use std::collections::VecDeque;

pub struct Watch {
    pub flows: Vec<Own>,
    new: VecDeque<usize>,
    old: VecDeque<usize>,
    verdicts: [u64; 5],
    clock: u64,
    /// Which flow left a slot last.
    pub left_by: Vec<Option<usize>>,
    /// The last sender of each flow.
    pub senders: [Option<Key>; FLOWS],
}

/// What is kept of one flow.
#[derive(Default)]
pub struct Own {
    pub queue: Shadow,
    deficit: i64,
}

impl Watch {
    pub fn new(record: &Record) -> Watch {
        Watch {
            flows: (0..FLOWS).map(|_| Own::default()).collect(),
            new: VecDeque::new(),
            old: VecDeque::new(),
            verdicts: record.common.verdicts,
            clock: record.common.clock,
            left_by: vec![None; record.common.slots as usize],
            senders: [None; FLOWS],
        }
    }

    /// Whether the rules of a run hold after this call; the sentence says which does not.
    pub fn follow(&mut self, call: &Call, before: &Side, after: &Side) -> Result<(), String> {
        sound(after.well_formed, after.answer)?;
        if after.answer < 100 {
            self.clock = call.clock;
            match call.what {
                What::Arrival(packet) => self.arrived(&packet, before, after)?,
                What::Departure => self.left(after)?,
                What::Tick(_) => {
                    for (own, f) in self.flows.iter_mut().zip(&after.state.flows) {
                        own.queue.ticked(self.clock, f.probability)?;
                    }
                }
                What::Fresh(_) => {}
            }
        }
        self.agrees(&after.state)
    }

    fn arrived(&mut self, packet: &Arriving, before: &Side, after: &Side) -> Result<(), String> {
        let (flow, verdict) = (after.flow as usize, after.answer);
        let (c, own) = (&before.state.common, &mut self.flows[flow]);
        self.verdicts[verdict as usize] += 1;
        if verdict < 2 && !self.new.contains(&flow) && !self.old.contains(&flow) {
            self.new.push_back(flow);
            own.deficit = 1_514;
        }
        let q = view_of(&before.state.queue(flow), c.slots);
        let room = c.bytes + u64::from(packet.size) <= c.buffer;
        let given = (self.clock, verdict);
        own.queue.arrived(&q, (packet.handle, packet.size), given, (room, c.count < c.slots))
    }

    /// The flow that is served, by the page's two lists.
    fn choose(&mut self) -> Option<usize> {
        loop {
            let is_new = !self.new.is_empty();
            let list = if is_new { &mut self.new } else { &mut self.old };
            let flow = *list.front()?;
            let own = &mut self.flows[flow];
            let owes = own.deficit < 0;
            if owes {
                own.deficit += 1_514;
            } else if own.queue.packets.count() > 0 {
                return Some(flow);
            }
            list.pop_front();
            if owes || is_new {
                self.old.push_back(flow);
            }
        }
    }

    fn left(&mut self, after: &Side) -> Result<(), String> {
        let (chosen, packet) = (self.choose(), after.packet);
        if chosen != Some(packet.flow as usize) {
            let flow = packet.flow;
            return Err(format!("flow {flow} was served where the lists give {chosen:?}"));
        }
        let own = &mut self.flows[packet.flow as usize];
        own.deficit -= i64::from(packet.size);
        own.queue.packets.leave((packet.handle, packet.size))
    }

    /// Counts and bytes of each flow, lists and deficits are those that the answers make.
    fn agrees(&self, record: &Record) -> Result<(), String> {
        let c = &record.common;
        let listed: Vec<u64> =
            (0..c.listed).map(|i| record.order[((c.first + i) % 64) as usize]).collect();
        let ours: Vec<u64> = self.old.iter().chain(&self.new).map(|&flow| flow as u64).collect();
        if listed != ours || c.old != self.old.len() as u64 {
            let old = c.old;
            return Err(format!(
                "the lists are {listed:?}, {old} of them old; by the answers {ours:?}"
            ));
        }
        let (mut count, mut bytes) = (0, 0);
        for (flow, own) in self.flows.iter().enumerate() {
            let q = view_of(&record.queue(flow), c.slots);
            own.queue.agrees(&q, self.clock, &self.verdicts)?;
            if record.deficit(flow) != own.deficit {
                return Err(format!("the deficit of flow {flow} is not what the answers make it"));
            }
            (count, bytes) = (count + q.count, bytes + q.bytes);
        }
        match (c.count, c.bytes) == (count, bytes) {
            true => Ok(()),
            false => Err("the totals are not those of the flows".into()),
        }
    }
}
