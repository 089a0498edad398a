//! Rules that hold over a whole run from fresh, checked without the model: a queue of our own follows the
//! library's answers.

use super::kind::View;
use std::collections::VecDeque;

const WHOLE: u64 = 1 << 32;

/// The packets that a run's answers put into a queue and took from it.
#[derive(Default)]
pub struct Packets {
    queue: VecDeque<(u32, u32)>,
    admitted: u64,
    departed: u64,
}

impl Packets {
    pub fn enter(&mut self, packet: (u32, u32)) {
        self.queue.push_back(packet);
        self.admitted += u64::from(packet.1);
    }

    /// A departure hands out the first of them; the sentence says that it did not.
    pub fn leave(&mut self, packet: (u32, u32)) -> Result<(), String> {
        let head = self.queue.pop_front();
        self.departed += u64::from(packet.1);
        match head {
            Some(head) if head == packet => Ok(()),
            _ => Err(format!("departure gave {packet:?} where {head:?} was first in the queue")),
        }
    }

    pub fn all(&self) -> impl Iterator<Item = &(u32, u32)> {
        self.queue.iter()
    }

    pub fn count(&self) -> u64 {
        self.queue.len() as u64
    }

    pub fn bytes(&self) -> u64 {
        self.admitted - self.departed
    }
}

/// What is kept of one queue by the document's rules.
#[derive(Default)]
pub struct Shadow {
    pub packets: Packets,
    /// The probabilities added up after the last early verdict.
    pub accumulated: u64,
    /// Accepted ticks in succession, up to now, that found the queue empty.
    pub empty_ticks: u64,
    /// The end of the time in which nothing is early, after 1,000 of those.
    pub quiet_until: u64,
}

/// What no call of a run may answer.
pub fn sound(well_formed: bool, answer: u32) -> Result<(), String> {
    match answer {
        _ if !well_formed => Err("a record that the library returned is not well formed".into()),
        102 | 109 => Err(format!("refusal {} in a run from fresh", answer - 100)),
        _ => Ok(()),
    }
}

/// The verdict by room in the buffer and slots alone.
pub fn plain_verdict(room: bool, slot: bool) -> usize {
    match (room, slot) {
        (false, _) => 2,
        (true, false) => 3,
        (true, true) => 0,
    }
}

impl Shadow {
    /// After an accepted arrival at the queue as it was, which had room and a slot or not.
    pub fn arrived(
        &mut self,
        q: &View,
        packet: (u32, u32),
        (clock, verdict): (u64, u32),
        (room, slot): (bool, bool),
    ) -> Result<(), String> {
        if verdict < 2 {
            self.packets.enter(packet);
        }
        self.spaced(q, verdict)?;
        if clock < self.quiet_until && verdict as usize != plain_verdict(room, slot) {
            return Err(
                "another verdict than expected after 1,000 ticks with an empty queue".into()
            );
        }
        Ok(())
    }

    /// The probabilities added after one early verdict (or from fresh on), up to and with the next,
    /// come to at least 0.85.
    fn spaced(&mut self, q: &View, verdict: u32) -> Result<(), String> {
        let early = verdict == 1 || verdict == 4;
        let short = 2 * q.old_delay < q.target && 5 * q.probability < WHOLE;
        if (early || verdict == 0) && q.allowance == 0 && !short && q.bytes > 3_000 {
            self.accumulated += q.probability;
        }
        if early && 20 * self.accumulated < 17 * WHOLE {
            return Err(format!("early after probabilities of {} in all", self.accumulated));
        }
        if early {
            self.accumulated = 0;
        }
        Ok(())
    }

    /// After an accepted tick, which left this probability.
    pub fn ticked(&mut self, clock: u64, probability: u64) -> Result<(), String> {
        self.empty_ticks = if self.packets.count() == 0 { self.empty_ticks + 1 } else { 0 };
        if self.empty_ticks >= 1_000 {
            self.quiet_until = clock + 150_000;
            if probability != 0 {
                return Err("the probability is not 0 after 1,000 ticks with an empty queue".into());
            }
        }
        Ok(())
    }

    /// Count, bytes and sum are those that the answers so far make, and so are clock and verdicts.
    pub fn agrees(&self, q: &View, clock: u64, verdicts: &[u64; 5]) -> Result<(), String> {
        let is = (q.count, q.bytes, q.accumulated, q.clock, &q.verdicts);
        let (count, bytes) = (self.packets.count(), self.packets.bytes());
        let should = (count, bytes, self.accumulated, clock, verdicts);
        match is == should {
            true => Ok(()),
            false => Err(format!("count, bytes, sum, clock, verdicts are {is:?}, not {should:?}")),
        }
    }
}
