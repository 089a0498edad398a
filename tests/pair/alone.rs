//! A queue that keeps below its reserve, alone: the library's ring queue with that reserve for its
//! slots. Whatever the other queue of the pair does, both must give the same answers.

use crate::kind::{Call, Side};
use crate::model::Queue;
use crate::own::Own;
use crate::plans::Plan;
use crate::shared::kind::What;
use crate::words::queue_words;

/// The ring queue's profile.
const PLAIN: u64 = 0;

/// What stands in a packet before a departure: it shows that nothing was written.
const UNWRITTEN: [u32; 2] = [0xA5A5_5A5A; 2];

pub struct Alone(Own);

impl Alone {
    /// The ring queue, if there is a reserve, with the verdict counts of the pair's.
    pub fn new(plan: &Plan, q: &Queue) -> Option<Alone> {
        let set = &plan.settings;
        if set.reserve == 0 {
            return None;
        }
        let table = vec![0; set.reserve as usize];
        let settings = [set.target, set.buffer, set.reserve, PLAIN, set.clock];
        let mut own = Own::fresh(settings, table.clone(), table);
        own.record[16..21].copy_from_slice(&q.verdicts);
        Some(Alone(own))
    }

    /// Runs the call on the ring queue too; the sentence says what differs. A call with wrong tables
    /// changes neither.
    pub fn follow(&mut self, call: &Call, after: &Side) -> Result<(), String> {
        if after.answer == 103 {
            return Ok(());
        }
        let (answer, packet) = match call.what {
            What::Arrival(p) => {
                (self.0.arrival(call.clock, (p.handle, p.size, p.ecn, p.u)), [0; 2])
            }
            What::Departure => self.0.departure(call.clock, UNWRITTEN),
            What::Tick(_) => (self.0.tick(call.clock), [0; 2]),
            What::Fresh(_) => return Ok(()),
        };
        let same = answer == after.answer
            && packet == [after.packet.handle, after.packet.size]
            && self.is_like(&after.state.queues[call.to]);
        if same {
            return Ok(());
        }
        Err(format!(
            "alone, with its reserve for its slots, the queue answers {answer}, not {}",
            after.answer
        ))
    }

    /// All but slots, head and tail; the ring has its slots and first place there.
    fn is_like(&self, q: &Queue) -> bool {
        let (ring, pair) = (&self.0.record, queue_words(q));
        ring[..2] == pair[..2] && ring[3..15] == pair[2..14] && ring[16..21] == pair[16..]
    }
}
