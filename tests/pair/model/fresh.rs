//! Fresh: one call for all three records (14).

use super::numbers::FULL_ALLOWANCE;
use super::refusals::{fresh_refusals, lowest};
use super::{Queue, Records, Settings, Shared};

fn queue(set: Settings) -> Queue {
    Queue {
        target: set.target,
        buffer: set.buffer,
        clock: set.clock,
        last: set.clock,
        allowance: FULL_ALLOWANCE,
        ..Queue::default()
    }
}

/// Fresh records, or the number of the refusal and three all-zero records.
pub fn fresh(slots: u64, settings: [Settings; 2]) -> (Result<(), u32>, Records) {
    let answer = lowest(fresh_refusals(slots, &settings));
    if answer.is_err() {
        return (answer, Records::default());
    }
    let reserve = settings.map(|set| set.reserve);
    let shared = Shared { slots, reserve, ..Shared::default() };
    (answer, Records { shared, queues: settings.map(queue) })
}
