//! A fresh flow.

use super::refusals::{fresh_refusals, given};
use super::{Counts, Row, Settings, State};

/// A fresh record and a row of zeros; where the call is refused, an all-zero record.
pub fn fresh(
    counts: &mut Counts,
    flow: u32,
    settings: Settings,
    clock: u64,
) -> (Result<(), u32>, State) {
    let answer = given(fresh_refusals(flow, &settings, clock));
    if answer.is_err() {
        return (answer, State::default());
    }
    counts[flow as usize] = Row::default();
    (answer, State { settings, clock, last: clock, ..State::default() })
}
