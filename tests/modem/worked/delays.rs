//! W1 and W2: the delay.

use super::{with_delay, Failure, Worked, FLOW};
use crate::kind::Call;
use crate::model::State;

/// Name, bytes, peak, sustained, credits, delay.
const DELAYS: [(&str, u64, u64, u64, u32, u64); 9] = [
    ("W1", 100_000, 12_500_000, 1_250_000, 100_000, 8_000),
    ("W1", 100_000, 12_500_000, 1_250_000, u32::MAX, 8_000),
    ("W1", 100_000, 12_500_000, 1_250_000, 99_999, 7_999),
    ("W1", 100_000, 12_500_000, 1_250_000, 0, 80_000),
    ("W2", 9, 1_000, 1, 0, 9_000_000),
    ("W2", 10, 1_000, 1, 0, 10_000_000),
    ("W2", 11, 1_000, 1, 0, 10_000_000),
    ("W2", 1_249, 1_250_000_000, 1, 5_000, 0),
    ("W2", 1_250, 1_250_000_000, 1, 5_000, 1),
];

pub fn run(worked: &mut Worked) -> Result<(), Failure> {
    for (name, bytes, peak, sustained, credits, delay) in DELAYS {
        worked.name = name;
        let mut state = State { count: 2, bytes, ..with_delay(10_000, 0, 0) };
        (state.settings.peak, state.settings.sustained) = (peak, sustained);
        let after = worked.call(state, Call::tick(FLOW, 1_000_000, credits))?;
        worked.expect("the answer", u64::from(after.answer), 0)?;
        worked.expect("the delay", after.state.old_delay, delay)?;
    }
    Ok(())
}
