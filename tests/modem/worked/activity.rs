//! W12 to W15: allowance, activity and reset time after a tick.

use super::{with_delay, Failure, Worked, FLOW};
use crate::kind::Call;
use crate::model::numbers::{ACTIVE, INACTIVE, QUIESCENT};
use crate::model::State;

/// Allowance before and after a tick.
const ALLOWANCES: [(u64, u64); 4] = [(142_000, 126_000), (16_001, 1), (16_000, 0), (14_000, 0)];

/// Name, target, delay, old delay, reset time before; activity and reset time after, of a flow
/// that was quiescent with probability 0.
const QUIESCENTS: [(&str, u64, u64, u64, u64, u64, u64); 9] = [
    ("W13", 10_000, 4_999, 4_999, 32_000, QUIESCENT, 48_000),
    ("W13", 10_000, 5_000, 4_999, 32_000, QUIESCENT, 0),
    ("W13", 10_000, 4_999, 5_000, 32_000, QUIESCENT, 0),
    ("W13", 10_001, 5_000, 5_000, 32_000, QUIESCENT, 48_000),
    ("W13", 10_001, 5_001, 5_000, 32_000, QUIESCENT, 0),
    ("W14", 10_000, 0, 0, 976_000, QUIESCENT, 992_000),
    ("W14", 10_000, 0, 0, 984_000, QUIESCENT, 1_000_000),
    ("W14", 10_000, 0, 0, 984_001, INACTIVE, 0),
    ("W14", 10_000, 0, 0, 992_000, INACTIVE, 0),
];

pub fn run(worked: &mut Worked) -> Result<(), Failure> {
    worked.name = "W12";
    for (allowance, figure) in ALLOWANCES {
        let probability = 1_000_000;
        let delayed = with_delay(10_000, 9_000, 9_000);
        let state = State { allowance, probability, activity: ACTIVE, ..delayed };
        let after = worked.call(state, Call::tick(FLOW, 1_000_000, 0))?;
        worked.expect("the allowance", after.state.allowance, figure)?;
        worked.expect("the probability", after.state.probability, 0)?;
    }
    for (name, target, delay, old, reset, activity, figure) in QUIESCENTS {
        worked.name = name;
        let state = State { reset, activity: QUIESCENT, ..with_delay(target, delay, old) };
        let after = worked.call(state, Call::tick(FLOW, 1_000_000, 0))?;
        worked.expect("the probability", after.state.probability, 0)?;
        worked.expect("the activity", after.state.activity, activity)?;
        worked.expect("the reset time", after.state.reset, figure)?;
    }
    worked.name = "W15";
    for (allowance, activity) in [(14_000, QUIESCENT), (16_001, ACTIVE)] {
        let state = State { allowance, activity: ACTIVE, ..with_delay(10_000, 0, 0) };
        let after = worked.call(state, Call::tick(FLOW, 1_000_000, 0))?;
        worked.expect("the activity", after.state.activity, activity)?;
        worked.expect("the reset time", after.state.reset, 0)?;
    }
    quiet_ticks(worked)
}

/// From allowance 142,000, nothing queued: quiescent at tick 9, inactive at tick 72.
fn quiet_ticks(worked: &mut Worked) -> Result<(), Failure> {
    let empty = with_delay(10_000, 0, 0);
    let mut state = State { allowance: 142_000, activity: ACTIVE, ..empty };
    for tick in 1..=73 {
        let after = worked.call(state, Call::tick(FLOW, 984_000 + 16_000 * tick, 0))?;
        let figure = match tick {
            1..=8 => ACTIVE,
            9..=71 => QUIESCENT,
            _ => INACTIVE,
        };
        worked.expect("the activity", after.state.activity, figure)?;
        state = after.state.record;
    }
    Ok(())
}
