//! W16 to W25: verdict, deciding rule, accumulated probability and activity of an arrival.

use super::{with_delay, Failure, Worked, FLOW};
use crate::kind::{arriving, packet, Call};
use crate::model::numbers::{ACTIVE, INACTIVE, QUIESCENT, WHOLE};
use crate::model::{self, State};
use crate::shared::kind::Lent;

/// An arrival: what is said of the state before it, and of the packet.
#[derive(Clone, Copy)]
struct Case {
    activity: u64,
    buffer: u64,
    slots: u64,
    old: u64,
    p: u64,
    accumulated: u64,
    bytes: u64,
    size: u32,
    u: u32,
}

/// What the page says where a number is silent.
const BASE: Case = Case {
    activity: ACTIVE,
    buffer: 30_000,
    slots: 64,
    old: 10_000,
    p: 0,
    accumulated: 0,
    bytes: 15_000,
    size: 1_024,
    u: 0,
};

const MOST: u64 = 58_411_555_225;
const FULL: u64 = 36_507_222_016;
const LAST: u32 = u32::MAX;

/// Name, case; then deciding rule, activity, allowance and accumulated probability after it.
#[rustfmt::skip]
const CASES: [(&str, Case, usize, u64, u64, u64); 34] = [
    ("W16", Case { activity: INACTIVE, bytes: 9_999, ..BASE }, 5, INACTIVE, 0, 0),
    ("W16", Case { activity: INACTIVE, bytes: 10_000, ..BASE }, 11, QUIESCENT, 0, 0),
    ("W16", Case { activity: INACTIVE, buffer: 30_001, bytes: 10_000, ..BASE }, 5, INACTIVE, 0, 0),
    ("W16", Case { activity: INACTIVE, buffer: 30_001, bytes: 10_001, ..BASE }, 11, QUIESCENT, 0, 0),
    ("W18", Case { accumulated: FULL, old: 4_999, p: 858_993_459, ..BASE }, 9, ACTIVE, 0, FULL),
    ("W18", Case { accumulated: FULL, old: 5_000, p: 858_993_459, ..BASE }, 12, ACTIVE, 0, 0),
    ("W18", Case { accumulated: FULL, old: 4_999, p: 858_993_460, ..BASE }, 12, ACTIVE, 0, 0),
    ("W18", Case { accumulated: FULL, p: WHOLE, bytes: 2_048, ..BASE }, 10, ACTIVE, 0, FULL),
    ("W18", Case { accumulated: FULL, p: WHOLE, bytes: 2_049, ..BASE }, 12, ACTIVE, 0, 0),
    ("W19", Case { p: 1, accumulated: 3_650_722_199, ..BASE }, 11, ACTIVE, 0, 3_650_722_200),
    ("W19", Case { p: 1, accumulated: 3_650_722_200, ..BASE }, 13, ACTIVE, 0, 0),
    ("W19", Case { p: MOST, size: 63, ..BASE }, 11, ACTIVE, 0, 3_593_679_667),
    ("W19", Case { p: MOST, size: 64, ..BASE }, 13, ACTIVE, 0, 0),
    ("W20", Case { p: 1, u: LAST, accumulated: FULL - 2, ..BASE }, 14, ACTIVE, 0, FULL - 1),
    ("W20", Case { p: 1, u: LAST, accumulated: FULL - 1, ..BASE }, 12, ACTIVE, 0, 0),
    ("W20", Case { p: 1, u: LAST, accumulated: FULL, ..BASE }, 12, ACTIVE, 0, 0),
    ("W21", Case { p: 5, u: 4, accumulated: WHOLE, ..BASE }, 13, ACTIVE, 0, 0),
    ("W21", Case { p: 5, u: 5, accumulated: WHOLE, ..BASE }, 14, ACTIVE, 0, WHOLE + 5),
    ("W21", Case { p: 5, size: 100, accumulated: WHOLE, ..BASE }, 14, ACTIVE, 0, WHOLE),
    ("W22", Case { p: WHOLE, u: 3_650_722_200, ..BASE }, 13, ACTIVE, 0, 0),
    ("W22", Case { p: WHOLE, u: 3_650_722_201, ..BASE }, 14, ACTIVE, 0, 3_650_722_201),
    ("W23", Case { accumulated: FULL, ..BASE }, 11, ACTIVE, 0, 0),
    ("W23", Case { activity: INACTIVE, bytes: 9_999, accumulated: 7, p: WHOLE, ..BASE },
        5, INACTIVE, 0, 7),
    ("W23", Case { activity: INACTIVE, bytes: 9_999, accumulated: 7, ..BASE }, 5, INACTIVE, 0, 0),
    ("W24", Case { p: WHOLE, activity: QUIESCENT, ..BASE }, 13, ACTIVE, 142_000, 0),
    ("W24", Case { p: WHOLE, ..BASE }, 13, ACTIVE, 0, 0),
    ("W24", Case { p: WHOLE, activity: INACTIVE, ..BASE }, 13, ACTIVE, 142_000, 0),
    ("W25", Case { activity: QUIESCENT, old: 0, size: 15_000, ..BASE }, 9, QUIESCENT, 0, 0),
    ("W25", Case { activity: QUIESCENT, old: 0, size: 15_001, accumulated: 7, ..BASE },
        1, QUIESCENT, 0, 0),
    ("W25", Case { slots: 10, accumulated: 7, ..BASE }, 2, ACTIVE, 0, 0),
    ("rule 1", Case { activity: INACTIVE, size: 15_001, p: WHOLE, ..BASE }, 1, INACTIVE, 0, 0),
    ("rule 2", Case { activity: QUIESCENT, slots: 10, p: WHOLE, ..BASE }, 2, QUIESCENT, 0, 0),
    ("rule 5", Case { bytes: 9_999, p: WHOLE, ..BASE }, 13, ACTIVE, 0, 0),
    ("rule 10", Case { bytes: 2_048, p: WHOLE, u: LAST, ..BASE }, 10, ACTIVE, 0, 3_650_722_201),
];

/// W17: probability, size, scaled probability.
#[rustfmt::skip]
const SCALED: [(u64, u32, u64); 10] = [
    (1, 1_023, 0), (1, 1_024, 1), (429_496_730, 1_500, 629_145_600),
    (WHOLE, 869, 3_644_850_176), (WHOLE, 870, 3_649_044_480), (WHOLE, 871, 3_650_722_201),
    (MOST, 63, 3_593_679_667), (MOST, 64, 3_650_722_201), (MOST, 65_535, 3_650_722_201),
    (58_411_555_209, 64, 3_650_722_200),
];

pub fn run(worked: &mut Worked) -> Result<(), Failure> {
    for (name, case, rule, activity, allowance, accumulated) in CASES {
        worked.name = name;
        one(worked, &case, rule, (activity, allowance, accumulated))?;
    }
    worked.name = "W17";
    for (p, size, figure) in SCALED {
        worked.expect("the model's scaled probability", model::scaled(p, size), figure)?;
        // Rule 10 enqueues a packet that finds 2,048 bytes, and the sum shows what was added.
        let buffer = 16_777_216;
        let case = Case { p, size, buffer, bytes: 2_048, ..BASE };
        one(worked, &case, 10, (ACTIVE, 0, figure))?;
    }
    allowance_runs(worked)
}

fn state(case: &Case) -> State {
    let mut state = with_delay(10_000, 0, case.old);
    (state.settings.buffer, state.settings.slots) = (case.buffer, case.slots);
    (state.activity, state.probability) = (case.activity, case.p);
    (state.accumulated, state.count, state.bytes) = (case.accumulated, 10, case.bytes);
    state
}

fn arrival(case: &Case) -> Call {
    let lent = Lent::both(case.slots as usize);
    Call::arrival(FLOW, lent, 1_000_000, packet(77, case.size, case.u))
}

fn one(
    worked: &mut Worked,
    case: &Case,
    rule: usize,
    (activity, allowance, accumulated): (u64, u64, u64),
) -> Result<(), Failure> {
    let call = arrival(case);
    let after = worked.call(state(case), call)?;
    let verdict = match rule {
        1 => 2,
        2 => 3,
        12 | 13 => 4,
        _ => 0,
    };
    worked.expect("the verdict", u64::from(after.answer), verdict)?;
    worked.expect("the activity", after.state.activity, activity)?;
    worked.expect("the allowance", after.state.allowance, allowance)?;
    worked.expect("the accumulated probability", after.state.accumulated, accumulated)?;
    let found = model::decide(&mut state(case), &arriving(call.packet())).rule;
    worked.expect("the model's rule", found as u64, rule as u64)
}

/// While the allowance runs nothing is added, and p 0 does not clear what was.
fn allowance_runs(worked: &mut Worked) -> Result<(), Failure> {
    worked.name = "rule 3";
    for p in [0, WHOLE] {
        let case = Case { p, accumulated: 7, ..BASE };
        let before = State { allowance: 1, ..state(&case) };
        let after = worked.call(before, arrival(&case))?;
        worked.expect("the verdict", u64::from(after.answer), 0)?;
        worked.expect("the accumulated probability", after.state.accumulated, 7)?;
    }
    Ok(())
}
