//! W3 to W11 and the table of bands: the probability after a tick.

use super::{with_delay, Failure, Worked, FLOW};
use crate::kind::Call;
use crate::model::{self, State};

/// Name, target, probability, delay, old delay; the step before its cap, the probability after.
#[rustfmt::skip]
const STEPS: [(&str, u64, u64, u64, u64, i64, u64); 24] = [
    ("W3", 10_000, 5_000_000, 9_900, 10_000, -147_639, 4_852_361),
    ("W3", 10_000, 0, 10_001, 10_001, 0, 0),
    ("W3", 10_000, 0, 10_002, 10_002, 1, 1),
    ("W4", 10_000, 429_496_730, 50_000, 50_000, 85_899_345, 515_396_075),
    ("W4", 10_000, 429_496_730, 50_001, 50_001, 85_901_493, 515_396_075),
    ("W4", 10_000, 429_496_729, 170_004, 170_004, 85_901_493, 515_398_222),
    ("W5", 10_000, 429_496_730, 200_000, 200_000, 408_021_893, 515_396_075),
    ("W5", 10_000, 429_496_730, 200_001, 200_001, 408_024_040, 601_295_420),
    ("W6", 10_000, 1_000_000, 4_999, 4_999, -167_805, 815_552),
    ("W6", 10_000, 1_000_000, 4_999, 5_000, -168_141, 831_859),
    ("W6", 10_000, 1_000_000, 5_000, 4_999, -167_436, 832_564),
    ("W7", 4_999, 49, 4_999, 4_999, 0, 49),
    ("W7", 4_999, 50, 4_999, 4_999, 0, 49),
    ("W7", 4_999, 100, 4_999, 4_999, 0, 98),
    ("W8", 10_000, 4_294, 0, 0, -5_242, 0),
    ("W8", 10_000, 4_295, 0, 0, -20_971, 0),
    ("W8", 10_000, 20_972, 0, 0, -20_971, 1),
    ("W8", 10_000, 21_020, 0, 0, -20_971, 49),
    ("W8", 10_000, 21_021, 0, 0, -20_971, 49),
    ("W9", 1_000, 429_496_729, 10_000_000, 0, 59_055_263_449, 58_411_555_225),
    ("W10", 100_000, 58_411_555_225, 0, 10_000_000, -3_439_409_810_636, 0),
    ("W11", 10_000, 58_411_555_225, 10_000_000, 0, 3_779_227_623_096, 58_411_555_225),
    ("most", 1_000, 58_411_555_225, 10_000_000, 0, 3_779_536_860_741, 58_411_555_225),
    ("least", 100_000, 42_949_672_960, 0, 10_000_000, -3_439_409_810_636, 0),
];

/// The table of bands, delay 10,100 and old delay 10,000: first and last probability of a band,
/// step, and what the two become.
#[rustfmt::skip]
const BANDS: [(u64, u64, i64, u64, u64); 9] = [
    (0, 4_294, 576, 576, 4_870),
    (4_295, 42_949, 2_306, 6_601, 45_255),
    (42_950, 429_496, 9_227, 52_177, 438_723),
    (429_497, 4_294_967, 36_909, 466_406, 4_331_876),
    (4_294_968, 42_949_672, 147_639, 4_442_607, 43_097_311),
    (42_949_673, 429_496_729, 590_558, 43_540_231, 430_087_287),
    (429_496_730, 4_294_967_295, 2_362_232, 431_858_962, 4_297_329_527),
    (4_294_967_296, 42_949_672_959, 9_448_928, 4_304_416_224, 42_959_121_887),
    (42_949_672_960, 58_411_555_225, 37_795_712, 42_987_468_672, 58_411_555_225),
];

pub fn run(worked: &mut Worked) -> Result<(), Failure> {
    for (name, target, before, delay, old, step, after) in STEPS {
        worked.name = name;
        one(worked, target, before, (delay, old), step, after)?;
    }
    worked.name = "the table of bands";
    for (first, last, step, first_becomes, last_becomes) in BANDS {
        one(worked, 10_000, first, (10_100, 10_000), step, first_becomes)?;
        one(worked, 10_000, last, (10_100, 10_000), step, last_becomes)?;
    }
    Ok(())
}

fn one(
    worked: &mut Worked,
    target: u64,
    probability: u64,
    (delay, old): (u64, u64),
    step: i64,
    figure: u64,
) -> Result<(), Failure> {
    let state = State { probability, ..with_delay(target, delay, old) };
    let after = worked.call(state, Call::tick(FLOW, 1_000_000, 0))?;
    worked.expect("the delay", after.state.old_delay, delay)?;
    worked.expect("the probability", after.state.probability, figure)?;
    let found = model::step(&state, delay);
    worked.expect("the model's step is the page's: it", u64::from(found == step), 1)
}
