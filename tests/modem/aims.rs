//! Changes a well-formed record so that a call comes near chosen edges.

use crate::model::numbers::*;
use crate::model::{self, State};
use crate::shared::random::Random;
use crate::states;

/// Room for any small packet, and nothing that arrival rules 1 to 3 would decide.
fn make_room(s: &mut State) {
    s.settings.slots = s.settings.slots.max(2);
    s.settings.buffer = BUFFER.1;
    (s.count, s.allowance) = (1, 0);
    s.first = s.first.min(s.settings.slots - 1);
}

/// The flow is inactive, its bytes at a third of the buffer.
pub fn at_a_third(r: &mut Random, s: &mut State) {
    make_room(s);
    s.bytes = r.range(1, 60_000);
    s.settings.buffer = 3 * s.bytes + r.range(0, 4) - 2;
    if s.settings.buffer < s.bytes + 2 {
        s.settings.buffer = s.bytes + 2;
    }
    (s.activity, s.reset) = (INACTIVE, 0);
}

/// Arrival rules 7 to 10 decide, near their edges.
pub fn at_suppression(r: &mut Random, s: &mut State) {
    make_room(s);
    s.bytes = r.pick(&[2_047, 2_048, 2_049, 2_049, 60_000]);
    s.activity = r.pick(&[INACTIVE, QUIESCENT, ACTIVE]);
    if s.activity == INACTIVE {
        s.settings.buffer = (3 * s.bytes).max(s.bytes + 1);
    }
    s.reset = 0;
    s.old_delay = s.settings.target / 2 - 1 + r.range(0, 3);
    let any = states::probability(r);
    s.probability = r.pick(&[858_993_458, 858_993_459, 858_993_460, any, any]);
    if r.one_in(2) {
        s.accumulated = r.pick(&[WHOLE, HIGH - 1, HIGH]);
    }
}

/// The sums and the random number of arrival rules 11 to 14 decide on a packet of this size.
pub fn at_sums(r: &mut Random, s: &mut State, size: u32) {
    make_room(s);
    s.bytes = r.pick(&[2_049, 2_049, 60_000]);
    s.activity = r.pick(&[INACTIVE, QUIESCENT, QUIESCENT, ACTIVE, ACTIVE]);
    if s.activity == INACTIVE {
        s.settings.buffer = 3 * s.bytes;
    }
    s.reset = 0;
    s.old_delay = s.settings.target.div_ceil(2) + r.pick(&[0, 0, 1, DELAY_MAX / 2]);
    let any = states::probability(r);
    let limit = (LOW * 1_024).div_ceil(u64::from(size.max(1))) - 1 + r.range(0, 2);
    s.probability = r.pick(&[1, 5, 1_000, any, any, limit, limit, WHOLE]).min(PROBABILITY_MAX);
    let scaled = model::scaled(s.probability, size);
    let (low, high) = (LOW - 1 + r.range(0, 2), HIGH - 1 + r.range(0, 2));
    let sum = r.pick(&[low, low, high, high, 2 * WHOLE, HIGH + LOW]);
    s.accumulated = sum.saturating_sub(scaled).min(HIGH);
}

/// A delay that a tick without credits finds: bytes at a rate of 1,000,000.
fn set_delay(s: &mut State, delay: u64) {
    s.settings.slots = s.settings.slots.max(256);
    s.settings.buffer = BUFFER.1;
    s.settings.sustained = 1_000_000;
    s.bytes = delay;
    s.count = delay.div_ceil(SIZE.1);
    s.first = s.first.min(s.settings.slots - 1);
}

/// A tick that is quiet or just is not.
pub fn at_quiet(r: &mut Random, s: &mut State) {
    let half = s.settings.target / 2;
    set_delay(s, (half - 1 + r.range(0, 2)).min(60_000));
    s.old_delay = half - 1 + r.range(0, 2);
    s.activity = r.pick(&[INACTIVE, QUIESCENT, QUIESCENT, ACTIVE, ACTIVE]);
    (s.allowance, s.reset, s.probability) = (0, 0, 0);
    match s.activity {
        ACTIVE => s.allowance = r.pick(&[0, 0, 1, 14_000, 16_000, 16_001]),
        QUIESCENT => s.reset = states::reset(r),
        _ => {}
    }
    if s.reset == 0 && r.one_in(2) {
        let wanted = r.pick(&[-1, 0, 1]);
        s.probability = probability_before(s, s.bytes, wanted).unwrap_or(0);
    }
}

/// The probability from which a tick's step alone leads to `after`, if there is one.
fn probability_before(s: &State, delay: u64, after: i64) -> Option<u64> {
    BANDS.iter().find_map(|&(last, _)| {
        let p = after - model::step(&State { probability: last, ..*s }, delay);
        let same_band = p >= 0 && model::band(p as u64) == model::band(last);
        (same_band && p as u64 <= PROBABILITY_MAX).then_some(p as u64)
    })
}

/// A tick near the low and high delays, the cap, the target, or the ends of the probability.
pub fn at_ends(r: &mut Random, s: &mut State) {
    (s.allowance, s.reset) = (0, 0);
    match r.range(0, 5) {
        0 => at_low_delays(r, s),
        1 => {
            let high = HIGH_DELAY + r.range(0, 1);
            set_delay(s, high);
            s.old_delay = r.pick(&[high, high, HIGH_DELAY, DELAY_MAX]);
        }
        2 => {
            let capped = s.settings.target + 39_998 + r.range(0, 5);
            (s.probability, s.old_delay) = (TENTH - 1 + r.range(0, 2), capped);
            set_delay(s, capped);
        }
        3 => at_most(r, s),
        4 => {
            let near = s.settings.target - r.range(0, 6) + 1;
            set_delay(s, near);
            s.old_delay = near + r.pick(&[0, 0, 1_562]); // x -15,625 makes an exact step
            let (small, any) = (r.range(0, 4_294), states::probability(r));
            s.probability = r.pick(&[small, any]);
        }
        _ => {
            let any = states::delay(r, s.settings.target);
            set_delay(s, any.min(1_000_000));
            let wanted = r.pick(&[-1, 0, 1]);
            s.probability = probability_before(s, s.bytes, wanted).unwrap_or(s.probability);
        }
    }
}

/// Both delays beside 5,000, with a probability that is 49, 50, 99 or 100 after the step, or other.
fn at_low_delays(r: &mut Random, s: &mut State) {
    set_delay(s, LOW_DELAY - 1 + r.range(0, 1));
    s.old_delay = LOW_DELAY - 1 + r.range(0, 1);
    if r.one_in(2) {
        s.settings.target = r.pick(&[4_999, 5_000, 5_001]);
    }
    let any = r.range(0, 1_000_000) as i64;
    let wanted = r.pick(&[-60, 49, 50, 99, 100, any]);
    s.probability = probability_before(s, s.bytes, wanted).unwrap_or(s.probability);
}

/// A probability that the step, capped, and the ramp bring to 13.6 or beside it.
fn at_most(r: &mut Random, s: &mut State) {
    s.old_delay = r.range(0, 300_000);
    let high = HIGH_DELAY + r.range(0, 1);
    let wanted = r.pick(&[s.old_delay, high, s.settings.target]);
    set_delay(s, wanted);
    s.probability = PROBABILITY_MAX;
    let ramp = if wanted > HIGH_DELAY { CAP } else { 0 };
    let gain = model::step(s, wanted).min(CAP) + ramp;
    if gain > 0 {
        s.probability = (PROBABILITY_MAX - 1 + r.range(0, 2) - gain as u64).min(PROBABILITY_MAX);
    }
}

/// Bytes, rates and credits for which the delay is at or next to 10,000,000, or next to 0. Gives
/// the credits.
pub fn at_longest(r: &mut Random, s: &mut State) -> u32 {
    s.settings.slots = s.settings.slots.max(257);
    s.settings.buffer = BUFFER.1;
    s.settings.sustained = r.pick(&[1, 1, 2, 7, 1_000, 1_000_000, 1_250_000_000]);
    s.settings.peak = r.pick(&[1, 1, 2, 7, 1_000, 1_000_000, 1_250_000_000]);
    let rate = r.pick(&[s.settings.sustained, s.settings.peak]);
    let any = r.spread(1, BUFFER.1);
    s.bytes = r.pick(&[10 * rate, 10 * rate + 1, rate.div_ceil(1_000_000), BUFFER.1 + 1, any]);
    s.bytes = (s.bytes - r.range(0, 1)).clamp(1, BUFFER.1);
    s.count = s.bytes.div_ceil(SIZE.1);
    s.first = s.first.min(s.settings.slots - 1);
    credits(r, s)
}

/// No credits, some, as many as the bytes, or one more or less.
pub fn credits(r: &mut Random, s: &State) -> u32 {
    let bytes = s.bytes.min(u64::from(u32::MAX) - 1) as u32;
    let some = r.range(0, u64::from(bytes)) as u32;
    let any = r.number() as u32;
    r.pick(&[0, 0, some, some, bytes.saturating_sub(1), bytes, bytes + 1, u32::MAX, any])
}

/// An empty queue.
pub fn at_empty(s: &mut State) {
    (s.count, s.bytes) = (0, 0);
}
