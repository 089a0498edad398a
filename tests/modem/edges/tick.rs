//! What happens at an accepted tick.

use crate::model::numbers::*;
use crate::model::{self, State};
use crate::shared::coverage::Found;

/// What single calls and long runs must both reach.
#[rustfmt::skip]
pub fn events(before: &State, credits: u32, after: &State) -> Found {
    let s = before;
    let delay = model::queueing_delay(s, credits);
    let controlled = s.allowance == 0;
    let stepped = s.probability as i64 + model::step(s, delay);
    let was = |activity: u64| s.activity == activity;
    vec![
        ("tick exactly when due", after.clock == s.last + TICK_PERIOD),
        ("clock 2^48 accepted", after.clock == CLOCK_MAX),
        ("all bytes at the peak rate", s.bytes > 0 && s.bytes <= u64::from(credits)),
        ("bytes at both rates", credits > 0 && s.bytes > u64::from(credits)),
        ("all bytes at the sustained rate", s.bytes > 0 && credits == 0),
        ("delay limited to 10,000,000", delay_sum(s, credits) > DELAY_MAX),
        ("allowance loses 16,000", s.allowance > 16_000 && after.allowance == s.allowance - 16_000),
        ("allowance ends", s.allowance > 0 && after.allowance == 0),
        ("allowance takes the probability to 0", s.allowance > 0 && s.probability > 0),
        ("step capped", controlled && s.probability >= TENTH && model::step(s, delay) > CAP),
        ("probability decays", controlled && delay < 5_000 && s.old_delay < 5_000 && stepped >= 50),
        ("probability ramps up", controlled && delay > 200_000),
        ("probability limited to 0", controlled && stepped < 0),
        ("active stays active", was(ACTIVE) && after.activity == ACTIVE),
        ("active becomes quiescent", was(ACTIVE) && after.activity == QUIESCENT),
        ("quiescent, reset time rises", was(QUIESCENT) && after.reset > s.reset),
        ("quiescent, reset time to 0", was(QUIESCENT) && s.reset > 0 && after.reset == 0
            && after.activity == QUIESCENT),
        ("quiescent becomes inactive", was(QUIESCENT) && after.activity == INACTIVE),
        ("inactive, probability above 0", was(INACTIVE) && after.probability > 0),
        ("sum kept", s.accumulated > 0 && after.accumulated == s.accumulated),
    ]
}

/// The sum of rule 1 before its limit.
fn delay_sum(s: &State, credits: u32) -> u64 {
    let (fast, slow) = model::terms(s, credits);
    fast + slow
}

/// Both sides of the edges of rules 1 and 2.
#[rustfmt::skip]
pub fn early_edges(before: &State, credits: u32, after: &State) -> Found {
    let s = before;
    let (fast, slow) = model::terms(s, credits);
    let (lent, set) = (u64::from(credits), &s.settings);
    let fast_bytes = s.bytes.min(lent);
    let left = |bytes: u64, rate: u64| bytes * 1_000_000 % rate != 0;
    let slow_left = left(s.bytes - fast_bytes, set.sustained);
    let fast_left = left(fast_bytes, set.peak);
    vec![
        ("credits one below the bytes", s.bytes > 0 && lent + 1 == s.bytes && lent > 0),
        ("credits equal to the bytes", s.bytes > 0 && lent == s.bytes),
        ("credits one above the bytes", s.bytes > 0 && lent == s.bytes + 1),
        ("credits 2^32 - 1", credits == u32::MAX && s.bytes > 0),
        ("no bytes, no credits", credits == 0 && s.bytes == 0),
        ("peak term rounded down", fast_left && slow == 0),
        ("sustained term rounded down", slow_left && fast == 0),
        ("both terms rounded down", fast_left && slow_left),
        ("peak above sustained, both used", fast > 0 && slow > 0 && set.peak > set.sustained),
        ("peak below sustained, both used", fast > 0 && slow > 0 && set.peak < set.sustained),
        ("peak equal to sustained, both used", fast > 0 && slow > 0 && set.peak == set.sustained),
        ("delay 9,999,999 or less of a long queue", (9_000_000..DELAY_MAX).contains(&(fast + slow))),
        ("delay just 10,000,000", fast + slow == DELAY_MAX),
        ("delay limited", fast + slow > DELAY_MAX && after.old_delay == DELAY_MAX),
        ("longest delay of all", slow == 16_777_216_000_000),
        ("longest delay at the peak rate", fast == 16_777_216_000_000),
        ("allowance 1", s.allowance == 1 && after.allowance == 0),
        ("allowance 15,999", s.allowance == 15_999 && after.allowance == 0),
        ("allowance 16,000", s.allowance == 16_000 && after.allowance == 0),
        ("allowance 16,001", s.allowance == 16_001 && after.allowance == 1),
        ("allowance 142,000", s.allowance == 142_000 && after.allowance == 126_000),
        ("allowance, delay above 200,000: no ramp", s.allowance > 0 && fast + slow > HIGH_DELAY
            && after.probability == 0),
    ]
}

/// Both sides of the edges of rules 3 to 8.
#[rustfmt::skip]
pub fn probability_edges(before: &State, credits: u32, after: &State) -> Found {
    let s = before;
    let delay = model::queueing_delay(s, credits);
    let step = model::step(s, delay);
    let p = s.probability;
    let free = s.allowance == 0;
    let capped = if p >= TENTH { step.min(CAP) } else { step };
    let stepped = p as i64 + capped;
    let both_low = delay < LOW_DELAY && s.old_delay < LOW_DELAY;
    let (x, target) = ((delay as i64 - s.settings.target as i64)
        + 10 * (delay as i64 - s.old_delay as i64), s.settings.target);
    let exact = x * 536_870_912 % (15_625 * BANDS[model::band(p)].1) == 0;
    let end = after.probability;
    let ramp = if delay > HIGH_DELAY { CAP } else { 0 };
    vec![
        ("step 0 of x above 0", free && x > 0 && step == 0),
        ("step 0 of x below 0", free && x < 0 && step == 0),
        ("x 0", free && x == 0 && p > 0),
        ("step below zero, rounded", free && step < 0 && !exact && stepped > 0 && !both_low),
        ("step below zero, exact", free && step < 0 && exact),
        ("cap: 429,496,729, step above it", free && p == TENTH - 1 && step > CAP),
        ("cap: 429,496,730, step above it", free && p == TENTH && step > CAP),
        ("cap: 429,496,730, step just the cap", free && p == TENTH && step == CAP),
        ("cap: step far above it", free && p >= TENTH && step > 100 * CAP),
        ("step far below zero, not capped", free && p >= TENTH && step < -100 * CAP),
        ("delay 4,999, old 4,999", free && delay == 4_999 && s.old_delay == 4_999 && stepped >= 50),
        ("delay 5,000, old 4,999", free && delay == 5_000 && s.old_delay == 4_999 && stepped >= 50),
        ("delay 4,999, old 5,000", free && delay == 4_999 && s.old_delay == 5_000 && stepped >= 50),
        ("decay of 49", free && both_low && stepped == 49 && end == 49),
        ("decay of 50", free && both_low && stepped == 50 && end == 49),
        ("decay of 99", free && both_low && stepped == 99 && end == 98),
        ("decay of 100", free && both_low && stepped == 100 && end == 98),
        ("decay of p below 0", free && both_low && stepped < -50),
        ("delay 200,000", free && delay == 200_000),
        ("delay 200,001", free && delay == 200_001),
        ("ramp of p below 0", free && stepped < 0 && ramp > 0 && end > 0),
        ("ramp does not reach 0", free && stepped + ramp < 0 && ramp > 0),
        ("probability 1 after a step below 0", free && step < 0 && end == 1),
        ("probability just 0", free && step < 0 && stepped == 0),
        ("probability one below 0", free && stepped == -1 && !both_low),
        ("probability just 13.6", free && stepped + ramp == PROBABILITY_MAX as i64 && !both_low),
        ("probability limited to 13.6", free && stepped + ramp > PROBABILITY_MAX as i64),
        ("probability limited to 13.6 by the ramp", free && stepped < PROBABILITY_MAX as i64
            && stepped + ramp > PROBABILITY_MAX as i64),
        ("delay at the target", free && delay == target),
    ]
}

/// Both sides of the edges of rules 9 to 12.
#[rustfmt::skip]
pub fn activity_edges(before: &State, credits: u32, after: &State) -> Found {
    let s = before;
    let delay = model::queueing_delay(s, credits);
    let target = s.settings.target;
    let (now, old) = (2 * delay, 2 * s.old_delay);
    let zero = after.probability == 0 && after.allowance == 0;
    let low = now < target && old < target;
    let was = |activity: u64| s.activity == activity;
    let rises = after.reset == s.reset + TICK_PERIOD;
    vec![
        ("quiet, 2 x delay = target - 1", was(QUIESCENT) && rises && now + 1 == target),
        ("quiet, 2 x delay = target - 2", was(QUIESCENT) && rises && now + 2 == target),
        ("not quiet, 2 x delay = target", was(QUIESCENT) && zero && old < target && now == target),
        ("not quiet, 2 x delay = target + 1", was(QUIESCENT) && zero && old < target && now == target + 1),
        ("quiet, 2 x old delay = target - 1", was(QUIESCENT) && rises && old + 1 == target),
        ("quiet, 2 x old delay = target - 2", was(QUIESCENT) && rises && old + 2 == target),
        ("not quiet, 2 x old delay = target", was(QUIESCENT) && zero && now < target && old == target),
        ("not quiet, 2 x old delay = target + 1", was(QUIESCENT) && zero && now < target && old == target + 1),
        ("not quiet, probability 1 now", was(QUIESCENT) && low && after.probability == 1),
        ("quiet, probability above 0 before", was(QUIESCENT) && rises && s.probability > 0),
        ("active: not quiet by the delay", was(ACTIVE) && zero && !low && after.activity == ACTIVE),
        ("active: not quiet by probability 1", was(ACTIVE) && low && s.allowance == 0
            && after.probability == 1),
        ("active: not quiet by allowance 1", was(ACTIVE) && low && after.allowance == 1
            && after.activity == ACTIVE),
        ("active: the tick that ends the allowance is quiet", was(ACTIVE) && s.allowance > 0
            && after.activity == QUIESCENT && after.reset == 0),
        ("active: quiet without an allowance before", was(ACTIVE) && s.allowance == 0
            && after.activity == QUIESCENT && after.reset == 0),
        ("inactive stays so at a quiet tick", was(INACTIVE) && zero && low && after.activity == INACTIVE
            && after.reset == 0),
        ("reset time 984,000", was(QUIESCENT) && s.reset == 984_000 && after.reset == 1_000_000),
        ("reset time 984,001", was(QUIESCENT) && s.reset == 984_001 && after.activity == INACTIVE),
        ("reset time 983,999", was(QUIESCENT) && s.reset == 983_999 && after.reset == 999_999),
        ("reset time 1,000,000, quiet", was(QUIESCENT) && s.reset == 1_000_000 && after.activity == INACTIVE),
        ("reset time 1,000,000, not quiet", was(QUIESCENT) && s.reset == 1_000_000
            && after.activity == QUIESCENT && after.reset == 0),
        ("last tick becomes a later clock", after.last > s.last + TICK_PERIOD && after.last == after.clock),
    ]
}
