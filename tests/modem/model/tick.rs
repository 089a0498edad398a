//! Tick: the page's rules 1 to 12.

use super::numbers::*;
use super::refusals::{given, tick_refusals};
use super::{Counts, State};

/// The two terms of rule 1: what leaves at the peak rate, and what at the sustained rate.
pub fn terms(s: &State, credits: u32) -> (u64, u64) {
    let fast = s.bytes.min(u64::from(credits));
    let slow = s.bytes - fast;
    (fast * 1_000_000 / s.settings.peak, slow * 1_000_000 / s.settings.sustained)
}

/// Rule 1.
pub fn queueing_delay(s: &State, credits: u32) -> u64 {
    let (fast, slow) = terms(s, credits);
    (fast + slow).min(DELAY_MAX)
}

/// The place of a probability in `BANDS`.
pub fn band(probability: u64) -> usize {
    BANDS.iter().position(|&(last, _)| probability <= last).unwrap_or(BANDS.len() - 1)
}

/// Rules 3 to 5: the step before its cap.
pub fn step(s: &State, delay: u64) -> i64 {
    let (delay, old, target) = (delay as i64, s.old_delay as i64, s.settings.target as i64);
    let x = (delay - target) + 10 * (delay - old);
    let k = BANDS[band(s.probability)].1;
    x * 536_870_912 / (15_625 * k)
}

/// Rules 3 to 8: the next probability of a flow without an allowance.
fn next_probability(s: &State, delay: u64) -> u64 {
    let mut step = step(s, delay);
    if s.probability >= TENTH && step > CAP {
        step = CAP; // 6
    }
    let mut p = s.probability as i64 + step;
    if delay < LOW_DELAY && s.old_delay < LOW_DELAY {
        p -= p / 50; // 7
    }
    if delay > HIGH_DELAY {
        p += CAP; // 7
    }
    p.clamp(0, PROBABILITY_MAX as i64) as u64 // 8
}

/// Rule 9, asked after rules 2 to 8 and before rule 12.
fn is_quiet(s: &State, delay: u64) -> bool {
    let target = s.settings.target;
    s.probability == 0 && s.allowance == 0 && 2 * delay < target && 2 * s.old_delay < target
}

/// Rules 10 and 11, each by the activity before the tick.
fn next_activity(s: &mut State, quiet: bool) {
    match s.activity {
        ACTIVE if quiet => {
            s.activity = QUIESCENT; // 10
            s.reset = 0;
        }
        QUIESCENT => {
            s.reset = if quiet { s.reset + TICK_PERIOD } else { 0 }; // 11
            if s.reset > RESET_TIMEOUT {
                s.reset = 0;
                s.activity = INACTIVE;
            }
        }
        _ => {}
    }
}

/// The periodic update, or the number of the refusal.
pub fn tick(
    s: &mut State,
    counts: &Counts,
    flow: u32,
    clock: u64,
    credits: u32,
) -> Result<(), u32> {
    given(tick_refusals(s, counts, flow, clock))?;
    let before = *s;
    s.clock = clock;
    let delay = queueing_delay(&before, credits); // 1
    if before.allowance > 0 {
        s.probability = 0; // 2
        s.allowance = before.allowance.saturating_sub(TICK_PERIOD);
    } else {
        s.probability = next_probability(&before, delay);
    }
    let quiet = is_quiet(s, delay);
    next_activity(s, quiet);
    s.old_delay = delay; // 12
    s.last = clock;
    Ok(())
}
