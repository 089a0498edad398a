//! Tick: the document's, on the called queue (17).

use super::numbers::*;
use super::refusals::{lowest, tick_refusals};
use super::{Queue, Records};

/// Rule 1: the queueing delay.
pub fn queueing_delay(q: &Queue) -> u64 {
    let delay = q.bytes * q.average / RATE_THRESHOLD;
    delay.min(TIME_MAX)
}

/// Rule 3: the band of a drop probability, 0 to 6.
pub fn band(probability: u64) -> usize {
    BANDS.iter().position(|&(last, _)| probability <= last).unwrap_or(6)
}

/// Rules 2 to 4: the signed step of the drop probability. Division is toward zero.
pub fn step(q: &Queue, delay: u64) -> i64 {
    let (delay, old, target) = (delay as i64, q.old_delay as i64, q.target as i64);
    let x = (delay - target) + 10 * (delay - old);
    let k = BANDS[band(q.probability)].1;
    x * 8_388_608 / (15_625 * k)
}

/// Rules 2 to 6: the drop probability after a tick.
fn next_probability(q: &Queue, delay: u64) -> u64 {
    let mut p = q.probability as i64 + step(q, delay);
    if delay == 0 && q.old_delay == 0 && p > 0 {
        p -= p / 64; // 5
    }
    p.clamp(0, WHOLE as i64) as u64 // 6
}

/// The periodic update, or the number of the refusal.
pub fn tick(r: &mut Records, queue: usize, clock: u64) -> Result<(), u32> {
    lowest(tick_refusals(r, queue, clock))?;
    let q = &mut r.queues[queue];
    let delay = queueing_delay(q);
    update(q, delay, clock);
    q.clock = clock;
    Ok(())
}

/// Rules 2 to 9.
pub fn update(q: &mut Queue, delay: u64, clock: u64) {
    q.probability = next_probability(q, delay);
    q.allowance = q.allowance.saturating_sub(TICK_PERIOD); // 7
    if q.probability == 0 && 2 * delay < q.target && 2 * q.old_delay < q.target {
        q.allowance = FULL_ALLOWANCE; // 8
    }
    q.old_delay = delay; // 9
    q.last = clock;
}
