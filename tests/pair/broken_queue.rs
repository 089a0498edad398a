//! A queue with one condition broken.

use crate::model::numbers::*;
use crate::model::Queue;
use crate::shared::numbers::{above, outside, too_many, wild};
use crate::shared::random::Random;

/// Breaks one condition on a queue, and no other where that can be. Numbers as in `formed::OF_QUEUE`.
pub fn break_queue(r: &mut Random, q: &mut Queue, slots: u64, condition: usize) {
    match condition {
        0 => q.target = outside(r, q.target, TARGET),
        1 => break_buffer(r, q),
        2 => q.last = above(r, q.last, q.clock),
        3 => q.clock = above(r, q.clock, CLOCK_MAX),
        4 => q.probability = above(r, q.probability, WHOLE),
        5 => q.old_delay = above(r, q.old_delay, TIME_MAX),
        6 => q.allowance = above(r, q.allowance, FULL_ALLOWANCE),
        7 => q.accumulated = above(r, q.accumulated, FORCED - 1),
        8 => q.average = above(r, q.average, TIME_MAX),
        9 => q.head = above(r, q.head, slots - 1),
        10 => q.tail = above(r, q.tail, slots - 1),
        11 => q.count = above(r, q.count, slots),
        12..=14 => break_bytes(r, q, condition),
        15..=19 => break_measurement(r, q, condition),
        _ => q.verdicts = too_many(r),
    }
}

fn break_buffer(r: &mut Random, q: &mut Queue) {
    q.buffer = above(r, q.buffer, BUFFER.1);
    if q.count == 0 && r.one_in(2) {
        q.buffer = 0;
    }
}

fn break_bytes(r: &mut Random, q: &mut Queue, condition: usize) {
    if r.one_in(8) {
        q.bytes = wild(r, q.bytes); // more than one condition may break
        return;
    }
    match condition {
        12 => q.bytes = q.count.saturating_sub(1),
        13 => {
            q.bytes = SIZE.1 * q.count + 1;
            q.buffer = q.buffer.max(q.bytes);
        }
        _ => q.buffer = q.bytes.saturating_sub(1).max(1),
    }
}

fn break_measurement(r: &mut Random, q: &mut Queue, condition: usize) {
    let runs = condition < 17 || condition == 19;
    q.measuring = u64::from(runs);
    if !runs {
        (q.start, q.counted) = (0, 0);
    }
    match condition {
        15 => q.start = above(r, q.start, q.clock),
        16 => q.counted = above(r, q.counted, RATE_THRESHOLD - 1),
        17 => {
            let any = r.spread(1, q.clock);
            q.start = r.pick(&[1, q.clock, any]).min(q.clock);
        }
        18 => q.counted = r.pick(&[1, 16_383, 8_192]),
        _ => {
            q.start = r.pick(&[0, q.clock]);
            q.measuring = r.pick(&[1, 2, 1 << 32, u64::MAX]);
        }
    }
}
