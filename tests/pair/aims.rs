//! Changes a queue so that a call comes near chosen edges.

use crate::model::numbers::*;
use crate::model::tick::step;
use crate::model::Queue;
use crate::shared::random::Random;
use crate::shared::single::Do;
use crate::states::{self, LOW_SUM};

/// Brings the called queue near an edge of the call, often.
pub fn aim(r: &mut Random, what: Do, q: &mut Queue) {
    match (what, r.range(0, 7)) {
        (Do::Arrival, 0 | 1) => at_late_rules(r, q),
        (Do::Arrival, 2..=4) => at_early_verdicts(r, q),
        (Do::Departure, 0..=2) => at_last_packet(r, q),
        (Do::Departure, 3) => at_start(r, q),
        (Do::Tick, 0 | 1) => at_refill(r, q),
        (Do::Tick, 2 | 3) => at_decay(r, q),
        _ => {}
    }
}

/// One packet queued of a buffer that has room for any other.
fn make_room(q: &mut Queue, bytes: u64) {
    (q.count, q.bytes, q.buffer) = (1, bytes, BUFFER.1);
}

/// Arrival rules 4 to 7 decide, near their edges.
fn at_late_rules(r: &mut Random, q: &mut Queue) {
    make_room(q, r.pick(&[2_999, 3_000, 3_001, 3_001, 60_000]));
    q.allowance = 0;
    q.old_delay = q.target / 2 - 1 + r.range(0, 3);
    let any = states::probability(r);
    q.probability = r.pick(&[858_993_458, 858_993_459, 858_993_460, any, any]);
    if r.one_in(2) {
        q.accumulated = WHOLE; // u decides
    }
}

/// None of arrival rules 1 to 5 decides on a small packet; the probability is near the one from
/// which nothing is marked, the sum near its edges.
fn at_early_verdicts(r: &mut Random, q: &mut Queue) {
    make_room(q, r.pick(&[3_001, 3_001, 60_000]));
    q.allowance = 0;
    q.old_delay = q.target.div_ceil(2) + r.pick(&[0, 0, 1, TIME_MAX / 2]);
    let any = states::probability(r);
    q.probability = r.pick(&[TENTH - 1, TENTH - 1, TENTH, TENTH, TENTH - 2, TENTH + 1, any, any]);
    let (low, high) = (LOW_SUM - 1 + r.range(0, 2), FORCED - 1 + r.range(0, 2));
    let any = r.range(0, FORCED - 1);
    let sum = r.pick(&[low, low, high, high, 2 * WHOLE, any]);
    q.accumulated = sum.saturating_sub(q.probability).min(FORCED - 1);
}

/// A measurement runs with one packet queued or two, and the head takes it to its end or just does
/// not.
fn at_last_packet(r: &mut Random, q: &mut Queue) {
    q.count = 1;
    while q.measuring == 0 {
        states::measurement(r, q);
    }
    let to_end = RATE_THRESHOLD - q.counted;
    let any = r.range(1, to_end);
    let bytes = r.pick(&[to_end - 1, to_end, to_end + 1, any]).max(1);
    make_room(q, bytes);
    if r.one_in(3) {
        (q.count, q.bytes) = (2, q.bytes + r.pick(&[1, 1_500, 20_000]));
    }
}

/// A small head leaves just the bytes with which a measurement starts, or one less.
fn at_start(r: &mut Random, q: &mut Queue) {
    make_room(q, RATE_THRESHOLD + r.range(0, 1));
    q.count = 2;
    (q.measuring, q.start, q.counted) = (0, 0, 0);
}

/// A tick fills the allowance or just does not.
fn at_refill(r: &mut Random, q: &mut Queue) {
    let half = q.target / 2;
    make_room(q, RATE_THRESHOLD); // the delay is the average
    q.average = half - 1 + r.range(0, 2);
    q.old_delay = half - 1 + r.range(0, 2);
    q.allowance = r.range(0, FULL_ALLOWANCE - 1);
    q.probability = 0;
    let loss = -step(q, q.average);
    if r.one_in(2) && (0..4_290).contains(&loss) {
        q.probability = loss as u64 + r.range(0, 2);
    }
}

/// Both delays are 0 at a tick, or one of them is not.
fn at_decay(r: &mut Random, q: &mut Queue) {
    make_room(q, 1);
    q.average = r.pick(&[0, 0, 0, 16_383, 16_384]);
    q.old_delay = r.pick(&[0, 0, 0, 1]);
    let (any, small) = (states::probability(r), r.range(0, 400_000));
    q.probability = r.pick(&[any, small]);
}

/// An empty queue, where no measurement runs.
pub fn at_empty(q: &mut Queue) {
    (q.count, q.bytes) = (0, 0);
    (q.measuring, q.start, q.counted) = (0, 0, 0);
}
