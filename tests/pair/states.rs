//! Random records, near the ends of every range.

use crate::model::numbers::*;
use crate::model::{self, Queue, Records};
use crate::shared::kind::{Arriving, View};
pub use crate::shared::numbers::split;
use crate::shared::random::Random;

/// Slots, counts and all that is not storage. Reserves and places come from `layout::lay_out`, together
/// with the tables.
pub fn records(r: &mut Random) -> Records {
    let mut records = Records::default();
    let slots = slots(r);
    records.shared.slots = slots;
    let mut left = slots;
    for queue in r.pick(&[[0, 1], [1, 0]]) {
        let q = &mut records.queues[queue];
        settings(r, q);
        contents(r, q, left);
        clocks(r, q);
        control(r, q);
        measurement(r, q);
        q.verdicts = sound_counts(r);
        left -= q.count;
    }
    records
}

pub fn slots(r: &mut Random) -> u64 {
    match r.range(0, 299) {
        0 => r.pick(&[65_535, 65_536]),
        1..=9 => r.range(100, 400),
        10..=17 => 1_024 * r.range(1, 2), // tables of whole pages
        _ => r.pick(&[1, 2, 3, 4, 5, 6, 8, 17]),
    }
}

pub fn settings(r: &mut Random, q: &mut Queue) {
    let any = r.range(TARGET.0, TARGET.1);
    q.target = r.pick(&[1_000, 1_001, 14_999, 15_000, 15_000, 99_999, 100_000, any, any]);
    let (any, most) = (r.spread(1, BUFFER.1), BUFFER.1);
    q.buffer = r.pick(&[1, 2, 3, 3_000, 64_000, any, any, most - 1, most, most, most]);
}

/// At most so many packets, with bytes that they can have.
fn contents(r: &mut Random, q: &mut Queue, left: u64) {
    let most = left.min(q.buffer);
    let any = r.range(0, most);
    q.count = r.pick(&[0, 0, 1, 2, 3, most, any, any]).min(most);
    let high = (SIZE.1 * q.count).min(q.buffer);
    let any = r.range(q.count, high);
    let small = r.pick(&[2_999, 3_000, 3_001, 16_384]);
    let list = [q.count, q.count + 1, high, high.saturating_sub(1), small, small, any, any];
    q.bytes = r.pick(&list).min(high).max(q.count);
    if r.one_in(3) {
        let room = q.bytes + r.spread(0, 70_000);
        q.buffer = room.clamp(1, BUFFER.1);
    }
}

pub fn clocks(r: &mut Random, q: &mut Queue) {
    let (any, small) = (r.range(0, CLOCK_MAX), r.spread(0, CLOCK_MAX));
    let list = [0, 1, 15_000, CLOCK_MAX, CLOCK_MAX - 1, CLOCK_MAX - 15_000, any, any, small, small];
    q.clock = r.pick(&list);
    let ago = r.spread(0, q.clock);
    q.last = q.clock.saturating_sub(r.pick(&[0, 1, 14_999, 15_000, 15_001, ago, ago]));
}

pub fn control(r: &mut Random, q: &mut Queue) {
    q.probability = probability(r);
    q.old_delay = delay(r, q.target);
    let any = r.range(0, FULL_ALLOWANCE);
    let list = [0, 0, 0, 1, 14_999, 15_000, 15_001, FULL_ALLOWANCE - 1, FULL_ALLOWANCE, any];
    q.allowance = r.pick(&list);
    let (any, small) = (r.range(0, FORCED - 1), r.spread(0, WHOLE));
    q.accumulated = r.pick(&[0, 0, 5, small, LOW_SUM - 1, LOW_SUM, WHOLE, any, FORCED - 1]);
    let (any, low) = (r.range(0, TIME_MAX), r.spread(0, 100_000));
    q.average = r.pick(&[0, 0, 1, low, low, any, TIME_MAX - 1, TIME_MAX]);
}

/// The first sum of probabilities with which u is asked: 20 times it is not below 17 x 2^32.
pub const LOW_SUM: u64 = 3_650_722_202;

/// A probability at or next to the ends of a band, or any other.
pub fn probability(r: &mut Random) -> u64 {
    let (band, any) = (r.pick(&BANDS).0, r.spread(0, WHOLE));
    let fifth = r.pick(&[858_993_458, 858_993_459, 858_993_460]);
    let list = [0, 0, band - 1, band, band + 1, band + 1, fifth, WHOLE - 1, WHOLE, any, any];
    r.pick(&list).min(WHOLE)
}

/// A delay next to half the target, to the target, or to an end.
pub fn delay(r: &mut Random, target: u64) -> u64 {
    let half = target / 2 - 1 + r.range(0, 3);
    let whole = target - 1 + r.range(0, 2);
    let end = TIME_MAX - r.range(0, 1);
    let any = r.spread(0, TIME_MAX);
    r.pick(&[0, 0, 0, 1, half, half, whole, end, any, any]).min(TIME_MAX)
}

/// A measurement that runs, two times of three; none on an empty queue.
pub fn measurement(r: &mut Random, q: &mut Queue) {
    (q.measuring, q.start, q.counted) = (0, 0, 0);
    if q.count == 0 || r.one_in(3) {
        return;
    }
    q.measuring = r.pick(&[1, 1, 1, 1, 2, 256, 1 << 32, 1 << 63, u64::MAX]);
    let ago = r.spread(0, q.clock);
    let list = [0, 1, 2, TIME_MAX - 1, TIME_MAX, TIME_MAX + 1, ago, ago, q.clock];
    q.start = q.clock.saturating_sub(r.pick(&list));
    let any = r.range(0, RATE_THRESHOLD - 1);
    q.counted = r.pick(&[0, 1, 16_382, 16_383, any, any]);
}

pub fn sound_counts(r: &mut Random) -> [u64; 5] {
    let sum = r.pick(&[0, 1, 5, COUNTS_MAX - 1, 1_000_000, COUNTS_MAX / 2]);
    split(r, sum)
}

/// The model's arguments of an arrival.
pub fn arriving(p: &Arriving) -> model::Arriving {
    model::Arriving { handle: p.handle, size: p.size, ecn: p.ecn, u: p.u }
}

#[rustfmt::skip]
pub fn view_of(q: &Queue, slots: u64) -> View {
    let Queue { buffer, clock, last, count, bytes, probability, target, old_delay, allowance, accumulated, verdicts, .. } = *q;
    View { slots, buffer, clock, last, count, bytes, probability, target, old_delay, allowance, accumulated, verdicts }
}
