//! Random well-formed states, near the ends of every range.

use crate::model::{self, State, BANDS, CLOCK_MAX, FORCED, TENTH, TIME_MAX, WHOLE};
use crate::shared::numbers::split;
use crate::shared::random::Random;

/// A well-formed state.
pub fn well_formed(r: &mut Random) -> State {
    let mut s = State::default();
    settings(r, &mut s);
    queue(r, &mut s);
    clocks(r, &mut s);
    control(r, &mut s);
    measurement(r, &mut s);
    let sum = r.pick(&[0, 1, 5, CLOCK_MAX - 1, 1_000_000, CLOCK_MAX / 2]);
    s.verdicts = split(r, sum);
    activity(r, &mut s);
    s
}

/// Plain and active, or calm and active, or calm and inactive with the probability 0.
fn activity(r: &mut Random, s: &mut State) {
    s.profile = r.range(0, 1);
    s.active = r.pick(&[1, 1, 1, 1, 2, 256, 1 << 32, 1 << 63, u64::MAX]);
    if s.profile == 1 && r.one_in(2) {
        (s.active, s.probability) = (0, 0);
    }
}

/// Makes an inactive queue active.
pub fn activate(s: &mut State) {
    s.active = s.active.max(1);
}

fn settings(r: &mut Random, s: &mut State) {
    let any = r.range(1_000, 100_000);
    s.target = r.pick(&[1_000, 1_001, 15_000, 15_001, 99_999, 100_000, any, any]);
    let any = r.spread(1, model::BUFFER.1);
    let most = model::BUFFER.1;
    s.buffer = r.pick(&[1, 2, 2_999, 3_001, 64_000, any, any, most - 1, most, most, most]);
    s.slots = match r.range(0, 299) {
        0 => r.pick(&[65_535, 65_536]),
        1..=9 => r.range(100, 400),
        10..=14 => 1_024 * r.range(1, 4), // tables of whole pages
        _ => r.pick(&[1, 2, 3, 4, 5, 8, 17]),
    };
}

fn queue(r: &mut Random, s: &mut State) {
    let most = s.slots.min(s.buffer);
    let any = r.range(0, most);
    s.count = r.pick(&[0, 1, 2, 3, most - 1, most, any, any]).min(most);
    let high = (65_535 * s.count).min(s.buffer);
    let any = r.range(s.count, high);
    let small = r.pick(&[2_999, 3_000, 3_001, 3_002, 1_500]);
    let rate = r.range(16_384 - 3, 16_384 + 3);
    let list = [s.count, s.count + 1, high, high.saturating_sub(1), small, rate, 16_384, any, any];
    s.bytes = r.pick(&list).min(high).max(s.count);
    if r.one_in(3) {
        s.buffer = (s.bytes + r.spread(0, 70_000)).clamp(1, model::BUFFER.1);
    }
    let any = r.range(0, s.slots - 1);
    s.first = r.pick(&[0, s.slots - 1, any, any]);
}

fn clocks(r: &mut Random, s: &mut State) {
    let (any, small) = (r.range(0, CLOCK_MAX), r.spread(0, CLOCK_MAX));
    let list = [0, 1, 15_000, CLOCK_MAX, CLOCK_MAX - 1, CLOCK_MAX - 15_000, any, any, small, small];
    s.clock = r.pick(&list);
    let ago = r.spread(0, s.clock);
    s.last = s.clock.saturating_sub(r.pick(&[0, 1, 14_999, 15_000, 15_001, ago, ago]));
}

fn control(r: &mut Random, s: &mut State) {
    s.probability = probability(r);
    s.old_delay = delay(r, s.target, s.target);
    let any = r.range(0, 150_000);
    s.allowance = r.pick(&[0, 0, 0, 0, 0, 1, 14_999, 15_000, 15_001, 149_999, 150_000, any]);
    let (any, small) = (r.range(0, FORCED - 1), r.spread(0, WHOLE));
    s.accumulated = r.pick(&[0, 0, small, WHOLE, WHOLE, any, any, FORCED - 2, FORCED - 1]);
    let any = r.spread(0, TIME_MAX);
    s.average = r.pick(&[0, 1, 2, any, any, TIME_MAX - 1, TIME_MAX]);
    if s.bytes > 0 && r.one_in(2) {
        // An average that gives a delay near the wanted one.
        let balance = (s.target + 10 * s.old_delay) / 11;
        let wanted = delay(r, s.target, balance);
        s.average = (wanted * 16_384).div_ceil(s.bytes).min(TIME_MAX);
    }
}

/// A probability at or next to the ends of a band, or any other.
pub fn probability(r: &mut Random) -> u64 {
    let (band, any) = (r.pick(&BANDS).0, r.spread(0, WHOLE));
    let fifth = r.pick(&[858_993_458, 858_993_459, 858_993_460, 858_993_461]);
    let small = r.range(0, 130);
    let list = [0, 0, band - 1, band, band, band + 1, fifth, small, WHOLE, WHOLE - 1, any, any];
    r.pick(&list).min(WHOLE)
}

/// A delay next to half the target, to the target, to `near`, or at the ends of its range.
fn delay(r: &mut Random, target: u64, near: u64) -> u64 {
    let half = target / 2 - 1 + r.range(0, 3);
    let whole = target - 1 + r.range(0, 2);
    let beside = near.saturating_sub(5) + r.range(0, 10);
    let end = TIME_MAX - r.range(0, 1);
    let any = r.spread(0, TIME_MAX);
    r.pick(&[0, 0, 1, half, half, whole, beside, beside, end, any]).min(TIME_MAX)
}

/// A measurement that runs, two times of three; none on an empty queue.
pub fn measurement(r: &mut Random, s: &mut State) {
    if s.count == 0 || r.one_in(3) {
        return;
    }
    s.measuring = r.pick(&[1, 1, 1, 1, 2, 256, 1 << 32, 1 << 63, u64::MAX]);
    let ago = r.spread(0, s.clock);
    let list = [0, 1, 2, TIME_MAX - 1, TIME_MAX, TIME_MAX + 1, ago, ago, s.clock];
    s.start = s.clock.saturating_sub(r.pick(&list));
    let any = r.range(0, 16_383);
    s.counted = r.pick(&[0, 1, 16_382, 16_383, any, any]);
}

/// Changes a well-formed state so that arrival rules 4 to 7 decide, near their edges.
pub fn aim_at_late_rules(r: &mut Random, s: &mut State) {
    (s.slots, s.buffer) = (s.slots.max(2), model::BUFFER.1);
    (s.count, s.bytes) = (1, r.pick(&[2_999, 3_000, 3_001, 3_001, 60_000]));
    s.allowance = 0;
    activate(s);
    s.old_delay = s.target / 2 - 1 + r.range(0, 3);
    let any = probability(r);
    s.probability = r.pick(&[858_993_458, 858_993_459, 858_993_460, any, any]);
    if r.one_in(2) {
        s.accumulated = WHOLE; // u decides
    }
}

/// Changes a well-formed state so that none of arrival rules 1 to 5 decides on a small packet,
/// with a probability near the one from which nothing is marked, and a sum near its edges.
pub fn aim_at_early_verdicts(r: &mut Random, s: &mut State) {
    (s.slots, s.buffer) = (s.slots.max(2), model::BUFFER.1);
    (s.count, s.bytes) = (1, r.pick(&[3_001, 3_001, 60_000]));
    s.allowance = 0;
    activate(s);
    s.old_delay = s.target.div_ceil(2) + r.pick(&[0, 0, 1, TIME_MAX / 2]);
    let any = probability(r);
    s.probability = r.pick(&[TENTH - 1, TENTH - 1, TENTH, TENTH, TENTH - 2, TENTH + 1, any, any]);
    let (low, high) = (LOW_SUM - 1 + r.range(0, 2), FORCED - 1 + r.range(0, 2));
    let any = r.range(0, FORCED - 1);
    let sum = r.pick(&[low, low, high, high, 2 * WHOLE, any]);
    s.accumulated = sum.saturating_sub(s.probability).min(FORCED - 1);
}

/// The first sum of probabilities with which u is asked: 20 times it is not below 17 x 2^32.
pub const LOW_SUM: u64 = 3_650_722_202;

/// Changes a well-formed state so that a measurement runs with one packet queued or two, and the
/// head takes it to its end or just does not.
pub fn aim_at_last_packet(r: &mut Random, s: &mut State) {
    (s.slots, s.buffer) = (s.slots.max(2), model::BUFFER.1);
    s.count = 1;
    while s.measuring == 0 {
        measurement(r, s);
    }
    let to_end = model::RATE_THRESHOLD - s.counted;
    let any = r.range(1, to_end);
    s.bytes = r.pick(&[to_end - 1, to_end, to_end + 1, any]).max(1);
    if r.one_in(3) {
        (s.count, s.bytes) = (2, s.bytes + r.pick(&[1, 1_500, 20_000]));
    }
}

/// Changes a state so that its queue is empty and no measurement runs.
pub fn empty(s: &mut State) {
    (s.count, s.bytes) = (0, 0);
    (s.measuring, s.start, s.counted) = (0, 0, 0);
}

/// Changes a well-formed state so that a tick fills the allowance or just does not.
pub fn aim_at_refill(r: &mut Random, s: &mut State) {
    let half = s.target / 2;
    s.buffer = model::BUFFER.1;
    (s.count, s.bytes) = (1, 16_384); // the delay is the average
    s.average = half - 1 + r.range(0, 2);
    s.old_delay = half - 1 + r.range(0, 2);
    s.allowance = r.range(0, 149_999);
    s.probability = 0;
    activate(s);
    let loss = -model::step(s, s.average);
    if r.one_in(2) && (0..4_290).contains(&loss) {
        s.probability = loss as u64 + r.range(0, 2);
    }
    if r.one_in(2) {
        s.buffer = 3 * s.bytes - 1 + r.range(0, 1);
    }
}

/// Changes a well-formed state so that it is inactive with about a third of its buffer queued, or
/// with all of it, and all its slots taken or not.
pub fn aim_at_activation(r: &mut Random, s: &mut State) {
    (s.profile, s.active, s.probability) = (1, 0, 0);
    s.count = r.pick(&[1, s.slots.min(85), s.slots.min(85), s.count.max(1)]);
    let most = (65_535 * s.count).min(model::BUFFER.1 / 3);
    let any = r.spread(s.count, most);
    s.bytes = r.pick(&[s.count, 3_001, any, any]).clamp(s.count, most);
    s.buffer = r.pick(&[3 * s.bytes - 1, 3 * s.bytes, 3 * s.bytes + 1, s.bytes, s.bytes + 1]);
    s.accumulated = r.pick(&[0, 1, WHOLE, FORCED - 1]);
    s.old_delay = r.pick(&[0, 1, s.target, TIME_MAX]);
    s.allowance = r.pick(&[0, 0, 1, 149_999, 150_000]);
}

/// Changes a well-formed state so that a tick's step is about the greatest of the calm profile,
/// with a probability about one tenth or near the whole.
pub fn aim_at_cap(r: &mut Random, s: &mut State) {
    activate(s);
    s.probability = r.pick(&[TENTH - 1, TENTH, TENTH, TENTH + 1, WHOLE - 1, WHOLE - 85_899_345]);
    s.buffer = model::BUFFER.1;
    (s.count, s.bytes) = (1, 16_384); // the delay is the average
    s.average = r.range(20_000, 150_000);
    let x = r.pick(&[159_999, 160_000, 160_000, 160_001, 160_001, 320_001, 320_002, 800_000]);
    // x = (delay - target) + 10 x (delay - old delay); the target takes what 10 does not divide.
    s.target = 15_000 + (11 * s.average + 1_000_000 - x) % 10;
    let wanted = (11 * s.average).checked_sub(s.target + x);
    s.old_delay = wanted.map_or(0, |ten_times| ten_times / 10);
    if r.one_in(8) {
        s.old_delay = TIME_MAX;
    }
}
