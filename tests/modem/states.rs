//! Random well-formed records with their counts, near the ends of every range.

use crate::model::numbers::*;
use crate::model::{Counts, Row, State};
use crate::shared::numbers::split;
use crate::shared::random::Random;

/// A well-formed record. The row that goes with it is any sound one.
pub fn well_formed(r: &mut Random) -> State {
    let mut s = State::default();
    settings(r, &mut s);
    queue(r, &mut s);
    clocks(r, &mut s);
    control(r, &mut s);
    activity(r, &mut s);
    s
}

fn settings(r: &mut Random, s: &mut State) {
    let set = &mut s.settings;
    let any = r.range(TARGET.0, TARGET.1);
    set.target = r.pick(&[1_000, 1_001, 4_999, 10_000, 10_000, 10_001, 99_999, 100_000, any, any]);
    let (any, most) = (r.spread(1, BUFFER.1), BUFFER.1);
    set.buffer = r.pick(&[1, 2, 3, 2_048, 6_144, 30_000, any, any, most - 1, most, most, most]);
    set.slots = match r.range(0, 299) {
        0 => r.pick(&[65_535, 65_536]),
        1..=9 => r.range(100, 400),
        10..=14 => 1_024 * r.range(1, 4), // tables of whole pages
        _ => r.pick(&[1, 2, 3, 4, 5, 8, 17]),
    };
    (set.peak, set.sustained) = (rate(r), rate(r));
    if r.one_in(8) {
        set.peak = set.sustained;
    }
}

fn rate(r: &mut Random) -> u64 {
    let (any, spread) = (r.range(RATE.0, RATE.1), r.spread(RATE.0, RATE.1));
    r.pick(&[1, 2, 999_999, 1_000_000, 1_000_001, any, spread, spread, RATE.1 - 1, RATE.1])
}

fn queue(r: &mut Random, s: &mut State) {
    let most = s.settings.slots.min(s.settings.buffer);
    let any = r.range(0, most);
    s.count = r.pick(&[0, 1, 2, 3, most - 1, most, any, any]).min(most);
    let high = (SIZE.1 * s.count).min(s.settings.buffer);
    let any = r.range(s.count, high);
    let small = r.pick(&[2_047, 2_048, 2_049, 1_500]);
    let list = [s.count, s.count + 1, high, high.saturating_sub(1), small, small, any, any];
    s.bytes = r.pick(&list).min(high).max(s.count);
    if r.one_in(3) {
        let third = (3 * s.bytes + r.range(0, 3)).saturating_sub(1);
        let room = s.bytes + r.spread(0, 70_000);
        s.settings.buffer = r.pick(&[room, third]).max(s.bytes).clamp(1, BUFFER.1);
    }
    let (any, last) = (r.range(0, s.settings.slots - 1), s.settings.slots - 1);
    s.first = r.pick(&[0, last, any, any]);
}

fn clocks(r: &mut Random, s: &mut State) {
    let (any, small) = (r.range(0, CLOCK_MAX), r.spread(0, CLOCK_MAX));
    let list = [0, 1, 16_000, CLOCK_MAX, CLOCK_MAX - 1, CLOCK_MAX - 16_000, any, any, small, small];
    s.clock = r.pick(&list);
    let ago = r.spread(0, s.clock);
    s.last = s.clock.saturating_sub(r.pick(&[0, 1, 15_999, 16_000, 16_001, ago, ago]));
}

fn control(r: &mut Random, s: &mut State) {
    s.probability = probability(r);
    s.old_delay = delay(r, s.settings.target);
    let (any, small) = (r.range(0, HIGH), r.spread(0, WHOLE));
    s.accumulated = r.pick(&[0, 0, 7, small, LOW - 1, LOW, WHOLE, any, any, HIGH - 1, HIGH]);
}

/// One of the three activities, with the allowance and the reset time that it may have.
fn activity(r: &mut Random, s: &mut State) {
    s.activity = r.pick(&[INACTIVE, QUIESCENT, QUIESCENT, ACTIVE, ACTIVE]);
    if s.activity == ACTIVE && r.one_in(2) {
        s.allowance = allowance(r);
    }
    if s.activity == QUIESCENT && r.one_in(2) {
        s.probability = 0;
        s.reset = reset(r);
    }
}

pub fn allowance(r: &mut Random) -> u64 {
    let any = r.range(1, FULL_ALLOWANCE);
    r.pick(&[1, 14_000, 15_999, 16_000, 16_001, 32_000, FULL_ALLOWANCE - 1, FULL_ALLOWANCE, any])
}

pub fn reset(r: &mut Random) -> u64 {
    let any = r.range(1, RESET_TIMEOUT);
    let whole = 16_000 * r.range(0, 62);
    r.pick(&[0, 1, whole, 976_000, 983_999, 984_000, 984_001, 992_000, RESET_TIMEOUT, any])
}

/// A probability at or next to the ends of a band, or any other.
pub fn probability(r: &mut Random) -> u64 {
    let (band, any) = (r.pick(&BANDS).0, r.spread(0, PROBABILITY_MAX));
    let fifth = r.pick(&[858_993_458, 858_993_459, 858_993_460, 858_993_461]);
    let (small, most) = (r.range(0, 110), PROBABILITY_MAX);
    let list = [0, 0, band - 1, band, band, band + 1, fifth, small, WHOLE, most, any, any];
    r.pick(&list).min(most)
}

/// A delay next to half the target, to the target, to the low and high delay, or to an end.
pub fn delay(r: &mut Random, target: u64) -> u64 {
    let half = target / 2 - 1 + r.range(0, 3);
    let whole = target - 1 + r.range(0, 2);
    let low = LOW_DELAY - 2 + r.range(0, 3);
    let high = HIGH_DELAY - 1 + r.range(0, 2);
    let end = DELAY_MAX - r.range(0, 1);
    let any = r.spread(0, DELAY_MAX);
    r.pick(&[0, 0, 1, half, half, whole, low, low, high, end, any]).min(DELAY_MAX)
}

/// Sixteen rows: that of `flow` sound, the others anything at all.
pub fn counts(r: &mut Random, flow: u32, row: Row) -> Counts {
    let mut counts = [[0; 5]; 16];
    let all = r.pick(&[0, 1, 2]);
    for other in counts.iter_mut() {
        *other = match all {
            0 => [u64::MAX; 5],
            1 => split(r, 1_000),
            _ => std::array::from_fn(|_| r.number()),
        };
    }
    if let Some(own) = counts.get_mut(flow as usize) {
        *own = row;
    }
    counts
}

pub fn sound_row(r: &mut Random) -> Row {
    let sum = r.pick(&[0, 1, 5, COUNTS_MAX - 1, 1_000_000, COUNTS_MAX / 2]);
    split(r, sum)
}
