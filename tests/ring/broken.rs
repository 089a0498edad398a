//! States with one condition broken, or many.

use crate::kind::{state_of, words};
use crate::library::WORDS;
use crate::model::{self, State, CLOCK_MAX, FORCED, TIME_MAX, WHOLE};
use crate::shared::numbers::{above, outside, too_many, wild};
use crate::shared::random::Random;
use crate::states::{activate, empty, measurement, probability};

/// Puts wild numbers into a few words of the state, whatever that breaks.
pub fn scramble(r: &mut Random, s: &mut State) {
    let mut words = words(s);
    for _ in 0..r.pick(&[1, 1, 2, 3, WORDS]) {
        let place = r.range(0, WORDS as u64 - 1) as usize;
        words[place] = wild(r, words[place]);
    }
    *s = state_of(&words);
}

/// Breaks one condition, and no other where that can be. Numbers as in `model::CONDITIONS`.
pub fn break_one(r: &mut Random, s: &mut State, condition: usize) {
    match condition {
        0 => s.target = outside(r, s.target, model::TARGET),
        1 => s.buffer = above(r, s.buffer, model::BUFFER.1),
        2 => s.slots = outside(r, s.slots, model::SLOTS),
        3 => s.last = above(r, s.last, s.clock),
        4 => s.clock = above(r, s.clock, CLOCK_MAX),
        5 => {
            activate(s);
            s.probability = above(r, s.probability, WHOLE);
        }
        6 => s.old_delay = above(r, s.old_delay, TIME_MAX),
        7 => s.allowance = above(r, s.allowance, 150_000),
        8 => s.average = above(r, s.average, TIME_MAX),
        9 => s.first = above(r, s.first, s.slots - 1),
        10..=13 => break_queue(r, s, condition),
        14..=18 => break_measurement(r, s, condition),
        19 => s.accumulated = above(r, s.accumulated, FORCED - 1),
        20 => {
            activate(s);
            s.profile = above(r, s.profile, 1);
        }
        21 => (s.profile, s.active, s.probability) = (0, 0, 0),
        22 => {
            let any = probability(r).max(1);
            (s.profile, s.active) = (1, 0);
            s.probability = r.pick(&[1, WHOLE, any]);
        }
        _ => s.verdicts = too_many(r),
    }
    if condition == 1 && r.one_in(4) {
        s.buffer = 0;
        empty(s);
    }
}

fn break_queue(r: &mut Random, s: &mut State, condition: usize) {
    if r.one_in(8) {
        // Far outside; more than one condition breaks.
        let field = r.pick(&[0, 1]);
        *(if field == 0 { &mut s.count } else { &mut s.bytes }) = wild(r, s.count);
        return;
    }
    match condition {
        10 => {
            s.count = s.slots + 1;
            s.bytes = s.bytes.max(s.count);
            s.buffer = s.buffer.max(s.bytes);
        }
        11 => {
            s.count = s.count.max(1);
            s.bytes = s.count - 1;
        }
        12 => {
            s.count = s.count.min(255);
            s.bytes = 65_535 * s.count + 1;
            s.buffer = s.buffer.max(s.bytes);
        }
        _ => {
            s.count = s.count.max(1);
            s.bytes = s.bytes.max(2).max(s.count);
            s.buffer = s.bytes - 1;
        }
    }
}

fn break_measurement(r: &mut Random, s: &mut State, condition: usize) {
    let runs = condition < 16;
    s.measuring = u64::from(runs);
    if !runs {
        (s.start, s.counted) = (0, 0);
    }
    if runs && s.count == 0 {
        (s.count, s.bytes) = (1, 1);
    }
    match condition {
        14 => s.start = above(r, s.start, s.clock),
        15 => s.counted = above(r, s.counted, 16_383),
        16 => {
            s.clock = s.clock.max(1);
            let any = r.spread(1, s.clock);
            s.start = r.pick(&[1, s.clock, any]);
        }
        17 => s.counted = r.pick(&[1, 16_383, 16_384 / 2]),
        _ => {
            s.count = 1;
            while s.measuring == 0 {
                measurement(r, s);
            }
            (s.count, s.bytes) = (0, 0);
        }
    }
}
