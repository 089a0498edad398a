//! Records and rows with one condition broken, or many.

use crate::kind::{state_of, words};
use crate::model::numbers::*;
use crate::model::State;
use crate::shared::numbers::{above, outside, wild};
use crate::shared::random::Random;
use crate::states;

/// The place of the condition on the row.
pub const ROW: usize = 21;

/// Puts wild numbers into a few words of the record, whatever that breaks.
pub fn scramble(r: &mut Random, s: &mut State) {
    let mut words = words(s);
    for _ in 0..r.pick(&[1, 1, 2, 3, 16]) {
        let place = r.range(0, 15) as usize;
        words[place] = wild(r, words[place]);
    }
    *s = state_of(&words);
}

/// Breaks one condition, and no other where that can be. Numbers as in `model::CONDITIONS`.
pub fn break_one(r: &mut Random, s: &mut State, condition: usize) {
    let set = &mut s.settings;
    match condition {
        0 => set.target = outside(r, set.target, TARGET),
        1 => set.buffer = above(r, set.buffer, BUFFER.1),
        2 => set.slots = outside(r, set.slots, SLOTS),
        3 => set.peak = outside(r, set.peak, RATE),
        4 => set.sustained = outside(r, set.sustained, RATE),
        5 => s.last = above(r, s.last, s.clock),
        6 => s.clock = above(r, s.clock, CLOCK_MAX),
        7 => s.probability = above(r, s.probability, PROBABILITY_MAX),
        8 => s.accumulated = above(r, s.accumulated, HIGH),
        9 => s.old_delay = above(r, s.old_delay, DELAY_MAX),
        13 => s.first = above(r, s.first, s.settings.slots - 1),
        14..=17 => break_queue(r, s, condition),
        _ => break_activity(r, s, condition),
    }
    if condition == 1 && r.one_in(4) {
        s.settings.buffer = 0;
        (s.count, s.bytes) = (0, 0);
    }
}

fn break_queue(r: &mut Random, s: &mut State, condition: usize) {
    if r.one_in(8) {
        // Far outside; more than one condition breaks.
        let field = r.pick(&[0, 1]);
        *(if field == 0 { &mut s.count } else { &mut s.bytes }) = wild(r, s.count);
        return;
    }
    match condition {
        14 => {
            s.count = s.settings.slots + 1;
            s.bytes = s.bytes.max(s.count);
        }
        15 => {
            s.count = s.count.max(1);
            s.bytes = s.count - 1;
        }
        16 => {
            s.count = s.count.min(255);
            s.bytes = SIZE.1 * s.count + 1;
        }
        _ => {
            s.count = s.count.max(1);
            s.bytes = s.bytes.max(2).max(s.count);
            s.settings.buffer = s.bytes - 1;
            return;
        }
    }
    s.settings.buffer = s.settings.buffer.max(s.bytes);
}

/// Allowance, reset time and activity, alone and in what they ask of each other.
fn break_activity(r: &mut Random, s: &mut State, condition: usize) {
    (s.activity, s.allowance, s.reset) = (QUIESCENT, 0, 0);
    match condition {
        10 => {
            s.activity = ACTIVE;
            s.allowance = above(r, 0, FULL_ALLOWANCE);
        }
        11 => {
            s.probability = 0;
            s.reset = above(r, 0, RESET_TIMEOUT);
        }
        12 => s.activity = above(r, 0, ACTIVE),
        18 => {
            s.activity = r.pick(&[INACTIVE, QUIESCENT]);
            s.allowance = states::allowance(r);
        }
        19 => {
            s.probability = 0;
            s.activity = r.pick(&[INACTIVE, ACTIVE]);
            s.reset = states::reset(r).max(1);
        }
        _ => {
            s.probability = states::probability(r).max(1);
            s.reset = states::reset(r).max(1);
        }
    }
}
