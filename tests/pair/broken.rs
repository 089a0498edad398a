//! Records with one condition broken, or many.

use crate::broken_queue::break_queue;
use crate::model::formed::{common_slots, common_use, CONDITIONS, QUEUE_CONDITIONS};
use crate::model::numbers::*;
use crate::model::Records;
use crate::shared::numbers::{above, outside, wild};
use crate::shared::random::Random;
use crate::words::{queue_of, queue_words, shared_of, shared_words};

/// Puts wild numbers into a few words of one record, whatever that breaks.
pub fn scramble(r: &mut Random, records: &mut Records) {
    let times = r.pick(&[1, 1, 2, 3, 21]);
    match r.range(0, 2) as usize {
        2 => {
            let mut words = shared_words(&records.shared);
            scramble_words(r, &mut words, times);
            records.shared = shared_of(&words);
        }
        queue => {
            let mut words = queue_words(&records.queues[queue]);
            scramble_words(r, &mut words, times);
            records.queues[queue] = queue_of(&words);
        }
    }
}

fn scramble_words(r: &mut Random, words: &mut [u64], times: u64) {
    for _ in 0..times {
        let place = r.range(0, words.len() as u64 - 1) as usize;
        words[place] = wild(r, words[place]);
    }
}

/// Breaks one condition, and no other where that can be. Numbers as in `formed::condition_names`.
pub fn break_one(r: &mut Random, records: &mut Records, condition: usize) {
    let last = CONDITIONS - 1;
    match condition {
        0..=3 => break_shared(r, records, condition),
        _ if condition == last => break_total(r, records),
        _ if condition == last - 1 => break_common(r, records),
        _ => {
            let (queue, place) =
                ((condition - 4) / QUEUE_CONDITIONS, (condition - 4) % QUEUE_CONDITIONS);
            let slots = records.shared.slots;
            break_queue(r, &mut records.queues[queue], slots, place);
        }
    }
}

fn break_shared(r: &mut Random, records: &mut Records, condition: usize) {
    let s = &mut records.shared;
    match condition {
        0 => s.slots = outside(r, s.slots, SLOTS),
        1 => {
            let queue = r.range(0, 1) as usize;
            let left = s.slots - s.reserve[1 - queue];
            s.reserve[queue] = above(r, s.reserve[queue], left);
        }
        2 => s.freed = above(r, s.freed, s.slots - 1),
        _ => {
            s.used = above(r, s.used, s.slots);
            let queued = records.queues[0].count + records.queues[1].count;
            s.spare = s.used - queued;
        }
    }
}

/// Counts and spare make another number than `used`, by one, by far, or by a sum that wraps round.
fn break_total(r: &mut Random, records: &mut Records) {
    let s = &mut records.shared;
    let less = s.spare.wrapping_sub(1);
    s.spare =
        r.pick(&[s.spare + 1, s.spare + 1, less, less, s.spare + (1 << 32), s.spare | 1 << 63]);
}

/// One packet too many stands in common slots: a reserve that is not used takes what was left.
fn break_common(r: &mut Random, records: &mut Records) {
    for _ in 0..20 {
        let queue = r.range(0, 1) as usize;
        let count = records.queues[queue].count;
        let s = &mut records.shared;
        let less = r.range(0, count.saturating_sub(1));
        s.reserve[queue] = less.min(s.slots);
        let left = s.slots - s.reserve[queue];
        s.reserve[1 - queue] = r.pick(&[left, left, left.saturating_sub(1)]);
        let common = common_slots(&records.shared).map(u128::from);
        if common.map_or(false, |common| common_use(records) > common) {
            return;
        }
    }
}
