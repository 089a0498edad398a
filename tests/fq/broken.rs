//! Records with one condition broken, or many.

use crate::broken_queue::break_queue;
use crate::flows::formed::{AT_DEFICITS, AT_FLOWS, AT_LISTS, FLOW_CONDITIONS};
use crate::flows::{Record, FLOWS};
use crate::model::numbers::*;
use crate::records::{change, empty, fit, hold, settle};
use crate::shared::numbers::{above, outside, too_many, wild};
use crate::shared::random::Random;

/// The flow and the queue's condition of a flow's condition, in the numbers of `formed::OF_QUEUE`.
fn of_flow(condition: usize) -> (usize, usize) {
    let place = condition - AT_FLOWS;
    (place / FLOW_CONDITIONS, 4 + place % FLOW_CONDITIONS)
}

/// Packets where the condition that is to be broken needs some, or none; and how many flows that hold
/// none are to be listed, if that matters.
pub fn prepare(r: &mut Random, record: &mut Record, condition: usize) -> Option<usize> {
    match condition {
        1 if r.one_in(3) => (0..FLOWS).for_each(|flow| empty(record, flow)),
        AT_FLOWS..AT_LISTS => prepare_flow(r, record, of_flow(condition)),
        _ if condition == AT_LISTS + 2 => (hold(r, record, 3), hold(r, record, 63)).1,
        _ if condition == AT_LISTS + 8 => hold(r, record, 7),
        _ => {}
    }
    settle(record);
    match condition.wrapping_sub(AT_LISTS) {
        5 => Some(64),
        6 | 7 => Some(r.range(1, 9) as usize),
        _ => None,
    }
}

fn prepare_flow(r: &mut Random, record: &mut Record, (flow, condition): (usize, usize)) {
    match condition {
        12 | 15 | 16 => hold(r, record, flow),
        13 => {
            empty(record, flow);
            hold(r, record, flow);
        }
        17 => record.common.clock = record.common.clock.max(1),
        19 => empty(record, flow),
        _ => {}
    }
    fit(record, flow);
}

/// Puts wild numbers into a few words of one part, whatever that breaks.
pub fn scramble(r: &mut Random, record: &mut Record) {
    let times = r.pick(&[1, 1, 2, 3, 21]);
    match r.range(0, 3) {
        0 => scramble_words(r, record.common.words_mut(), times),
        1 => scramble_words(r, &mut record.order, times),
        2 => scramble_words(r, record.flow_words_mut(), times),
        _ => record.deficits[r.range(0, 63) as usize] = r.number() as u32,
    }
}

fn scramble_words(r: &mut Random, words: &mut [u64], times: u64) {
    for _ in 0..times {
        let place = r.range(0, words.len() as u64 - 1) as usize;
        words[place] = wild(r, words[place]);
    }
}

/// Breaks one condition, and no other where that can be. Numbers as in `formed::condition_names`.
pub fn break_one(r: &mut Random, record: &mut Record, condition: usize) {
    match condition {
        0..AT_FLOWS => break_common(r, record, condition),
        AT_FLOWS..AT_LISTS => break_flow(r, record, of_flow(condition)),
        AT_LISTS..AT_DEFICITS if condition < AT_LISTS + 3 => {
            break_totals(r, record, condition - AT_LISTS);
        }
        AT_LISTS..AT_DEFICITS => break_lists(r, record, condition - AT_LISTS),
        _ => {
            let any = r.range(67_050, u64::from(u32::MAX)) as u32;
            let list = [67_050, 67_050, 67_051, 1 << 31, u32::MAX, any];
            record.deficits[condition - AT_DEFICITS] = r.pick(&list);
        }
    }
}

fn break_common(r: &mut Random, record: &mut Record, condition: usize) {
    let c = &mut record.common;
    match condition {
        0 => c.target = outside(r, c.target, TARGET),
        1 if c.count == 0 && r.one_in(2) => c.buffer = 0,
        1 => c.buffer = above(r, c.buffer, BUFFER.1),
        2 => c.slots = outside(r, c.slots, SLOTS),
        3 => c.salt = above(r, c.salt, u64::from(u32::MAX)),
        4 => c.last = above(r, c.last, c.clock),
        5 => c.clock = above(r, c.clock, CLOCK_MAX),
        6 => c.freed = above(r, c.freed, c.slots - 1),
        7 => {
            c.used = above(r, c.used, c.slots);
            c.spare = c.used - c.count;
        }
        8 => {
            let less = c.spare.wrapping_sub(1);
            let more = c.spare + 1;
            c.spare = r.pick(&[more, more, less, less, c.spare + (1 << 32), c.spare | 1 << 63]);
        }
        _ => c.verdicts = too_many(r),
    }
}

/// The totals follow the flow, so that they are no other condition that breaks.
fn break_flow(r: &mut Random, record: &mut Record, (flow, condition): (usize, usize)) {
    let slots = record.common.slots;
    let before = record.flows[flow];
    change(record, flow, |q| break_queue(r, q, slots, condition));
    let after = record.flows[flow];
    let c = &mut record.common;
    if (12..=14).contains(&condition) {
        c.bytes = c.bytes.wrapping_sub(before.bytes).wrapping_add(after.bytes);
    }
    if condition == 13 {
        c.buffer = c.buffer.max(c.bytes).min(BUFFER.1);
    }
}

fn break_totals(r: &mut Random, record: &mut Record, condition: usize) {
    let c = &mut record.common;
    match condition {
        0 if c.count > 0 && (c.spare == 0 || r.one_in(2)) => {
            (c.count, c.spare) = (c.count - 1, c.spare + 1);
        }
        0 if c.spare > 0 => (c.count, c.spare) = (c.count + 1, c.spare - 1),
        0 => c.count = wild(r, c.count),
        1 => {
            let (less, any) = (c.bytes.wrapping_sub(1), wild(r, c.bytes));
            c.bytes = r.pick(&[c.bytes + 1, c.bytes + 1, less, less, c.bytes | 1 << 32, any]);
        }
        _ => c.buffer = c.bytes.saturating_sub(1).max(1),
    }
}

/// A place in the order at which a flow is listed that holds a packet, or that holds none.
fn listed_at(r: &mut Random, record: &Record, holding: bool) -> Option<usize> {
    let c = &record.common;
    let begin = r.range(0, 63);
    (0..c.listed)
        .map(|i| ((c.first + (begin + i) % c.listed) % 64) as usize)
        .find(|&place| (record.flows[record.order[place] as usize].count > 0) == holding)
}

fn break_lists(r: &mut Random, record: &mut Record, condition: usize) {
    let c = &mut record.common;
    match condition {
        3 => c.first = above(r, c.first, 63),
        4 => c.old = above(r, c.old, c.listed),
        5 => {
            let far = wild(r, c.listed).max(65);
            c.listed = r.pick(&[65, 65, 66, 128, far]);
        }
        6 => {
            if let Some(place) = listed_at(r, record, false) {
                record.order[place] = above(r, record.order[place], 63);
            }
        }
        7 => {
            let Some(place) = listed_at(r, record, false) else { return };
            let c = &record.common;
            let other = ((c.first + r.range(0, c.listed - 1)) % 64) as usize;
            record.order[place] = record.order[other];
            if place == other && c.listed > 1 {
                let next =
                    if place as u64 == c.first { (place + 1) % 64 } else { c.first as usize };
                record.order[place] = record.order[next];
            }
        }
        _ => {
            let Some(place) = listed_at(r, record, true) else { return };
            let c = &mut record.common;
            c.listed -= 1;
            c.old = c.old.min(c.listed);
            record.order.swap(place, ((c.first + c.listed) % 64) as usize);
        }
    }
}
