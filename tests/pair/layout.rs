//! Reserves, places and tables for random records.

use crate::model::formed::{common_slots, common_use};
use crate::model::numbers::*;
use crate::model::store::word;
use crate::model::{Queue, Records, Shared};
use crate::shared::random::Random;
use crate::shared::single::{filled, size_of_next, Do};

/// Gives the records slots enough for their packets and `spare` free slots more, reserves, places,
/// and tables a little longer than the slots that hold their chains.
pub fn lay_out(r: &mut Random, records: &mut Records, spare: u64) -> (Vec<u32>, Vec<u32>) {
    let [first, second] = records.queues.map(|q| q.count);
    take_slots(r, &mut records.shared, first + second, spare);
    choose_reserves(r, records);
    lay_chains(r, &mut records.shared, &mut records.queues)
}

/// How many slots are freed at least: two and more where 9 is wanted for an arrival.
pub fn spare(r: &mut Random, what: Do, wanted: bool) -> u64 {
    match what {
        Do::Arrival if wanted => r.pick(&[2, 2, 3]),
        Do::Arrival => r.pick(&[0, 0, 1, 2]),
        _ => 0,
    }
}

/// Slots for so many packets, and what is freed of them.
pub fn take_slots(r: &mut Random, s: &mut Shared, queued: u64, spare: u64) {
    s.slots = s.slots.max(queued + spare).max(1);
    let free = s.slots - queued;
    let any = r.range(0, free);
    s.spare = r.pick(&[0, 1, 2, 3, free, free, any]).min(free).max(spare);
    s.used = queued + s.spare;
}

/// The chains of all queues and of the freed slots. What no call follows, the link of a last packet or
/// last free slot, is anything.
pub fn lay_chains(r: &mut Random, s: &mut Shared, queues: &mut [Queue]) -> (Vec<u32>, Vec<u32>) {
    let slots = s.slots as usize;
    let (handles, mut sizes) = filled(r, s.slots);
    let mut places = shuffled(r, s.used as usize);
    move_ends(r, &mut places, queues);
    let mut freed = &places[..];
    for q in queues {
        let (chain, rest) = freed.split_at(q.count as usize);
        lay_chain(r, q, slots as u64, chain, &mut sizes);
        freed = rest;
    }
    let any = r.range(0, slots as u64 - 1);
    s.freed = freed.first().map_or(any, |&place| place as u64);
    let old = r.one_in(3);
    for pair in freed.windows(2) {
        let size = if old { sizes[pair[0]] % LINK } else { 0 };
        sizes[pair[0]] = word(size, pair[1] as u64);
    }
    (handles, sizes)
}

/// The places below `used`, in any order, or in the order of a queue that only grew.
fn shuffled(r: &mut Random, used: usize) -> Vec<usize> {
    let mut places: Vec<usize> = (0..used).collect();
    if !r.one_in(8) {
        for i in (1..used).rev() {
            places.swap(i, r.range(0, i as u64) as usize);
        }
    }
    places
}

/// Often brings the first or the last place to a head, a tail or the first freed slot.
fn move_ends(r: &mut Random, places: &mut [usize], queues: &[Queue]) {
    let (mut ends, mut sum) = (vec![0], 0);
    for q in queues {
        sum += q.count as usize;
        ends.extend([sum.saturating_sub(1), sum]);
    }
    let at = r.pick(&ends);
    let end = r.pick(&[0, places.len().saturating_sub(1)]);
    if at < places.len() && r.one_in(2) {
        let found = places.iter().position(|&place| place == end);
        places.swap(at, found.unwrap_or(at));
    }
}

fn lay_chain(r: &mut Random, q: &mut Queue, slots: u64, chain: &[usize], sizes: &mut [u32]) {
    (q.head, q.tail) = (r.range(0, slots - 1), r.range(0, slots - 1));
    let mut bytes = q.bytes;
    for (i, &place) in chain.iter().enumerate() {
        let others = (chain.len() - i - 1) as u64;
        let size = size_of_next(r, bytes, others, &[]);
        let link = chain.get(i + 1).map_or(r.range(0, 65_535), |&next| next as u64);
        sizes[place] = word(size as u32, link);
        bytes -= size;
    }
    if let (Some(&head), Some(&tail)) = (chain.first(), chain.last()) {
        (q.head, q.tail) = (head as u64, tail as u64);
    }
}

/// Reserves beside the counts, at their ends, or any, with which the common slots suffice.
fn choose_reserves(r: &mut Random, records: &mut Records) {
    let slots = records.shared.slots;
    for _ in 0..12 {
        let [first, second] = records.queues.map(|q| reserve(r, slots, q.count));
        let second = if r.one_in(4) { slots - first } else { second.min(slots - first) };
        records.shared.reserve = [first, second];
        let common = common_slots(&records.shared).map(u128::from);
        if common.map_or(false, |common| common_use(records) <= common) {
            return;
        }
    }
    records.shared.reserve = [0, 0];
}

fn reserve(r: &mut Random, slots: u64, count: u64) -> u64 {
    let any = r.range(0, slots);
    r.pick(&[0, count, count, count + 1, count.saturating_sub(1), any, any, slots]).min(slots)
}
