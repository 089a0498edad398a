//! Which refusals apply to a call, and which is given.

use super::arrival::{decide, is_admitted};
use super::formed::{common_slots, verdict_sum, well_formed};
use super::numbers::*;
use super::store::{link_of, size_of};
use super::{within, Arriving, Queue, Records, Settings, Shared};

/// Which of the refusals 1 to 9 apply.
pub type Refusals = [bool; 10];

/// The two tables as lent.
pub type Tables<'a> = (&'a [u32], &'a [u32]);

fn wrong_tables(s: &Shared, (handles, sizes): Tables) -> bool {
    handles.len() as u64 != s.slots || sizes.len() as u64 != s.slots
}

fn wrong_clock(q: &Queue, clock: u64) -> bool {
    clock < q.clock || clock > CLOCK_MAX
}

/// Refusal 9 of a departure. It needs a head: a packet that is counted, and its place in the table.
pub fn wrong_head(s: &Shared, q: &Queue, sizes: &[u32]) -> bool {
    if q.count == 0 || q.head >= sizes.len() as u64 {
        return false;
    }
    let word = sizes[q.head as usize];
    let size = size_of(word);
    let count = i128::from(q.count) - 1;
    let bytes = i128::from(q.bytes) - i128::from(size);
    let too_few = bytes < count;
    let too_many = bytes > i128::from(SIZE.1) * count;
    let lost = q.count >= 2 && link_of(word) >= s.slots;
    size == 0 || too_few || too_many || lost
}

/// Refusal 9 of an arrival, which is asked where the verdict can be: in sound records and tables.
fn wrong_freed(r: &Records, queue: usize, sizes: &[u32], packet: &Arriving) -> bool {
    let s = &r.shared;
    is_admitted(decide(r, queue, packet).verdict)
        && s.spare >= 2
        && link_of(sizes[s.freed as usize]) >= s.slots
}

pub fn fresh_refusals(slots: u64, settings: &[Settings; 2]) -> Refusals {
    let mut applying = Refusals::default();
    let reserve = settings.map(|set| set.reserve);
    let shared = Shared { slots, reserve, ..Shared::default() };
    let wrong = |set: &Settings| {
        !within(set.target, TARGET) || !within(set.buffer, BUFFER) || set.clock > CLOCK_MAX
    };
    applying[1] =
        !within(slots, SLOTS) || settings.iter().any(wrong) || common_slots(&shared).is_none();
    applying
}

pub fn arrival_refusals(
    r: &Records,
    queue: usize,
    tables: Tables,
    clock: u64,
    packet: &Arriving,
) -> Refusals {
    let q = &r.queues[queue];
    let mut applying = Refusals::default();
    applying[2] = !well_formed(r);
    applying[3] = wrong_tables(&r.shared, tables);
    applying[4] = wrong_clock(q, clock);
    applying[7] = !within(u64::from(packet.size), SIZE);
    applying[8] = verdict_sum(q) == u128::from(COUNTS_MAX);
    applying[9] = !applying[2] && !applying[3] && wrong_freed(r, queue, tables.1, packet);
    applying
}

pub fn departure_refusals(r: &Records, queue: usize, tables: Tables, clock: u64) -> Refusals {
    let q = &r.queues[queue];
    let mut applying = Refusals::default();
    applying[2] = !well_formed(r);
    applying[3] = wrong_tables(&r.shared, tables);
    applying[4] = wrong_clock(q, clock);
    applying[6] = q.count == 0;
    applying[9] = wrong_head(&r.shared, q, tables.1);
    applying
}

pub fn tick_refusals(r: &Records, queue: usize, clock: u64) -> Refusals {
    let q = &r.queues[queue];
    let mut applying = Refusals::default();
    applying[2] = !well_formed(r);
    applying[4] = wrong_clock(q, clock);
    applying[5] = u128::from(clock) < u128::from(q.last) + u128::from(TICK_PERIOD);
    applying
}

/// Where several apply, the lowest number is given.
pub fn lowest(applying: Refusals) -> Result<(), u32> {
    match applying.iter().position(|&applies| applies) {
        Some(number) => Err(number as u32),
        None => Ok(()),
    }
}
