//! Which refusals apply to a call, and which of them is given.

use super::formed::{conditions, row_sum};
use super::numbers::*;
use super::{Counts, Row, Settings, State};

/// Which of the refusals 1 to 10 apply to a call.
pub type Refusals = [bool; 11];

/// The row of a flow. Where there is none, the other refusals are asked with a row of zeros.
pub fn row(counts: &Counts, flow: u32) -> Row {
    counts.get(flow as usize).copied().unwrap_or_default()
}

/// Refusal 2.
fn wrong_record(s: &State, row: &Row) -> bool {
    !conditions(s, row).iter().all(|&holds| holds)
}

/// Refusal 3.
fn wrong_tables(s: &State, handles: usize, sizes: usize) -> bool {
    handles as u64 != s.settings.slots || sizes as u64 != s.settings.slots
}

/// Refusal 4.
fn wrong_clock(s: &State, clock: u64) -> bool {
    clock < s.clock || clock > CLOCK_MAX
}

/// Refusal 9. It needs a head: a packet that is counted, and its place within the table.
fn wrong_head(s: &State, sizes: &[u32]) -> bool {
    if s.count == 0 || s.first >= sizes.len() as u64 {
        return false;
    }
    let size = u64::from(sizes[s.first as usize]);
    let count = i128::from(s.count) - 1;
    let bytes = i128::from(s.bytes) - i128::from(size);
    let too_few = bytes < count;
    let too_many = bytes > i128::from(SIZE.1) * count;
    !within(size, SIZE) || too_few || too_many
}

pub fn fresh_refusals(flow: u32, set: &Settings, clock: u64) -> Refusals {
    let mut applying = Refusals::default();
    let in_range = within(set.target, TARGET)
        && within(set.buffer, BUFFER)
        && within(set.slots, SLOTS)
        && within(set.peak, RATE)
        && within(set.sustained, RATE);
    applying[1] = !in_range || clock > CLOCK_MAX;
    applying[10] = flow >= FLOWS;
    applying
}

pub fn arrival_refusals(
    s: &State,
    counts: &Counts,
    flow: u32,
    tables: (usize, usize),
    clock: u64,
    size: u32,
) -> Refusals {
    let row = row(counts, flow);
    let mut applying = Refusals::default();
    applying[2] = wrong_record(s, &row);
    applying[3] = wrong_tables(s, tables.0, tables.1);
    applying[4] = wrong_clock(s, clock);
    applying[7] = !within(u64::from(size), SIZE);
    applying[8] = row_sum(&row) == u128::from(COUNTS_MAX);
    applying[10] = flow >= FLOWS;
    applying
}

pub fn departure_refusals(
    s: &State,
    counts: &Counts,
    flow: u32,
    handles: usize,
    sizes: &[u32],
    clock: u64,
) -> Refusals {
    let mut applying = Refusals::default();
    applying[2] = wrong_record(s, &row(counts, flow));
    applying[3] = wrong_tables(s, handles, sizes.len());
    applying[4] = wrong_clock(s, clock);
    applying[6] = s.count == 0;
    applying[9] = wrong_head(s, sizes);
    applying[10] = flow >= FLOWS;
    applying
}

pub fn tick_refusals(s: &State, counts: &Counts, flow: u32, clock: u64) -> Refusals {
    let mut applying = Refusals::default();
    applying[2] = wrong_record(s, &row(counts, flow));
    applying[4] = wrong_clock(s, clock);
    applying[5] = u128::from(clock) < u128::from(s.last) + u128::from(TICK_PERIOD);
    applying[10] = flow >= FLOWS;
    applying
}

/// Where several apply: 10, else the lowest.
pub fn given(applying: Refusals) -> Result<(), u32> {
    if applying[10] {
        return Err(10);
    }
    match applying.iter().position(|&applies| applies) {
        Some(number) => Err(number as u32),
        None => Ok(()),
    }
}
