//! A plain model of the comparison, written from docs/LOG.md and ticket Q-11 alone.

use crate::log::model::{RECORD, TRAILER};
use crate::log::types::Part;
use crate::log::whole::{self, Whole};
use crate::shared::area::Plain;

/// What a comparison found, in the order of the C header.
#[repr(C)]
#[derive(Clone, Copy, PartialEq, Eq, Default, Debug)]
pub struct Compared {
    pub whose: u64,
    pub record: u64,
    pub part: Part,
}

impl Plain for Compared {}

pub const EQUAL: u32 = 0;
pub const SETTINGS: u32 = 1;
pub const NOTES: u32 = 2;
pub const RECORDS: u32 = 3;
pub const FIRST_ENDS: u32 = 4;
pub const SECOND_ENDS: u32 = 5;

/// Compares two logs, each read whole, the first's refusal ahead of the second's.
pub fn compare(first: &[u8], second: &[u8]) -> (u32, Compared) {
    match (whole::read(first), whole::read(second)) {
        (Err(answer), _) => (answer, Compared { whose: 1, ..Compared::default() }),
        (_, Err(answer)) => (answer, Compared { whose: 2, ..Compared::default() }),
        (Ok(a), Ok(b)) => contents(&a, &b, first.len(), second.len()),
    }
}

/// The first that differs: settings, notes, a record, the end.
fn contents(a: &Whole, b: &Whole, first: usize, second: usize) -> (u32, Compared) {
    if a.settings != b.settings {
        return (SETTINGS, Compared::default());
    }
    if a.note != b.note {
        return (NOTES, Compared::default());
    }
    let (ours, theirs) = (a.records.len(), b.records.len());
    let shared = ours.min(theirs);
    let record = (0..shared).find(|&i| a.records[i] != b.records[i]);
    let found = Compared { record: record.unwrap_or(shared) as u64, ..Compared::default() };
    if record.is_some() {
        return (RECORDS, found);
    }
    if ours < theirs {
        let part = last_records(second, theirs - shared);
        return (FIRST_ENDS, Compared { whose: 2, part, ..found });
    }
    if ours > theirs {
        let part = last_records(first, ours - shared);
        return (SECOND_ENDS, Compared { whose: 1, part, ..found });
    }
    (EQUAL, found)
}

/// The part of a log of this length that holds its last records, without the trailer.
fn last_records(length: usize, records: usize) -> Part {
    let bytes = RECORD * records;
    Part { from: (length - TRAILER - bytes) as u64, length: bytes as u64 }
}
