//! The ends of every field's range by the tables of docs/LOG.md, and the values on both sides of
//! them. The tables stand here a second time: the model is checked against them too.

use super::types::{Record, Settings, ARRIVAL, DEPARTURE, TICK};

/// A field's value, and whether it is in range.
pub type Edge = (u64, bool);

const U32: u64 = u32::MAX as u64;

/// Both sides of a range's two ends, and the greatest number of the field's width.
fn range(least: u64, most: u64, widest: u64) -> Vec<Edge> {
    let mut edges = vec![(least, true), (most, true), (most + 1, false), (widest, false)];
    if least > 0 {
        edges.push((least - 1, false));
        edges.push((least + 1, true));
    }
    edges
}

/// A field that is not used: 0, and each single bit.
fn unused(bits: u32) -> Vec<Edge> {
    let bits = (0..bits).map(|bit| (1 << bit, false));
    std::iter::once((0, true)).chain(bits).collect()
}

fn any_number() -> Vec<Edge> {
    vec![(0, true), (1, true), (1 << 31, true), (U32, true)]
}

/// The edges of the settings' fields: target, buffer, slots, clock, profile, unused.
pub fn settings_edges(field: usize) -> Vec<Edge> {
    match field {
        0 => {
            let mut edges = range(1_000, 100_000, u64::MAX);
            edges.extend([(1 << 32 | 15_000, false), (1 << 63 | 15_000, false)]);
            edges
        }
        1 => range(1, 16_777_216, U32),
        2 => range(1, 65_536, U32),
        3 => range(0, 1 << 48, u64::MAX),
        4 => (0..256).map(|profile| (profile, profile < 2)).collect(),
        _ => unused(56),
    }
}

pub fn set_settings(settings: &mut Settings, field: usize, value: u64) {
    match field {
        0 => settings.target = value,
        1 => settings.buffer = value as u32,
        2 => settings.slots = value as u32,
        3 => settings.clock = value,
        4 => settings.profile = value as u8,
        _ => settings.unused.copy_from_slice(&value.to_le_bytes()[..7]),
    }
}

pub const KINDS: [u8; 3] = [ARRIVAL, DEPARTURE, TICK];

/// The edges of a record's fields, in the order of `model::RECORD_FIELDS`.
pub fn record_edges(kind: u8, field: usize) -> Vec<Edge> {
    let (arrival, departure) = (kind == ARRIVAL, kind == DEPARTURE);
    match field {
        0 => (0..256).filter(|&byte| !KINDS.contains(&(byte as u8))).map(|b| (b, false)).collect(),
        1 if arrival => (0..256).map(|ecn| (ecn, ecn < 2)).collect(),
        1 => unused(8),
        2 => unused(16),
        3 | 6 if arrival => any_number(),
        4 => range(0, 1 << 48, u64::MAX),
        5 if arrival => range(1, 65_535, U32),
        7 if arrival => {
            let mut edges = range(0, 4, U32);
            edges.extend([(1, true), (2, true), (3, true), (1 << 8, false), (1 << 16, false)]);
            edges
        }
        7 if departure => any_number(),
        8 => range(0, 16_777_216, U32),
        9 => range(0, 1 << 32, u64::MAX),
        _ => unused(32),
    }
}

pub fn set_record(record: &mut Record, field: usize, value: u64) {
    let word = value as u32;
    match field {
        0 => record.kind = value as u8,
        1 => record.ecn = value as u8,
        2 => record.unused = value as u16,
        3 => record.handle = word,
        4 => record.clock = value,
        5 => record.size = word,
        6 => record.u = word,
        7 => record.verdict = word,
        8 => record.bytes = word,
        _ => record.probability = value,
    }
}
