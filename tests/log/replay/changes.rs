//! Wrong lines in the log of a run: the record itself stays without fault.

use crate::log::types::{Record, ARRIVAL, DEPARTURE, TICK};
use crate::shared::random::Random;

/// How many kinds of change there are.
pub const KINDS: u64 = 16;

/// Makes a change of this kind at the record of this number, or near it. The list is not empty.
pub fn change(r: &mut Random, records: &mut Vec<Record>, kind: u64, at: usize) {
    let (next, last) = (records[at], records.len() - 1);
    match kind {
        0 => verdict(r, &mut records[at]),
        1 => probability(r, &mut records[at]),
        2 => bytes(r, &mut records[at]),
        3 => {
            verdict(r, &mut records[at]);
            probability(r, &mut records[at]);
        }
        4 => {
            probability(r, &mut records[at]);
            bytes(r, &mut records[at]);
        }
        5 => {
            verdict(r, &mut records[at]);
            bytes(r, &mut records[at]);
        }
        6 => {
            verdict(r, &mut records[at]);
            probability(r, &mut records[at]);
            bytes(r, &mut records[at]);
        }
        7 => records[at].clock = earlier(records, at),
        8 => records[at].clock = later(r, records, at),
        9 => records.insert(at, Record { kind: TICK, clock: soon(records, at), ..copied(&next) }),
        10 => records.insert(at, Record { kind: DEPARTURE, ..copied(&next) }),
        11 => arguments(r, &mut records[at]),
        12 => drop(records.remove(at)),
        13 => records.insert(at, next),
        14 => records.swap(at, (at + 1).min(last)),
        _ => records.truncate(at),
    }
}

/// Another verdict; a tick has none.
fn verdict(r: &mut Random, record: &mut Record) {
    match record.kind {
        ARRIVAL => record.verdict = (record.verdict + r.range(1, 4) as u32) % 5,
        DEPARTURE => record.verdict ^= 1 << r.range(0, 31),
        _ => {}
    }
}

fn probability(r: &mut Random, record: &mut Record) {
    let (p, any) = (record.probability, r.range(0, 1 << 32));
    let list = [p.saturating_sub(1), (p + 1).min(1 << 32), any, p ^ 1 << r.range(0, 31)];
    record.probability = r.pick(&list).min(1 << 32);
}

fn bytes(r: &mut Random, record: &mut Record) {
    let (bytes, any) = (record.bytes, r.range(0, 1 << 24) as u32);
    let list = [bytes.saturating_sub(1), bytes + 1, any, bytes ^ 1 << r.range(0, 23)];
    record.bytes = r.pick(&list).min(1 << 24);
}

/// The clock of the record before, less one.
fn earlier(records: &[Record], at: usize) -> u64 {
    records[at.saturating_sub(1)].clock.saturating_sub(1)
}

fn later(r: &mut Random, records: &[Record], at: usize) -> u64 {
    let clock = records[at].clock;
    r.pick(&[clock + 1, clock + 15_000, 1 << 48]).min(1 << 48)
}

/// One microsecond too soon after the tick before, where that is not before the last call.
fn soon(records: &[Record], at: usize) -> u64 {
    let tick = records[..at].iter().rfind(|record| record.kind == TICK);
    tick.map_or(0, |tick| tick.clock + 14_999).max(records[at].clock).min(1 << 48)
}

/// A record with the clock, probability and bytes of another.
fn copied(record: &Record) -> Record {
    let Record { clock, bytes, probability, .. } = *record;
    Record { clock, bytes, probability, ..Record::default() }
}

/// Other inputs: what the rules make of them shows here or later, or never.
fn arguments(r: &mut Random, record: &mut Record) {
    if record.kind != ARRIVAL {
        return;
    }
    match r.range(0, 3) {
        0 => record.ecn ^= 1,
        1 => record.handle ^= 1 << r.range(0, 31),
        2 => record.size = (record.size ^ 1 << r.range(0, 15)).clamp(1, 65_535),
        _ => record.u = r.pick(&[0, u32::MAX, !record.u]),
    }
}
