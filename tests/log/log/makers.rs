//! Settings, records, notes and whole logs to compare with.

use super::edges::{record_edges, set_record, set_settings, settings_edges, KINDS};
use super::model::{self, RECORD};
use super::types::{Record, Settings, State, ARRIVAL, DEPARTURE};
use crate::shared::random::Random;

/// Settings in range, each field at an end of its range or anywhere in it.
pub fn settings(r: &mut Random) -> Settings {
    let mut settings = Settings {
        target: r.range(1_000, 100_000),
        buffer: r.range(1, 16_777_216) as u32,
        slots: r.range(1, 65_536) as u32,
        clock: r.spread(0, 1 << 48),
        profile: r.range(0, 1) as u8,
        unused: [0; 7],
    };
    for field in 0..4 {
        if r.one_in(4) {
            let edges: Vec<u64> = in_range(settings_edges(field));
            set_settings(&mut settings, field, r.pick(&edges));
        }
    }
    settings
}

fn in_range(edges: Vec<(u64, bool)>) -> Vec<u64> {
    edges.iter().filter(|edge| edge.1).map(|edge| edge.0).collect()
}

/// A record without fault.
pub fn record(r: &mut Random, kind: u8) -> Record {
    let any = |r: &mut Random| r.number() as u32;
    let mut record = Record {
        kind,
        clock: r.spread(0, 1 << 48),
        bytes: r.spread(0, 16_777_216) as u32,
        probability: r.spread(0, 1 << 32),
        ..Record::default()
    };
    if kind == ARRIVAL {
        record.ecn = r.range(0, 1) as u8;
        (record.handle, record.u) = (any(r), any(r));
        record.size = r.spread(1, 65_535) as u32;
        record.verdict = r.range(0, 4) as u32;
    } else if kind == DEPARTURE {
        record.verdict = any(r);
    }
    for field in 1..10 {
        if r.one_in(8) {
            set_record(&mut record, field, r.pick(&in_range(record_edges(kind, field))));
        }
    }
    record
}

pub fn any_record(r: &mut Random) -> Record {
    let kind = r.pick(&KINDS);
    record(r, kind)
}

/// Puts a value out of range into one field.
pub fn break_record(r: &mut Random, record: &mut Record) {
    loop {
        let field = r.range(0, 9) as usize;
        let edges = record_edges(record.kind, field);
        let wrong: Vec<u64> = edges.iter().filter(|edge| !edge.1).map(|edge| edge.0).collect();
        if !wrong.is_empty() {
            return set_record(record, field, r.pick(&wrong));
        }
    }
}

pub fn break_settings(r: &mut Random, settings: &mut Settings) {
    let field = r.range(0, 5) as usize;
    let edges = settings_edges(field);
    let wrong: Vec<u64> = edges.iter().filter(|edge| !edge.1).map(|edge| edge.0).collect();
    set_settings(settings, field, r.pick(&wrong));
}

pub fn bytes(r: &mut Random, length: usize) -> Vec<u8> {
    let mut bytes = Vec::with_capacity(length + 8);
    while bytes.len() < length {
        bytes.extend(r.number().to_le_bytes());
    }
    bytes.truncate(length);
    bytes
}

pub fn note(r: &mut Random) -> Vec<u8> {
    let short = r.range(2, 60);
    let length = r.pick(&[0, 0, 1, 7, short, short, short, 4_095, 4_096]);
    bytes(r, length as usize)
}

/// The parts of a log in their order, whatever they hold.
pub fn log(settings: &Settings, note: &[u8], records: &[Record]) -> Vec<u8> {
    let offset = 32 + note.len() as u32;
    let mut log = Vec::with_capacity(note.len() + RECORD * records.len() + 48);
    log.extend(model::settings_bytes(settings));
    log.extend(note);
    for record in records {
        log.extend(model::record_bytes(record));
    }
    log.extend(model::trailer_bytes(State { offset, count: records.len() as u32 }));
    log
}

/// A log of records that have nothing to do with one another.
pub fn any_log(r: &mut Random, count: usize) -> Vec<u8> {
    let records: Vec<Record> = (0..count).map(|_| any_record(r)).collect();
    let (settings, note) = (settings(r), note(r));
    log(&settings, &note, &records)
}

/// The log of the page docs/LOG.md.
pub fn worked() -> (Settings, &'static [u8], Vec<Record>) {
    let settings = Settings { target: 15_000, buffer: 64_000, slots: 4, ..Settings::default() };
    let records = vec![
        Record { kind: b'a', handle: 7, size: 1_000, bytes: 1_000, ..Record::default() },
        Record { kind: b't', clock: 15_000, bytes: 1_000, ..Record::default() },
        Record { kind: b'd', clock: 15_001, verdict: 7, ..Record::default() },
    ];
    (settings, b"coach 7", records)
}
