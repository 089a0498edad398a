//! Logs with one thing wrong, for every call that reads them.

use super::makers;
use super::model::{self, RECORD, TRAILER};
use super::types::{Record, Settings, State};
use crate::shared::random::Random;

/// Where the fields of settings, record and trailer begin, and their widths.
pub const SETTINGS_FIELDS: [(usize, usize); 6] =
    [(0, 8), (8, 4), (12, 4), (16, 8), (24, 1), (25, 7)];
pub const RECORD_FIELDS: [(usize, usize); 10] =
    [(0, 1), (1, 1), (2, 2), (4, 4), (8, 8), (16, 4), (20, 4), (24, 4), (28, 4), (32, 8)];
pub const TRAILER_FIELDS: [(usize, usize); 4] = [(0, 4), (4, 4), (8, 4), (12, 4)];

/// Small logs whose every byte is damaged in every way: no record, the page's, one of each kind.
pub fn small(r: &mut Random) -> Vec<Vec<u8>> {
    let (settings, note, records) = makers::worked();
    let each: Vec<Record> = super::edges::KINDS.map(|kind| makers::record(r, kind)).to_vec();
    let any = Settings { slots: r.range(1, 64) as u32, ..makers::settings(r) };
    vec![
        makers::log(&any, b"", &[]),
        makers::log(&settings, note, &records),
        makers::log(&any, b"", &each),
    ]
}

/// Changes a field of a log: to the value beside it, a far one, the greatest, 0 or any.
pub fn change_field(r: &mut Random, log: &mut [u8], at: usize, width: usize) {
    let mut bytes = [0; 8];
    bytes[..width].copy_from_slice(&log[at..at + width]);
    let value = u64::from_le_bytes(bytes);
    let (next, last) = (value.wrapping_add(1), value.wrapping_sub(1));
    let (bit, any) = (value ^ 1 << r.range(0, 8 * width as u64 - 1), r.number());
    let new = r.pick(&[next, last, bit, bit, any, any % 100_000, 0, u64::MAX]);
    log[at..at + width].copy_from_slice(&new.to_le_bytes()[..width]);
}

/// The places and widths of all fields: the trailer's, the settings', and those of these records.
pub fn fields(log: &[u8], records: &[u64]) -> Vec<(usize, usize)> {
    let offset = model::trailer_of(log).offset as usize;
    let shift = |by: usize| move |&(at, width): &(usize, usize)| (by + at, width);
    let mut fields: Vec<(usize, usize)> = SETTINGS_FIELDS.to_vec();
    fields.extend(TRAILER_FIELDS.iter().map(shift(log.len() - TRAILER)));
    for &record in records {
        fields.extend(RECORD_FIELDS.iter().map(shift(offset + RECORD * record as usize)));
    }
    fields
}

/// The same log some bytes shorter or longer: cut or filled at its end, before its trailer, or in
/// front.
pub fn other_lengths(r: &mut Random, log: &[u8]) -> Vec<Vec<u8>> {
    let (body, trailer) = log.split_at(log.len() - TRAILER);
    let mut logs = Vec::new();
    for bytes in [1, 2, 3, 8, 15, 16, 17, 39, 40, 41, 56, 80] {
        let more = makers::bytes(r, bytes);
        logs.push([log, &more].concat());
        logs.push([&more, log].concat());
        logs.push([body, &more, trailer].concat());
        if bytes <= log.len() {
            logs.push(log[..log.len() - bytes].to_vec());
            logs.push(log[bytes..].to_vec());
        }
        if bytes <= body.len() {
            logs.push([&body[..body.len() - bytes], trailer].concat());
        }
    }
    logs
}

/// Random bytes of this length; where `right` is 1 and more with a trailer that fits, from 2 on
/// with settings in range, from 3 on with records without fault but one.
pub fn random(r: &mut Random, length: usize, right: u64) -> Vec<u8> {
    let mut log = makers::bytes(r, length);
    if length < 48 || right == 0 {
        return log;
    }
    let most = ((length - 48) / RECORD).min(100_000);
    let count = most.saturating_sub(r.range(0, 1) as usize);
    let offset = length - TRAILER - RECORD * count;
    let state = State { offset: offset as u32, count: count as u32 };
    log[length - TRAILER..].copy_from_slice(&model::trailer_bytes(state));
    if right >= 2 {
        log[..32].copy_from_slice(&model::settings_bytes(&makers::settings(r)));
    }
    if right >= 3 {
        let broken = r.range(0, count as u64) as usize;
        for i in (0..count).filter(|&i| i != broken) {
            let at = offset + RECORD * i;
            log[at..at + RECORD].copy_from_slice(&model::record_bytes(&makers::any_record(r)));
        }
    }
    log
}
