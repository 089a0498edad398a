//! A plain model of the log's writer and reader, written from docs/LOG.md and the tickets Q-1 and
//! Q-12 alone.
//!
//! Lengths are computed with wide arithmetic. A refused call changes nothing.

use super::types::{Part, Record, Settings, State, ARRIVAL, DEPARTURE, TICK};

pub const SETTINGS: usize = 32;
pub const RECORD: usize = 40;
pub const TRAILER: usize = 16;
pub const NOTE_MOST: usize = 4_096;
pub const RECORDS_MOST: u32 = 100_000;
pub const OFFSET: (u32, u32) = (32, 4_128);
pub const LETTERS: [u8; 4] = *b"QLOG";

pub const TARGET: (u64, u64) = (1_000, 100_000);
pub const BUFFER: (u32, u32) = (1, 16_777_216);
pub const SLOTS: (u32, u32) = (1, 65_536);
pub const CLOCK_MAX: u64 = 1 << 48;
pub const PROFILE_MAX: u8 = 1;
pub const SIZE: (u32, u32) = (1, 65_535);
pub const VERDICT_MAX: u32 = 4;
pub const BYTES_MAX: u32 = 16_777_216;
pub const PROBABILITY_MAX: u64 = 1 << 32;

/// The answer of a read where no record is left.
pub const END: u32 = 1;

/// Which of the refusals apply to a call, by their number.
pub type Refusals = [bool; 15];

/// Where several apply, the lowest number is given, and 100 is added; 0 where none applies.
pub fn lowest(applying: &Refusals) -> u32 {
    applying.iter().position(|&applies| applies).map_or(0, |number| 100 + number as u32)
}

fn within<T: PartialOrd>(value: T, (least, most): (T, T)) -> bool {
    least <= value && value <= most
}

pub const SETTINGS_FIELDS: [&str; 6] = ["target", "buffer", "slots", "clock", "profile", "unused"];

/// Which of `SETTINGS_FIELDS` are at fault.
pub fn settings_faults(s: &Settings) -> [bool; 6] {
    [
        !within(s.target, TARGET),
        !within(s.buffer, BUFFER),
        !within(s.slots, SLOTS),
        s.clock > CLOCK_MAX,
        s.profile > PROFILE_MAX,
        s.unused != [0; 7],
    ]
}

pub const RECORD_FIELDS: [&str; 10] =
    ["kind", "ecn", "unused", "handle", "clock", "size", "u", "verdict", "bytes", "probability"];

/// Which of `RECORD_FIELDS` are at fault: out of range, or not used by the kind and not 0.
pub fn record_faults(r: &Record) -> [bool; 10] {
    let arrival = r.kind == ARRIVAL;
    let departure = r.kind == DEPARTURE;
    let tick = r.kind == TICK;
    [
        !arrival && !departure && !tick,
        if arrival { r.ecn > 1 } else { r.ecn != 0 },
        r.unused != 0,
        !arrival && r.handle != 0,
        r.clock > CLOCK_MAX,
        if arrival { !within(r.size, SIZE) } else { r.size != 0 },
        !arrival && r.u != 0,
        if arrival { r.verdict > VERDICT_MAX } else { !departure && r.verdict != 0 },
        r.bytes > BYTES_MAX,
        r.probability > PROBABILITY_MAX,
    ]
}

fn any(faults: &[bool]) -> bool {
    faults.iter().any(|&fault| fault)
}

pub fn settings_bytes(s: &Settings) -> [u8; SETTINGS] {
    let mut bytes = [0; SETTINGS];
    bytes[0..8].copy_from_slice(&s.target.to_le_bytes());
    bytes[8..12].copy_from_slice(&s.buffer.to_le_bytes());
    bytes[12..16].copy_from_slice(&s.slots.to_le_bytes());
    bytes[16..24].copy_from_slice(&s.clock.to_le_bytes());
    bytes[24] = s.profile;
    bytes[25..32].copy_from_slice(&s.unused);
    bytes
}

pub fn record_bytes(r: &Record) -> [u8; RECORD] {
    let mut bytes = [0; RECORD];
    bytes[0] = r.kind;
    bytes[1] = r.ecn;
    bytes[2..4].copy_from_slice(&r.unused.to_le_bytes());
    bytes[4..8].copy_from_slice(&r.handle.to_le_bytes());
    bytes[8..16].copy_from_slice(&r.clock.to_le_bytes());
    bytes[16..20].copy_from_slice(&r.size.to_le_bytes());
    bytes[20..24].copy_from_slice(&r.u.to_le_bytes());
    bytes[24..28].copy_from_slice(&r.verdict.to_le_bytes());
    bytes[28..32].copy_from_slice(&r.bytes.to_le_bytes());
    bytes[32..40].copy_from_slice(&r.probability.to_le_bytes());
    bytes
}

pub fn trailer_bytes(state: State) -> [u8; TRAILER] {
    let mut bytes = [0; TRAILER];
    bytes[0..4].copy_from_slice(&state.offset.to_le_bytes());
    bytes[4..8].copy_from_slice(&state.count.to_le_bytes());
    bytes[8..12].copy_from_slice(&(RECORD as u32).to_le_bytes());
    bytes[12..16].copy_from_slice(&LETTERS);
    bytes
}

/// The little-endian number of these bytes.
fn number(bytes: &[u8]) -> u64 {
    bytes.iter().rev().fold(0, |number, &byte| number << 8 | u64::from(byte))
}

fn settings_of(log: &[u8]) -> Settings {
    let mut unused = [0; 7];
    unused.copy_from_slice(&log[25..32]);
    Settings {
        target: number(&log[0..8]),
        buffer: number(&log[8..12]) as u32,
        slots: number(&log[12..16]) as u32,
        clock: number(&log[16..24]),
        profile: log[24],
        unused,
    }
}

pub fn record_of(bytes: &[u8]) -> Record {
    Record {
        kind: bytes[0],
        ecn: bytes[1],
        unused: number(&bytes[2..4]) as u16,
        handle: number(&bytes[4..8]) as u32,
        clock: number(&bytes[8..16]),
        size: number(&bytes[16..20]) as u32,
        u: number(&bytes[20..24]) as u32,
        verdict: number(&bytes[24..28]) as u32,
        bytes: number(&bytes[28..32]) as u32,
        probability: number(&bytes[32..40]),
    }
}

/// The length of a log with these two numbers in its trailer.
pub fn length(state: State) -> u64 {
    u64::from(state.offset) + RECORD as u64 * u64::from(state.count) + TRAILER as u64
}

pub fn begin_refusals(settings: &Settings, note: usize, room: usize) -> Refusals {
    let mut applying = Refusals::default();
    applying[12] = any(&settings_faults(settings));
    applying[14] = note > NOTE_MOST || room < SETTINGS + note + TRAILER;
    applying
}

/// Begins a log: the answer and the writer's state.
pub fn begin(settings: &Settings, note: &[u8], bytes: &mut [u8]) -> (u32, State) {
    let answer = lowest(&begin_refusals(settings, note.len(), bytes.len()));
    if answer != 0 {
        return (answer, State::default());
    }
    let end = SETTINGS + note.len();
    let state = State { offset: end as u32, count: 0 };
    bytes[..SETTINGS].copy_from_slice(&settings_bytes(settings));
    bytes[SETTINGS..end].copy_from_slice(note);
    bytes[end..end + TRAILER].copy_from_slice(&trailer_bytes(state));
    (answer, state)
}

/// Whether the writer cannot have reached the state in bytes of this length.
fn unreached(state: State, room: usize) -> bool {
    let in_range = within(state.offset, OFFSET) && state.count <= RECORDS_MOST;
    !in_range || length(state) > room as u64
}

pub fn add_refusals(state: State, record: &Record, room: usize) -> Refusals {
    let mut applying = Refusals::default();
    applying[11] = unreached(state, room);
    applying[13] = any(&record_faults(record));
    applying[14] = state.count >= RECORDS_MOST || length(state) + RECORD as u64 > room as u64;
    applying
}

/// Adds a record: the answer and the writer's state.
pub fn add(state: State, record: &Record, bytes: &mut [u8]) -> (u32, State) {
    let answer = lowest(&add_refusals(state, record, bytes.len()));
    if answer != 0 {
        return (answer, state);
    }
    let at = state.offset as usize + RECORD * state.count as usize;
    let end = at + RECORD;
    let state = State { count: state.count + 1, ..state };
    bytes[at..end].copy_from_slice(&record_bytes(record));
    bytes[end..end + TRAILER].copy_from_slice(&trailer_bytes(state));
    (answer, state)
}

pub const TRAILER_FAULTS: [&str; 7] = [
    "length below 48",
    "offset below 32",
    "offset above 4,128",
    "count above 100,000",
    "record size not 40",
    "other letters",
    "length not offset + 40 x count + 16",
];

/// The trailer's first two numbers, where there is one.
pub fn trailer_of(log: &[u8]) -> State {
    if log.len() < TRAILER {
        return State::default();
    }
    let trailer = &log[log.len() - TRAILER..];
    State { offset: number(&trailer[0..4]) as u32, count: number(&trailer[4..8]) as u32 }
}

/// Which of `TRAILER_FAULTS` a log has. Without a trailer it has the first alone.
pub fn trailer_faults(log: &[u8]) -> [bool; 7] {
    if log.len() < TRAILER {
        return [true, false, false, false, false, false, false];
    }
    let trailer = &log[log.len() - TRAILER..];
    let State { offset, count } = trailer_of(log);
    [
        log.len() < SETTINGS + TRAILER,
        offset < OFFSET.0,
        offset > OFFSET.1,
        count > RECORDS_MOST,
        number(&trailer[8..12]) != RECORD as u64,
        trailer[12..16] != LETTERS,
        log.len() as u64 != length(State { offset, count }),
    ]
}

/// The refusals 11 and 12. Settings are looked at where the bytes have them.
pub fn open_refusals(log: &[u8]) -> Refusals {
    let mut applying = Refusals::default();
    applying[11] = any(&trailer_faults(log));
    applying[12] = log.len() >= SETTINGS && any(&settings_faults(&settings_of(log)));
    applying
}

pub fn read_refusals(log: &[u8], place: u64) -> Refusals {
    let mut applying = open_refusals(log);
    if lowest(&applying) == 0 && place < u64::from(trailer_of(log).count) {
        applying[13] = any(&record_faults(&record_at(log, place)));
    }
    applying
}

/// The record of this number, whatever its fields hold.
pub fn record_at(log: &[u8], place: u64) -> Record {
    let at = trailer_of(log).offset as usize + RECORD * place as usize;
    record_of(&log[at..at + RECORD])
}

/// Reads one record: the answer, the place afterwards, and the record.
pub fn read(log: &[u8], place: u64) -> (u32, u64, Record) {
    let answer = lowest(&open_refusals(log));
    if answer != 0 {
        return (answer, place, Record::default());
    }
    if place >= u64::from(trailer_of(log).count) {
        return (END, place, Record::default());
    }
    let answer = lowest(&read_refusals(log, place));
    if answer != 0 {
        return (answer, place, Record::default());
    }
    (0, place + 1, record_at(log, place))
}

pub fn settings(log: &[u8]) -> (u32, Settings) {
    match lowest(&open_refusals(log)) {
        0 => (0, settings_of(log)),
        answer => (answer, Settings::default()),
    }
}

/// Where the note stands. An empty part is at 0.
pub fn note(log: &[u8]) -> (u32, Part) {
    let answer = lowest(&open_refusals(log));
    let length = u64::from(trailer_of(log).offset).saturating_sub(SETTINGS as u64);
    if answer != 0 || length == 0 {
        return (answer, Part::default());
    }
    (answer, Part { from: SETTINGS as u64, length })
}
