//! Lends guarded memory to the library's writer and reader. The log, or the bytes for one, stay
//! lent from call to call.

use super::types::{Part, Record, Settings, State};
use crate::shared::area::Area;
use crate::watch::watched;

extern "C" {
    fn obikuteru_log_begin(
        log: *mut State,
        settings: *const Settings,
        note: *const u8,
        note_len: usize,
        bytes: *mut u8,
        bytes_len: usize,
    ) -> u32;
    fn obikuteru_log_add(
        log: *mut State,
        record: *const Record,
        bytes: *mut u8,
        bytes_len: usize,
    ) -> u32;
    fn obikuteru_log_read(
        log: *const u8,
        log_len: usize,
        place: *mut u64,
        record: *mut Record,
    ) -> u32;
    fn obikuteru_log_settings(log: *const u8, log_len: usize, settings: *mut Settings) -> u32;
    fn obikuteru_log_note(log: *const u8, log_len: usize, note: *mut Part) -> u32;
}

/// Room for the longest log and some bytes more.
pub const ROOM: usize = 4_010_000;

/// What stands where the library is to write: no call gives it back by chance.
const UNWRITTEN: [u8; 40] = [0xA5; 40];

pub struct Lender {
    bytes: Area,
    note: Area,
    state: Area,
    place: Area,
    /// The settings or record that a call is given, and what it hands back.
    given: Area,
    back: Area,
}

impl Lender {
    pub fn new(at_end: bool) -> Lender {
        let small = || Area::new(64, at_end);
        let (bytes, note) = (Area::new(ROOM, at_end), Area::new(10_000, at_end));
        Lender { bytes, note, state: small(), place: small(), given: small(), back: small() }
    }

    /// Lends these bytes to the calls that follow.
    pub fn lend(&mut self, bytes: &[u8]) {
        self.bytes.lend(bytes);
    }

    /// What the lent bytes hold now.
    pub fn lent(&self) -> &[u8] {
        self.bytes.content()
    }

    /// Damages one of the lent bytes.
    pub fn change(&mut self, at: usize, byte: u8) {
        self.bytes.change()[at] = byte;
    }

    pub fn begin(&mut self, settings: &Settings, note: &[u8]) -> (u32, State) {
        self.given.lend(&[*settings]);
        self.note.lend(note);
        self.state.lend(&UNWRITTEN[..8]);
        let (state, given) = (self.state.write(), self.given.read());
        let (text, bytes) = (self.note.read(), self.bytes.write());
        let room = self.bytes.bytes();
        let answer = watched("begin, note and room", [note.len() as u64, room as u64], || unsafe {
            obikuteru_log_begin(state, given, text, note.len(), bytes, room)
        });
        (answer, self.state.content()[0])
    }

    pub fn add(&mut self, state: State, record: &Record) -> (u32, State) {
        self.given.lend(&[*record]);
        self.state.lend(&[state]);
        let (at, given, bytes) = (self.state.write(), self.given.read(), self.bytes.write());
        let room = self.bytes.bytes();
        let numbers = [u64::from(state.offset), u64::from(state.count)];
        let answer = watched("add, offset and count", numbers, || unsafe {
            obikuteru_log_add(at, given, bytes, room)
        });
        (answer, self.state.content()[0])
    }

    pub fn read(&mut self, place: u64) -> (u32, u64, Record) {
        self.place.lend(&[place]);
        self.back.lend(&UNWRITTEN);
        let (at, back, log) = (self.place.write(), self.back.write(), self.bytes.read());
        let length = self.bytes.bytes();
        let answer = watched("read, length and place", [length as u64, place], || unsafe {
            obikuteru_log_read(log, length, at, back)
        });
        (answer, self.place.content()[0], self.back.content()[0])
    }

    pub fn settings(&mut self) -> (u32, Settings) {
        self.back.lend(&UNWRITTEN[..32]);
        let (back, log, length) = (self.back.write(), self.bytes.read(), self.bytes.bytes());
        let answer = watched("settings, length", [length as u64, 0], || unsafe {
            obikuteru_log_settings(log, length, back)
        });
        (answer, self.back.content()[0])
    }

    pub fn note(&mut self) -> (u32, Part) {
        self.back.lend(&UNWRITTEN[..16]);
        let (back, log, length) = (self.back.write(), self.bytes.read(), self.bytes.bytes());
        let answer = watched("note, length", [length as u64, 0], || unsafe {
            obikuteru_log_note(log, length, back)
        });
        (answer, self.back.content()[0])
    }
}
