//! The writer: each call on both sides; answer, state and all of the lent bytes are compared.

use super::edges::{record_edges, set_record, set_settings, settings_edges, KINDS};
use super::lender::{Lender, ROOM};
use super::makers;
use super::model::{self, RECORD_FIELDS, SETTINGS_FIELDS};
use super::types::{Record, Settings, State};
use super::writer_labels as labels;
use crate::coverage::Coverage;
use crate::failure::{same, same_content, Failure};
use crate::shared::random::Random;

struct Writer<'a> {
    lender: Lender,
    coverage: &'a mut Coverage,
}

pub fn round(r: &mut Random, at_end: bool, coverage: &mut Coverage) -> Result<(), Failure> {
    let mut writer = Writer { lender: Lender::new(at_end), coverage };
    writer.settings_ends(r)?;
    writer.notes(r)?;
    writer.record_ends(r)?;
    writer.states(r)?;
    for _ in 0..600 {
        let most = r.spread(0, 60) as usize;
        writer.sequence(r, most)?;
    }
    writer.longest(r)
}

impl Writer<'_> {
    /// One begin in a copy of the bytes; gives the model's answer.
    fn begin(&mut self, settings: &Settings, note: &[u8], before: &[u8]) -> Result<u32, Failure> {
        let mut bytes = before.to_vec();
        let model = model::begin(settings, note, &mut bytes);
        self.lender.lend(before);
        let library = self.lender.begin(settings, note);
        let (length, room) = (note.len(), before.len());
        let call = || format!("begin, {settings:?}, a note of {length}, room {room}");
        same(&model, &library, call)?;
        same_content("bytes", &bytes, self.lender.lent(), call)?;
        self.coverage.calls += 1;
        labels::note_begin(self.coverage, settings, length, room, model.0);
        Ok(model.0)
    }

    /// One add to the lent bytes, which `bytes` repeats; they are compared whole if asked.
    fn add(
        &mut self,
        state: State,
        record: &Record,
        bytes: &mut [u8],
        whole: bool,
    ) -> Result<(u32, State), Failure> {
        let room = bytes.len();
        let model = model::add(state, record, bytes);
        let library = self.lender.add(state, record);
        let call = || format!("add, {state:?}, {record:?}, room {room}");
        same(&model, &library, call)?;
        if whole {
            same_content("bytes", bytes, self.lender.lent(), call)?;
        }
        self.coverage.calls += 1;
        labels::note_add(self.coverage, state, record, room, model.0);
        Ok(model)
    }

    fn settings_ends(&mut self, r: &mut Random) -> Result<(), Failure> {
        let mut label = 0;
        for field in 0..SETTINGS_FIELDS.len() {
            for (value, allowed) in settings_edges(field) {
                let mut settings = makers::settings(r);
                set_settings(&mut settings, field, value);
                let note = makers::bytes(r, 5);
                let before = makers::bytes(r, 60);
                let answer = self.begin(&settings, &note, &before)?;
                if (answer == 0) == allowed {
                    self.coverage.hit(labels::SETTINGS_EDGES, label);
                }
                label += 1;
            }
        }
        Ok(())
    }

    /// Notes and rooms at their ends; settings with faults among them.
    fn notes(&mut self, r: &mut Random) -> Result<(), Failure> {
        for length in [0, 1, 2, 39, 40, 41, 4_095, 4_096, 4_097, 4_098, 8_192] {
            let exact = length + 48;
            for room in [0, 1, 47, 48, exact - 1, exact, exact + 1, exact + 40, exact + 400] {
                let (note, before) = (makers::bytes(r, length), makers::bytes(r, room));
                let mut settings = makers::settings(r);
                self.begin(&settings, &note, &before)?;
                makers::break_settings(r, &mut settings);
                self.begin(&settings, &note, &before)?;
            }
        }
        Ok(())
    }

    fn record_ends(&mut self, r: &mut Random) -> Result<(), Failure> {
        let mut label = 0;
        for kind in KINDS {
            for field in 0..RECORD_FIELDS.len() {
                for (value, allowed) in record_edges(kind, field) {
                    let mut record = makers::record(r, kind);
                    set_record(&mut record, field, value);
                    let state = State { offset: 32 + r.range(0, 9) as u32, count: 2 };
                    let room = model::length(state) as usize + r.pick(&[40, 41, 300]);
                    let mut bytes = makers::bytes(r, room);
                    self.lender.lend(&bytes);
                    let answer = self.add(state, &record, &mut bytes, true)?.0;
                    if (answer == 0) == allowed {
                        self.coverage.hit(labels::RECORD_EDGES, label);
                    }
                    label += 1;
                }
            }
        }
        Ok(())
    }

    /// Any state in any room, over bytes that hold anything: none of them is read.
    fn states(&mut self, r: &mut Random) -> Result<(), Failure> {
        let any = r.number() as u32;
        let offsets =
            [0, 31, 32, 33, 71, 72, 4_127, 4_128, 4_129, 1 << 31, u32::MAX - 55, u32::MAX];
        let counts = [0, 1, 2, 7, 107_374_182, 107_374_183, 1 << 31, u32::MAX, any];
        for (i, &offset) in offsets.iter().enumerate() {
            for count in counts {
                self.rooms(
                    r,
                    State { offset, count },
                    &[0, 16, 47, 48, 87, 88, 90, 127, 128, 5_000],
                )?;
            }
            for count in [99_999, 100_000, 100_001] {
                self.rooms(
                    r,
                    State { offset, count },
                    if i % 2 == 0 { &[4_009_000] } else { &[0] },
                )?;
            }
        }
        Ok(())
    }

    /// One state in these rooms and in those about its own length.
    fn rooms(&mut self, r: &mut Random, state: State, rooms: &[usize]) -> Result<(), Failure> {
        let exact = model::length(state) as usize;
        let about = [exact - 1, exact, exact + 1, exact + 39, exact + 40, exact + 41];
        for &room in rooms.iter().chain(&about).filter(|&&room| room <= ROOM) {
            for broken in [false, true] {
                let mut record = makers::any_record(r);
                if broken {
                    makers::break_record(r, &mut record);
                }
                let mut bytes = makers::bytes(r, room);
                self.lender.lend(&bytes);
                self.add(state, &record, &mut bytes, true)?;
            }
        }
        Ok(())
    }

    /// A begin and adds, some of them refused, until there is no room left; then all is read back.
    fn sequence(&mut self, r: &mut Random, most: usize) -> Result<(), Failure> {
        let (settings, note) = (makers::settings(r), makers::note(r));
        let room = 48 + note.len() + 40 * most + r.range(0, 39) as usize;
        let mut bytes = makers::bytes(r, room);
        self.begin(&settings, &note, &bytes)?;
        let mut state = model::begin(&settings, &note, &mut bytes).1;
        let mut records = Vec::new();
        for _ in 0..most + 3 {
            let mut record = makers::any_record(r);
            if r.one_in(6) {
                makers::break_record(r, &mut record);
            }
            let (answer, after) = self.add(state, &record, &mut bytes, true)?;
            state = after;
            if answer == 0 {
                records.push(record);
            }
        }
        self.read_back(&settings, &note, &records)
    }

    /// 100,000 records, and one that is refused though there is room.
    fn longest(&mut self, r: &mut Random) -> Result<(), Failure> {
        let (settings, note) = (makers::settings(r), makers::note(r));
        let mut bytes = makers::bytes(r, 48 + note.len() + 40 * 100_002);
        self.begin(&settings, &note, &bytes)?;
        let mut state = model::begin(&settings, &note, &mut bytes).1;
        let mut records = Vec::new();
        for i in 0..100_001 {
            let record = makers::any_record(r);
            let (answer, after) = self.add(state, &record, &mut bytes, i % 10_000 == 0)?;
            state = after;
            if answer == 0 {
                records.push(record);
            }
        }
        self.read_back(&settings, &note, &records)
    }

    /// What was written is the parts one after another, and reads back the same.
    fn read_back(
        &mut self,
        settings: &Settings,
        note: &[u8],
        records: &[Record],
    ) -> Result<(), Failure> {
        let log = makers::log(settings, note, records);
        let written = self.lender.lent()[..log.len()].to_vec();
        let call = || "reading back what was written".to_string();
        same_content("bytes", &log, &written, call)?;
        self.lender.lend(&written);
        same(&(0, *settings), &self.lender.settings(), call)?;
        let part = self.lender.note().1;
        let text = &written[part.from as usize..(part.from + part.length) as usize];
        same_content("notes", note, text, call)?;
        let mut place = 0;
        for (i, record) in records.iter().enumerate() {
            let read = self.lender.read(place);
            same(&(0, i as u64 + 1, *record), &read, call)?;
            place = read.1;
        }
        same(&(model::END, place, Record::default()), &self.lender.read(place), call)
    }
}
