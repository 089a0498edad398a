//! The replay: answer, what was found, and both tables whole, on logs of runs, on logs with a
//! wrong line, on damaged ones and on any bytes.

use super::lender::Lender;
use super::model::{self, Replayed};
use super::runs::{self, Run};
use super::{changes, figures, labels, own};
use crate::coverage::Coverage;
use crate::failure::{expect, same, same_content, Failure};
use crate::log::lender::Lender as Writer;
use crate::log::reader::text;
use crate::log::types::Settings;
use crate::log::{damage, makers, whole};
use crate::shared::random::Random;

pub struct Player<'a> {
    lender: Lender,
    coverage: &'a mut Coverage,
    /// Tables as long as the longest, of numbers that say nothing.
    filled: Vec<u32>,
}

/// One replay that was compared: its inputs and the model's results.
pub struct Replay<'a> {
    pub log: &'a [u8],
    pub tables: (usize, usize),
    pub answer: u32,
    pub found: Replayed,
    /// Whether the tables were as before.
    pub untouched: bool,
}

pub fn round(r: &mut Random, at_end: bool, coverage: &mut Coverage) -> Result<(), Failure> {
    let filled = (0..65_540 + 7).map(|_| r.number() as u32).collect();
    let mut player = Player { lender: Lender::new(at_end), coverage, filled };
    for kind in 0..runs::KINDS {
        for calls in [0, 1, 2, 40, 300, 300, 300, 1_000, 3_000] {
            player.run(r, kind, calls, 6 * changes::KINDS)?;
        }
    }
    let mut writer = Writer::new(at_end);
    for kind in 0..runs::KINDS {
        own::run(r, kind, &mut player.lender, &mut writer)?;
    }
    figures::run(&mut player.lender)?;
    player.tables(r)?;
    player.orders(r)?;
    player.damaged(r)?;
    let kind = r.pick(&[9, 10, 12, 13, 16]);
    for run in [runs::run(r, kind, 100_000), runs::flood(r)] {
        player.large(r, run)?;
    }
    player.random(r)
}

impl Player<'_> {
    /// One replay of the log with tables of these lengths.
    fn replay(
        &mut self,
        r: &mut Random,
        log: &[u8],
        tables: (usize, usize),
    ) -> Result<u32, Failure> {
        self.lender.lend(log);
        let from = r.range(0, 3) as usize;
        let before_handles = &self.filled[from..from + tables.0];
        let before_sizes = &self.filled[from + 3..from + 3 + tables.1];
        let (mut handles, mut sizes) = (before_handles.to_vec(), before_sizes.to_vec());
        let (answer, found) = model::replay(log, &mut handles, &mut sizes);
        let library = self.lender.replay(before_handles, before_sizes);
        let call = || format!("replay, tables of {} and {}, log {}", tables.0, tables.1, text(log));
        same(&(answer, found), &library, call)?;
        let (library_handles, library_sizes) = self.lender.tables();
        same_content("handles", &handles, library_handles, call)?;
        same_content("sizes", &sizes, library_sizes, call)?;
        let untouched = handles == before_handles && sizes == before_sizes;
        self.coverage.calls += 1;
        labels::note(self.coverage, &Replay { log, tables, answer, found, untouched });
        Ok(answer)
    }

    /// The log of a run is accepted; then with changes at any of its records.
    fn run(&mut self, r: &mut Random, kind: u64, calls: usize, most: u64) -> Result<(), Failure> {
        let Run { settings, records } = runs::run(r, kind, calls);
        let (note, slots) = (makers::note(r), settings.slots as usize);
        let log = makers::log(&settings, &note, &records);
        if self.replay(r, &log, (slots, slots))? != 0 {
            return Err(Failure("the log of a run is not accepted".to_string()));
        }
        let other = Settings { profile: 1 - settings.profile, ..settings };
        let log = makers::log(&other, &note, &records);
        let answer = self.replay(r, &log, (slots, slots))?;
        labels::note_other_profile(self.coverage, settings.profile, answer);
        for i in 0..if records.is_empty() { 0 } else { most } {
            let mut changed = records.clone();
            let last = records.len() as u64 - 1;
            let at = r.range(0, last);
            let at = r.pick(&[0, last, at, at, at, at]) as usize;
            changes::change(r, &mut changed, i % changes::KINDS, at);
            let log = makers::log(&settings, &note, &changed);
            self.replay(r, &log, (slots, slots))?;
        }
        Ok(())
    }

    /// Tables of other lengths than the slots.
    fn tables(&mut self, r: &mut Random) -> Result<(), Failure> {
        for (kind, calls) in [(0, 30), (1, 0), (1, 30), (7, 50), (8, 0), (8, 200)] {
            let Run { settings, mut records } = runs::run(r, kind, calls);
            let slots = settings.slots as usize;
            for broken in [false, true] {
                let log = makers::log(&settings, &makers::note(r), &records);
                for other in [0, 1, slots - 1, slots + 1, 2 * slots] {
                    let other = other.min(65_540);
                    for tables in
                        [(other, slots), (slots, other), (other, other), (slots - 1, slots + 1)]
                    {
                        self.replay(r, &log, tables)?;
                    }
                }
                if let (Some(record), false) = (records.last_mut(), broken) {
                    makers::break_record(r, record);
                }
            }
        }
        Ok(())
    }

    /// Several faults at once, and a fault behind a record that disagrees.
    fn orders(&mut self, r: &mut Random) -> Result<(), Failure> {
        let Run { mut settings, mut records } = runs::run(r, 1, 20);
        let slots = settings.slots as usize;
        records[0].probability ^= 1;
        let disagrees = makers::log(&settings, b"", &records);
        makers::break_record(r, &mut records[19]);
        let fault = makers::log(&settings, b"", &records);
        makers::break_settings(r, &mut settings);
        let both = makers::log(&settings, b"", &records);
        let mut all = both.clone();
        all[both.len() - 1] = b'g';
        let logs = [(&disagrees, 2, 103), (&fault, 113, 113), (&both, 112, 112), (&all, 111, 111)];
        for (i, (log, answer, refusal)) in logs.into_iter().enumerate() {
            let found = self.replay(r, log, (slots, slots))?;
            expect("the answer", found, answer)?;
            let found = self.replay(r, log, (slots, slots + 1))?;
            expect("the answer with other tables", found, refusal)?;
            labels::note_faults(self.coverage, i);
        }
        Ok(())
    }

    /// Each byte of small logs in each of its other values, and other lengths.
    fn damaged(&mut self, r: &mut Random) -> Result<(), Failure> {
        for small in damage::small(r) {
            let slots = small[12] as usize;
            let mut log = small.clone();
            for at in 0..log.len() {
                for byte in (0..=255).filter(|&byte| byte != small[at]) {
                    log[at] = byte;
                    let slots = if at == 12 && r.one_in(2) { byte.into() } else { slots };
                    self.replay(r, &log, (slots, slots))?;
                }
                log[at] = small[at];
            }
            for other in damage::other_lengths(r, &small) {
                self.replay(r, &other, (slots, slots))?;
            }
        }
        Ok(())
    }

    /// Each field of a long log: its settings', its trailer's, and those of three records.
    fn large(&mut self, r: &mut Random, run: Run) -> Result<(), Failure> {
        let Run { settings, records } = run;
        let slots = settings.slots as usize;
        let mut log = makers::log(&settings, &makers::note(r), &records);
        self.replay(r, &log, (slots, slots))?;
        let last = records.len() as u64 - 1;
        let some = r.range(0, last);
        for (at, width) in damage::fields(&log, &[0, some, last]) {
            let right = log[at..at + width].to_vec();
            damage::change_field(r, &mut log, at, width);
            self.replay(r, &log, (slots, slots))?;
            log[at..at + width].copy_from_slice(&right);
        }
        Ok(())
    }

    fn random(&mut self, r: &mut Random) -> Result<(), Failure> {
        for length in (0..=200).chain([1_000, 10_000, 100_000]) {
            for right in [0, 1, 2, 3, 3] {
                let log = damage::random(r, length, right);
                let slots = whole::read(&log).map_or(4, |whole| whole.settings.slots as usize);
                self.replay(r, &log, (slots, slots))?;
            }
        }
        Ok(())
    }
}
