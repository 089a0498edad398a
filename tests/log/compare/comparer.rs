//! The comparison: equal logs, logs that differ in one thing, beginnings of one another, damaged
//! ones and any bytes; answer and what was found, the part's place and length among it.

use super::labels::{self, Comparison};
use super::lender::Lender;
use super::model::{self, Compared};
use crate::coverage::Coverage;
use crate::failure::{expect, same, Failure};
use crate::log::edges::{record_edges, set_record, set_settings, settings_edges};
use crate::log::reader::text;
use crate::log::types::{Part, Record, Settings};
use crate::log::{damage, makers};
use crate::shared::random::Random;

struct Comparer<'a> {
    lender: Lender,
    coverage: &'a mut Coverage,
}

/// The parts of a log, from which its variants are made.
#[derive(Clone)]
struct Parts {
    settings: Settings,
    note: Vec<u8>,
    records: Vec<Record>,
}

impl Parts {
    fn new(r: &mut Random, records: usize) -> Parts {
        let records = (0..records).map(|_| makers::any_record(r)).collect();
        Parts { settings: makers::settings(r), note: makers::note(r), records }
    }

    fn log(&self) -> Vec<u8> {
        makers::log(&self.settings, &self.note, &self.records)
    }
}

pub fn round(r: &mut Random, at_end: bool, coverage: &mut Coverage) -> Result<(), Failure> {
    let mut comparer = Comparer { lender: Lender::new(at_end), coverage };
    comparer.figures()?;
    for _ in 0..300 {
        let records = r.spread(0, 40) as usize;
        let parts = Parts::new(r, records);
        comparer.equal(&parts)?;
        comparer.settings(r, &parts)?;
        comparer.notes(r, &parts)?;
        comparer.records(r, &parts)?;
        comparer.beginnings(r, &parts)?;
        comparer.several(r, &parts)?;
    }
    comparer.refused(r)?;
    comparer.damaged(r)?;
    comparer.large(r)?;
    comparer.random(r)
}

impl Comparer<'_> {
    /// One comparison, and the one with the logs exchanged.
    fn both(&mut self, first: &[u8], second: &[u8]) -> Result<(), Failure> {
        self.compare(first, second)?;
        self.compare(second, first)
    }

    fn compare(&mut self, first: &[u8], second: &[u8]) -> Result<(), Failure> {
        let (answer, found) = model::compare(first, second);
        let library = self.lender.compare(first, second);
        let call = || format!("compare, first {}\n  second {}", text(first), text(second));
        same(&(answer, found), &library, call)?;
        self.coverage.calls += 1;
        labels::note(self.coverage, &Comparison { first, second, answer, found });
        Ok(())
    }

    /// The page's log and its first two records: the part is the third, without the trailer.
    fn figures(&mut self) -> Result<(), Failure> {
        let (settings, note, records) = makers::worked();
        let (long, short) =
            (makers::log(&settings, note, &records), makers::log(&settings, note, &records[..2]));
        let part = Part { from: 119, length: 40 };
        let found = |whose| Compared { whose, record: 2, part };
        expect("the first ends", self.lender.compare(&short, &long), (4, found(2)))?;
        expect("the second ends", self.lender.compare(&long, &short), (5, found(1)))?;
        let equal = Compared { record: 3, ..Compared::default() };
        expect("the logs are equal", self.lender.compare(&long, &long), (0, equal))
    }

    /// A log and its copy, and one log lent twice.
    fn equal(&mut self, parts: &Parts) -> Result<(), Failure> {
        let log = parts.log();
        self.compare(&log, &log)?;
        let library = self.lender.compare_itself(&log);
        let call = || format!("compare with itself, log {}", text(&log));
        same(&model::compare(&log, &log), &library, call)
    }

    /// One of the settings is another in range.
    fn settings(&mut self, r: &mut Random, parts: &Parts) -> Result<(), Failure> {
        for field in 0..5 {
            for (value, _) in settings_edges(field).into_iter().filter(|edge| edge.1) {
                let mut other = parts.clone();
                set_settings(&mut other.settings, field, value);
                self.both(&parts.log(), &other.log())?;
            }
        }
        let other = Parts { settings: makers::settings(r), ..parts.clone() };
        self.both(&parts.log(), &other.log())
    }

    /// The note is one byte longer or shorter, or has another first, last or other byte.
    fn notes(&mut self, r: &mut Random, parts: &Parts) -> Result<(), Failure> {
        let length = parts.note.len();
        let mut others = vec![makers::note(r)];
        if length < 4_096 {
            others.push([&parts.note[..], &[r.number() as u8]].concat());
        }
        if length > 0 {
            others.push(parts.note[1..].to_vec());
            others.push(parts.note[..length - 1].to_vec());
            let any = r.range(0, length as u64 - 1) as usize;
            for at in [0, any, length - 1] {
                let mut note = parts.note.clone();
                note[at] ^= 1 << r.range(0, 7);
                others.push(note);
            }
        }
        for note in others {
            let other = Parts { note, ..parts.clone() };
            self.both(&parts.log(), &other.log())?;
        }
        Ok(())
    }

    /// One field of one record is another value, a fault or not; also where the lengths differ.
    fn records(&mut self, r: &mut Random, parts: &Parts) -> Result<(), Failure> {
        if parts.records.is_empty() {
            return Ok(());
        }
        let last = parts.records.len() - 1;
        for field in 0..10 {
            let any = r.range(0, last as u64) as usize;
            let at = r.pick(&[0, any, last]);
            let mut other = parts.clone();
            let edges = record_edges(other.records[at].kind, field);
            let ranged: Vec<u64> = edges.iter().filter(|edge| edge.1).map(|edge| edge.0).collect();
            if !ranged.is_empty() {
                set_record(&mut other.records[at], field, r.pick(&ranged));
            }
            self.both(&parts.log(), &other.log())?;
            other.records.truncate(at + 1);
            self.both(&parts.log(), &other.log())?;
        }
        let mut other = parts.clone();
        other.records[last] = makers::any_record(r);
        self.both(&parts.log(), &other.log())
    }

    /// Beginnings of the log, from none of its records to all but one.
    fn beginnings(&mut self, r: &mut Random, parts: &Parts) -> Result<(), Failure> {
        let count = parts.records.len();
        let any = r.range(0, count as u64) as usize;
        for shared in [0, 1, any, count.saturating_sub(1)] {
            let records = parts.records[..shared.min(count)].to_vec();
            self.both(&parts.log(), &Parts { records, ..parts.clone() }.log())?;
        }
        Ok(())
    }

    /// Several differences at once: the first in order is the answer.
    fn several(&mut self, r: &mut Random, parts: &Parts) -> Result<(), Failure> {
        let count = parts.records.len().saturating_sub(1);
        let other = Parts::new(r, count);
        let settings = Parts { settings: other.settings, ..parts.clone() };
        let note = Parts { note: other.note.clone(), ..parts.clone() };
        self.both(&parts.log(), &other.log())?;
        self.both(&parts.log(), &Parts { note: other.note.clone(), ..settings }.log())?;
        self.both(&parts.log(), &Parts { records: other.records.clone(), ..note }.log())?;
        let mut two = parts.clone();
        for record in two.records.iter_mut().rev().take(2) {
            *record = makers::any_record(r);
        }
        self.both(&parts.log(), &two.log())
    }

    /// Each refusal for the first log, the second, and both.
    fn refused(&mut self, r: &mut Random) -> Result<(), Failure> {
        for _ in 0..40 {
            let parts = Parts::new(r, 4);
            let mut log = parts.log();
            let end = log.len() - 1;
            log[end] ^= 1 << r.range(0, 7);
            let (mut settings, mut record) = (parts.clone(), parts.clone());
            makers::break_settings(r, &mut settings.settings);
            let at = r.range(0, 3) as usize;
            makers::break_record(r, &mut record.records[at]);
            let logs = [parts.log(), log, settings.log(), record.log()];
            for first in &logs {
                for second in &logs {
                    self.compare(first, second)?;
                }
            }
        }
        Ok(())
    }

    /// Each byte of small logs in each of its other values, beside the whole log; other lengths.
    fn damaged(&mut self, r: &mut Random) -> Result<(), Failure> {
        for small in damage::small(r) {
            let mut log = small.clone();
            for at in 0..log.len() {
                for byte in (0..=255).filter(|&byte| byte != small[at]) {
                    log[at] = byte;
                    self.both(&small, &log)?;
                }
                log[at] = small[at];
            }
            for other in damage::other_lengths(r, &small) {
                self.both(&small, &other)?;
            }
        }
        Ok(())
    }

    /// Long logs: equal, shorter, and with each field changed.
    fn large(&mut self, r: &mut Random) -> Result<(), Failure> {
        let mut parts = Parts::new(r, 100_000);
        let whole = parts.log();
        self.equal(&parts)?;
        let mut log = whole.clone();
        let some = r.range(0, 99_999);
        for (at, width) in damage::fields(&log, &[0, some, 99_999]) {
            damage::change_field(r, &mut log, at, width);
            self.both(&whole, &log)?;
            log[at..at + width].copy_from_slice(&whole[at..at + width]);
        }
        for count in [99_999, some as usize, 1, 0] {
            parts.records.truncate(count);
            self.both(&whole, &parts.log())?;
        }
        Ok(())
    }

    fn random(&mut self, r: &mut Random) -> Result<(), Failure> {
        for length in (0..=200).chain([1_000, 10_000, 100_000]) {
            for right in 0..4 {
                let log = damage::random(r, length, right);
                let other = damage::random(r, length, 3);
                self.both(&log, &other)?;
                self.compare(&log, &log)?;
            }
        }
        Ok(())
    }
}
