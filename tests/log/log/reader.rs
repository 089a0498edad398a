//! The reader: records at any place, settings and note, of good logs, damaged ones and any bytes.

use super::edges::{record_edges, set_record, set_settings, settings_edges, KINDS};
use super::lender::Lender;
use super::model::{self, RECORD_FIELDS, SETTINGS_FIELDS};
use super::reader_labels as labels;
use super::types::{Record, State};
use super::{damage, makers};
use crate::coverage::Coverage;
use crate::failure::{same, Failure};
use crate::shared::random::Random;

struct Reader<'a> {
    lender: Lender,
    coverage: &'a mut Coverage,
}

pub fn round(r: &mut Random, at_end: bool, coverage: &mut Coverage) -> Result<(), Failure> {
    let mut reader = Reader { lender: Lender::new(at_end), coverage };
    reader.good(r)?;
    reader.settings_ends(r)?;
    reader.record_ends(r)?;
    reader.trailers(r)?;
    for log in damage::small(r) {
        reader.every_byte(&log)?;
        for other in damage::other_lengths(r, &log) {
            reader.whole(r, &other)?;
        }
    }
    reader.large(r)?;
    reader.random(r)
}

impl Reader<'_> {
    /// Reads one record of the lent log, which `log` repeats.
    fn read(&mut self, log: &[u8], place: u64) -> Result<u32, Failure> {
        let model = model::read(log, place);
        let library = self.lender.read(place);
        same(&model, &library, || format!("read, place {place}, log {}", text(log)))?;
        self.coverage.calls += 1;
        labels::note_read(self.coverage, log, place, model.0);
        Ok(model.0)
    }

    fn others(&mut self, log: &[u8]) -> Result<(), Failure> {
        let (settings, note) = (model::settings(log), model::note(log));
        same(&settings, &self.lender.settings(), || format!("settings, log {}", text(log)))?;
        same(&note, &self.lender.note(), || format!("note, log {}", text(log)))?;
        self.coverage.calls += 2;
        labels::note_others(self.coverage, log, settings.0, note);
        Ok(())
    }

    /// Settings, note, and records at places of all kinds.
    fn whole(&mut self, r: &mut Random, log: &[u8]) -> Result<(), Failure> {
        self.lender.lend(log);
        self.others(log)?;
        let count = u64::from(model::trailer_of(log).count);
        let any = r.number();
        let mut places = vec![count, count + 1, any, 1 << 32, u64::MAX / 40 + 1, u64::MAX];
        places.extend([0, 1, count.wrapping_sub(1), count / 2]);
        places.extend((0..count).take(8));
        for place in places {
            self.read(log, place)?;
        }
        Ok(())
    }

    fn good(&mut self, r: &mut Random) -> Result<(), Failure> {
        for _ in 0..1_000 {
            let count = r.spread(0, 40) as usize;
            let log = makers::any_log(r, count);
            self.whole(r, &log)?;
        }
        let mut log = makers::any_log(r, 5);
        let at = model::trailer_of(&log).offset as usize + 80;
        log[at] = 0; // one record at fault: the others are read, and the end
        self.whole(r, &log)
    }

    fn settings_ends(&mut self, r: &mut Random) -> Result<(), Failure> {
        let mut label = 0;
        for field in 0..SETTINGS_FIELDS.len() {
            for (value, allowed) in settings_edges(field) {
                let mut settings = makers::settings(r);
                set_settings(&mut settings, field, value);
                let count = r.range(0, 2);
                let records: Vec<Record> = (0..count).map(|_| makers::any_record(r)).collect();
                let log = makers::log(&settings, &makers::note(r), &records);
                self.whole(r, &log)?;
                if (model::settings(&log).0 == 0) == allowed {
                    self.coverage.hit(labels::SETTINGS_EDGES, label);
                }
                label += 1;
            }
        }
        Ok(())
    }

    fn record_ends(&mut self, r: &mut Random) -> Result<(), Failure> {
        let mut label = 0;
        for kind in KINDS {
            for field in 0..RECORD_FIELDS.len() {
                for (value, allowed) in record_edges(kind, field) {
                    let mut record = makers::record(r, kind);
                    set_record(&mut record, field, value);
                    let records = [makers::any_record(r), record, makers::any_record(r)];
                    let log = makers::log(&makers::settings(r), &makers::note(r), &records);
                    self.lender.lend(&log);
                    if (self.read(&log, 1)? == 0) == allowed {
                        self.coverage.hit(labels::RECORD_EDGES, label);
                    }
                    label += 1;
                }
            }
        }
        Ok(())
    }

    /// Trailers with one number at the end of its range or beyond, in logs of every length.
    fn trailers(&mut self, r: &mut Random) -> Result<(), Failure> {
        for length in (40..60).chain(85..90).chain([127, 128, 4_143, 4_144, 4_145, 4_184, 4_185]) {
            for offset in [0, 31, 32, 33, 72, 4_128, 4_129, u32::MAX - 15, u32::MAX] {
                for count in [0, 1, 2, 107_374_182, 107_374_183, u32::MAX] {
                    let log = with_trailer(r, length, State { offset, count });
                    self.whole(r, &log)?;
                    let wrapped = length.wrapping_sub(16 + 40 * count as usize) as u32;
                    let log = with_trailer(r, length, State { offset: wrapped, count });
                    self.whole(r, &log)?;
                }
            }
        }
        for size in [0, 1, 39, 41, 40 << 8, 40 | 1 << 31] {
            let mut log = makers::any_log(r, 2);
            let at = log.len() - 8;
            log[at..at + 4].copy_from_slice(&u32::to_le_bytes(size));
            self.whole(r, &log)?;
        }
        for (offset, count) in [(32, 100_001), (4_128, 100_000), (4_128, 100_001), (33, 100_000)] {
            let state = State { offset, count };
            let log = with_trailer(r, model::length(state) as usize, state);
            self.whole(r, &log)?;
        }
        Ok(())
    }

    /// Each byte of the log in each of its 255 other values.
    fn every_byte(&mut self, log: &[u8]) -> Result<(), Failure> {
        let mut damaged = log.to_vec();
        self.lender.lend(log);
        for at in 0..log.len() {
            for byte in (0..=255).filter(|&byte| byte != log[at]) {
                damaged[at] = byte;
                self.lender.change(at, byte);
                self.others(&damaged)?;
                for place in 0..4 {
                    self.read(&damaged, place)?;
                }
            }
            damaged[at] = log[at];
            self.lender.change(at, log[at]);
        }
        Ok(())
    }

    /// Each field of long logs, the trailer's and the settings' among them.
    fn large(&mut self, r: &mut Random) -> Result<(), Failure> {
        for count in [10_000, 100_000] {
            let mut log = makers::any_log(r, count);
            self.lender.lend(&log);
            self.others(&log)?;
            for place in 0..count as u64 + 2 {
                self.read(&log, place)?;
            }
            let last = count as u64 - 1;
            let some = r.range(0, last);
            for (at, width) in damage::fields(&log, &[0, some, last]) {
                for _ in 0..4 {
                    let right = log[at..at + width].to_vec();
                    damage::change_field(r, &mut log, at, width);
                    (at..at + width).for_each(|i| self.lender.change(i, log[i]));
                    self.others(&log)?;
                    for place in [0, some, last, last + 1, u64::MAX] {
                        self.read(&log, place)?;
                    }
                    log[at..at + width].copy_from_slice(&right);
                    (at..at + width).for_each(|i| self.lender.change(i, log[i]));
                }
            }
        }
        Ok(())
    }

    /// Random bytes of every small length and of some larger ones, with more and more of them right.
    fn random(&mut self, r: &mut Random) -> Result<(), Failure> {
        for length in 0..=200 {
            for right in [0, 0, 1, 1, 2, 2, 3, 3] {
                let log = damage::random(r, length, right);
                self.whole(r, &log)?;
            }
        }
        for _ in 0..300 {
            let (length, right) = (r.spread(200, 30_000) as usize, r.range(0, 3));
            let log = damage::random(r, length, right);
            self.whole(r, &log)?;
        }
        Ok(())
    }
}

/// Bytes of this length with settings in range and this trailer; the other bytes are random.
fn with_trailer(r: &mut Random, length: usize, state: State) -> Vec<u8> {
    let mut log = makers::bytes(r, length);
    log[..32].copy_from_slice(&model::settings_bytes(&makers::settings(r)));
    log[length - 16..].copy_from_slice(&model::trailer_bytes(state));
    log
}

/// A log as it is printed: whole where it is short.
pub fn text(log: &[u8]) -> String {
    let shown: String = log.iter().take(600).map(|byte| format!("{byte:02x}")).collect();
    let more = if log.len() > 600 { "..." } else { "" };
    format!("of {} bytes: {shown}{more}", log.len())
}
