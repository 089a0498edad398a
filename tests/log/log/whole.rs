//! A log read whole, by the model of the reader.

use super::model::{self, Refusals, SETTINGS};
use super::types::{Record, Settings};

pub struct Whole {
    pub settings: Settings,
    pub note: Vec<u8>,
    pub records: Vec<Record>,
}

/// The refusals 11, 12 and 13. Records are looked at where trailer and length are right.
pub fn refusals(log: &[u8]) -> Refusals {
    let mut applying = model::open_refusals(log);
    if !applying[11] {
        let count = u64::from(model::trailer_of(log).count);
        let fault = |place| model::record_faults(&model::record_at(log, place)).contains(&true);
        applying[13] = (0..count).any(fault);
    }
    applying
}

/// The parts of a log, or its refusal.
pub fn read(log: &[u8]) -> Result<Whole, u32> {
    match model::lowest(&refusals(log)) {
        0 => Ok(parts(log)),
        answer => Err(answer),
    }
}

fn parts(log: &[u8]) -> Whole {
    let trailer = model::trailer_of(log);
    Whole {
        settings: model::settings(log).1,
        note: log[SETTINGS..trailer.offset as usize].to_vec(),
        records: (0..u64::from(trailer.count)).map(|i| model::record_at(log, i)).collect(),
    }
}
