//! A plain model of the cable modem's queue, written from docs/DOCSIS-PIE.md, the papers and RFC
//! 8034 alone.
//!
//! A record may hold any number in any field: the refusals are found with wide arithmetic, and the
//! rules run only on a well-formed record. A refused call changes nothing.

mod arrival;
mod departure;
mod formed;
mod fresh;
pub mod numbers;
mod refusals;
mod tick;

pub use arrival::{arrival, decide, scaled, Arriving, Decision};
pub use departure::departure;
pub use formed::{conditions, row_sum, well_formed, CONDITIONS};
pub use fresh::fresh;
pub use refusals::{
    arrival_refusals, departure_refusals, fresh_refusals, row, tick_refusals, Refusals,
};
pub use tick::{band, queueing_delay, step, terms, tick};

/// The five settings of a flow.
#[derive(Clone, Copy, PartialEq, Eq, Default, Debug)]
pub struct Settings {
    pub target: u64,
    pub buffer: u64,
    pub slots: u64,
    pub peak: u64,
    pub sustained: u64,
}

/// The record of a flow.
#[derive(Clone, Copy, PartialEq, Eq, Default, Debug)]
pub struct State {
    pub settings: Settings,
    pub clock: u64,
    pub last: u64,
    pub probability: u64,
    pub accumulated: u64,
    pub old_delay: u64,
    pub allowance: u64,
    pub reset: u64,
    pub activity: u64,
    pub first: u64,
    pub count: u64,
    pub bytes: u64,
}

/// The five verdict counts of a flow, and those of a whole modem.
pub type Row = [u64; 5];
pub type Counts = [Row; 16];
