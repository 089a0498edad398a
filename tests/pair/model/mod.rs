//! A plain model of two queues in one pair of tables, written from docs/SHARED-TABLES.md and the
//! document of rules alone. Numbers in comments are the page's.
//!
//! The records may hold any number in any field: the refusals are found with wide arithmetic, and
//! the rules run only on well-formed records. A refused call changes nothing.

pub mod arrival;
pub mod departure;
pub mod formed;
pub mod fresh;
pub mod numbers;
pub mod refusals;
pub mod store;
pub mod tick;

/// The shared record: slots, both reserves, and the way to free slots (11, 4).
#[derive(Clone, Copy, PartialEq, Eq, Default, Debug)]
pub struct Shared {
    pub slots: u64,
    pub reserve: [u64; 2],
    pub used: u64,
    pub freed: u64,
    pub spare: u64,
}

/// The state of a queue (11). `measuring` is a word: 0 if no measurement runs, any other if one runs.
#[derive(Clone, Copy, PartialEq, Eq, Default, Debug)]
pub struct Queue {
    pub target: u64,
    pub buffer: u64,
    pub clock: u64,
    pub last: u64,
    pub probability: u64,
    pub old_delay: u64,
    pub allowance: u64,
    pub accumulated: u64,
    pub average: u64,
    pub measuring: u64,
    pub start: u64,
    pub counted: u64,
    pub count: u64,
    pub bytes: u64,
    pub head: u64,
    pub tail: u64,
    pub verdicts: [u64; 5],
}

/// All three records. Queue 0 is the intercom, queue 1 the passengers (10).
#[derive(Clone, Copy, PartialEq, Eq, Default, Debug)]
pub struct Records {
    pub shared: Shared,
    pub queues: [Queue; 2],
}

/// The settings of one queue at fresh (14).
#[derive(Clone, Copy, PartialEq, Eq, Default, Debug)]
pub struct Settings {
    pub target: u64,
    pub buffer: u64,
    pub reserve: u64,
    pub clock: u64,
}

/// The arguments of an arrival, without its clock.
#[derive(Clone, Copy, Debug)]
pub struct Arriving {
    pub handle: u32,
    pub size: u32,
    pub ecn: bool,
    pub u: u32,
}

pub fn within(value: u64, (least, most): (u64, u64)) -> bool {
    least <= value && value <= most
}
