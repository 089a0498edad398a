//! A plain model of 64 flows in one pair of tables, written from docs/SHARED-TABLES.md and the
//! document of rules alone. Numbers in comments are the page's. What one queue does by the document's
//! rules, and the store, are those of the pair's model: a flow is a queue with the record's settings
//! and clocks.
//!
//! The record may hold any number in any field: the refusals are found with wide arithmetic, and the
//! rules run only on a well-formed record. A refused call changes nothing.

pub mod formed;
pub mod hash;
pub mod refusals;
pub mod rules;
pub mod schedule;

use crate::model::{Queue, Shared};
use std::slice::{from_raw_parts, from_raw_parts_mut};

pub const FLOWS: usize = 64;

/// The deficit that a flow gains at a time (26).
pub const QUANTUM: i64 = 1_514;
/// The least deficit: a record keeps each deficit less this one.
pub const LEAST: i64 = -65_535;
/// The most looks of a choice (26).
pub const LOOKS: u64 = 2_880;

/// What the flows share, and where the lists stand (18, 20). Words, in the order of the C header.
#[repr(C)]
#[derive(Clone, Copy, PartialEq, Eq, Default, Debug)]
pub struct Common {
    pub target: u64,
    pub buffer: u64,
    pub slots: u64,
    pub salt: u64,
    pub clock: u64,
    pub last: u64,
    pub count: u64,
    pub bytes: u64,
    pub used: u64,
    pub freed: u64,
    pub spare: u64,
    pub verdicts: [u64; 5],
    pub first: u64,
    pub old: u64,
    pub listed: u64,
}

/// A flow's own state (18). `measuring` is a word: 0 if no measurement runs, any other if one runs.
#[repr(C)]
#[derive(Clone, Copy, PartialEq, Eq, Default, Debug)]
pub struct Flow {
    pub probability: u64,
    pub old_delay: u64,
    pub allowance: u64,
    pub accumulated: u64,
    pub average: u64,
    pub measuring: u64,
    pub start: u64,
    pub counted: u64,
    pub count: u64,
    pub bytes: u64,
    pub head: u64,
    pub tail: u64,
}

/// The whole record.
#[derive(Clone, Copy, PartialEq, Eq, Debug)]
pub struct Record {
    pub common: Common,
    pub order: [u64; FLOWS],
    pub flows: [Flow; FLOWS],
    pub deficits: [u32; FLOWS],
}

/// The settings at fresh (21).
#[derive(Clone, Copy, PartialEq, Eq, Debug)]
pub struct Settings {
    pub target: u64,
    pub buffer: u64,
    pub slots: u64,
    pub salt: u32,
    pub clock: u64,
}

pub const COMMON_FIELDS: [&str; 19] = [
    "target",
    "buffer",
    "slots",
    "salt",
    "clock",
    "last",
    "count",
    "bytes",
    "used",
    "freed",
    "spare",
    "enqueued",
    "marked",
    "bytes drops",
    "slots drops",
    "early drops",
    "first",
    "old",
    "listed",
];

pub const FLOW_FIELDS: [&str; 12] = [
    "probability",
    "old_delay",
    "allowance",
    "accumulated",
    "average",
    "measuring",
    "start",
    "counted",
    "count",
    "bytes",
    "head",
    "tail",
];

impl Common {
    pub fn words(&self) -> &[u64; 19] {
        // Safety: the fields are 19 words and nothing else.
        unsafe { &*(self as *const Common).cast() }
    }

    pub fn words_mut(&mut self) -> &mut [u64; 19] {
        // Safety: as above; any number may stand in any field.
        unsafe { &mut *(self as *mut Common).cast() }
    }
}

impl Record {
    /// All zero, as a refused fresh leaves it.
    pub fn zero() -> Record {
        let (common, flows) = (Common::default(), [Flow::default(); FLOWS]);
        Record { common, order: [0; FLOWS], flows, deficits: [0; FLOWS] }
    }

    /// The flows' 768 words.
    pub fn flow_words(&self) -> &[u64] {
        // Safety: each flow is twelve words and nothing else.
        unsafe { from_raw_parts(self.flows.as_ptr().cast(), 12 * FLOWS) }
    }

    pub fn flow_words_mut(&mut self) -> &mut [u64] {
        // Safety: as above; any number may stand in any field.
        unsafe { from_raw_parts_mut(self.flows.as_mut_ptr().cast(), 12 * FLOWS) }
    }

    /// A flow as a queue of its own, with the record's settings, clocks and counts.
    pub fn queue(&self, flow: usize) -> Queue {
        let (c, f) = (&self.common, &self.flows[flow]);
        Queue {
            target: c.target,
            buffer: c.buffer,
            clock: c.clock,
            last: c.last,
            probability: f.probability,
            old_delay: f.old_delay,
            allowance: f.allowance,
            accumulated: f.accumulated,
            average: f.average,
            measuring: f.measuring,
            start: f.start,
            counted: f.counted,
            count: f.count,
            bytes: f.bytes,
            head: f.head,
            tail: f.tail,
            verdicts: c.verdicts,
        }
    }

    /// Puts back what is the flow's own.
    pub fn set_queue(&mut self, flow: usize, q: &Queue) {
        self.flows[flow] = Flow {
            probability: q.probability,
            old_delay: q.old_delay,
            allowance: q.allowance,
            accumulated: q.accumulated,
            average: q.average,
            measuring: q.measuring,
            start: q.start,
            counted: q.counted,
            count: q.count,
            bytes: q.bytes,
            head: q.head,
            tail: q.tail,
        };
    }

    /// The store (4), without reserves.
    pub fn store(&self) -> Shared {
        let c = &self.common;
        Shared { slots: c.slots, reserve: [0; 2], used: c.used, freed: c.freed, spare: c.spare }
    }

    pub fn set_store(&mut self, s: &Shared) {
        let c = &mut self.common;
        (c.used, c.freed, c.spare) = (s.used, s.freed, s.spare);
    }

    /// A flow's deficit, signed.
    pub fn deficit(&self, flow: usize) -> i64 {
        i64::from(self.deficits[flow]) + LEAST
    }
}
