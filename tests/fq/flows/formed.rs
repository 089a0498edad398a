//! What makes the record well formed (23).

use super::{Record, FLOWS, LEAST, QUANTUM};
use crate::model::formed::{queue_conditions, verdict_sum, OF_QUEUE};
use crate::model::numbers::*;
use crate::model::within;

const OF_COMMON: [&str; 10] = [
    "target in range",
    "buffer in range",
    "slots in range",
    "salt < 2^32",
    "last tick <= clock",
    "clock <= 2^48",
    "freed < slots",
    "used <= slots",
    "count and spare make used",
    "sum of counts <= 2^48",
];

const OF_LISTS: [&str; 9] = [
    "flows' counts make the total",
    "flows' bytes make the total",
    "total bytes <= buffer",
    "first < 64",
    "old <= listed",
    "listed <= 64",
    "each entry < 64",
    "no flow listed twice",
    "each flow with a packet listed",
];

/// The conditions on a queue that are a flow's own: all but settings, clocks and counts.
const OWN: std::ops::Range<usize> = 4..20;

pub const FLOW_CONDITIONS: usize = OWN.end - OWN.start;
/// Where the conditions on flow 0, on the lists and on the deficits begin.
pub const AT_FLOWS: usize = OF_COMMON.len();
pub const AT_LISTS: usize = AT_FLOWS + FLOWS * FLOW_CONDITIONS;
pub const AT_DEFICITS: usize = AT_LISTS + OF_LISTS.len();
pub const CONDITIONS: usize = AT_DEFICITS + FLOWS;

/// The names of all conditions.
pub fn condition_names() -> Vec<String> {
    let mut names: Vec<String> = OF_COMMON.iter().map(|name| name.to_string()).collect();
    for flow in 0..FLOWS {
        names.extend(OF_QUEUE[OWN].iter().map(|name| format!("flow {flow}: {name}")));
    }
    names.extend(OF_LISTS.iter().map(|name| name.to_string()));
    names.extend((0..FLOWS).map(|flow| format!("flow {flow}: deficit in range")));
    names
}

fn common_conditions(r: &Record) -> [bool; 10] {
    let c = &r.common;
    [
        within(c.target, TARGET),
        within(c.buffer, BUFFER),
        within(c.slots, SLOTS),
        c.salt <= u64::from(u32::MAX),
        c.last <= c.clock,
        c.clock <= CLOCK_MAX,
        c.freed < c.slots,
        c.used <= c.slots,
        u128::from(c.count) + u128::from(c.spare) == u128::from(c.used),
        verdict_sum(&r.queue(0)) <= u128::from(COUNTS_MAX),
    ]
}

fn list_conditions(r: &Record) -> [bool; 9] {
    let c = &r.common;
    let sum = |words: [u64; FLOWS]| words.iter().map(|&word| u128::from(word)).sum::<u128>();
    let entries: Vec<u64> =
        (0..c.listed.min(64)).map(|i| r.order[((c.first % 64 + i) % 64) as usize]).collect();
    let times = |flow: u64| entries.iter().filter(|&&entry| entry == flow).count();
    [
        sum(r.flows.map(|flow| flow.count)) == u128::from(c.count),
        sum(r.flows.map(|flow| flow.bytes)) == u128::from(c.bytes),
        c.bytes <= c.buffer,
        c.first < 64,
        c.old <= c.listed,
        c.listed <= 64,
        entries.iter().all(|&entry| entry < 64),
        (0..64).all(|flow| times(flow) <= 1),
        (0..FLOWS).all(|flow| r.flows[flow].count == 0 || times(flow as u64) > 0),
    ]
}

/// Whether each condition holds.
pub fn conditions(r: &Record) -> Vec<bool> {
    let mut all = Vec::with_capacity(CONDITIONS);
    all.extend(common_conditions(r));
    for flow in 0..FLOWS {
        all.extend(&queue_conditions(&r.queue(flow), r.common.slots)[OWN]);
    }
    all.extend(list_conditions(r));
    all.extend((0..FLOWS).map(|flow| (LEAST..=QUANTUM).contains(&r.deficit(flow))));
    all
}

pub fn well_formed(r: &Record) -> bool {
    conditions(r).iter().all(|&holds| holds)
}
