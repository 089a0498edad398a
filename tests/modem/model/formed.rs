//! When a record with its row is well formed.

use super::numbers::*;
use super::refusals::row;
use super::{Counts, Row, State};

/// The conditions, from the top of the page's table to its end.
pub const CONDITIONS: [&str; 22] = [
    "target in range",
    "buffer in range",
    "slots in range",
    "peak in range",
    "sustained in range",
    "last tick <= clock",
    "clock <= 2^48",
    "probability in range",
    "accumulated in range",
    "old delay in range",
    "allowance in range",
    "reset time in range",
    "activity <= 2",
    "first < slots",
    "count <= slots",
    "count <= bytes",
    "bytes <= 65,535 x count",
    "bytes <= buffer",
    "allowance 0 or active",
    "reset time 0 or quiescent",
    "reset time 0 or probability 0",
    "sum of the row <= 2^48",
];

pub fn row_sum(row: &Row) -> u128 {
    row.iter().map(|&count| u128::from(count)).sum()
}

/// Whether each of `CONDITIONS` holds.
pub fn conditions(s: &State, row: &Row) -> [bool; 22] {
    let set = &s.settings;
    [
        within(set.target, TARGET),
        within(set.buffer, BUFFER),
        within(set.slots, SLOTS),
        within(set.peak, RATE),
        within(set.sustained, RATE),
        s.last <= s.clock,
        s.clock <= CLOCK_MAX,
        s.probability <= PROBABILITY_MAX,
        s.accumulated <= HIGH,
        s.old_delay <= DELAY_MAX,
        s.allowance <= FULL_ALLOWANCE,
        s.reset <= RESET_TIMEOUT,
        s.activity <= ACTIVE,
        s.first < set.slots,
        s.count <= set.slots,
        s.count <= s.bytes,
        u128::from(s.bytes) <= u128::from(SIZE.1) * u128::from(s.count),
        s.bytes <= set.buffer,
        s.allowance == 0 || s.activity == ACTIVE,
        s.reset == 0 || s.activity == QUIESCENT,
        s.reset == 0 || s.probability == 0,
        row_sum(row) <= u128::from(COUNTS_MAX),
    ]
}

/// Whether a record is well formed with the row of its flow; a flow above 15 has none.
pub fn well_formed(s: &State, counts: &Counts, flow: u32) -> bool {
    flow < FLOWS && conditions(s, &row(counts, flow)).iter().all(|&holds| holds)
}
