//! The ends of ranges at which a well-formed record and a call stand.

use crate::kind::{Call, Side};
use crate::model::numbers::*;
use crate::model::{self, State};
use crate::shared::coverage::Found;
use crate::shared::kind::What;

#[rustfmt::skip]
pub fn ends(before: &Side, call: &Call) -> Found {
    let s = &before.state;
    let set = &s.settings;
    let size = if let What::Arrival(packet) = call.what { packet.size } else { 0 };
    let sum = model::row_sum(&model::row(&s.counts, call.to));
    vec![
        ("target 1,000", set.target == 1_000), ("target 100,000", set.target == 100_000),
        ("buffer 1", set.buffer == 1), ("buffer 16,777,216", set.buffer == 16_777_216),
        ("slots 1", set.slots == 1), ("slots 65,536", set.slots == 65_536),
        ("peak 1", set.peak == 1), ("peak 1,250,000,000", set.peak == 1_250_000_000),
        ("sustained 1", set.sustained == 1),
        ("sustained 1,250,000,000", set.sustained == 1_250_000_000),
        ("clock 0", s.clock == 0), ("clock 2^48", s.clock == CLOCK_MAX),
        ("last tick = clock", s.last == s.clock),
        ("probability 0", s.probability == 0), ("probability 13.6", s.probability == PROBABILITY_MAX),
        ("accumulated 0", s.accumulated == 0), ("accumulated 8.5", s.accumulated == HIGH),
        ("old delay 0", s.old_delay == 0), ("old delay 10,000,000", s.old_delay == 10_000_000),
        ("allowance 0", s.allowance == 0), ("allowance 142,000", s.allowance == 142_000),
        ("reset time 0", s.reset == 0), ("reset time 1,000,000", s.reset == 1_000_000),
        ("inactive", s.activity == 0), ("quiescent", s.activity == 1), ("active", s.activity == 2),
        ("first 0", s.first == 0), ("first = slots - 1", s.first + 1 == set.slots),
        ("count 0", s.count == 0), ("count = slots", s.count == set.slots),
        ("bytes = count", s.count > 0 && s.bytes == s.count),
        ("bytes = 65,535 x count", s.count > 0 && s.bytes == 65_535 * s.count),
        ("bytes = buffer", s.bytes == set.buffer),
        ("row of 0", sum == 0), ("row of 2^48", sum == 1 << 48),
        ("size 1", size == 1), ("size 65,535", size == 65_535),
    ]
}

/// Which end of tables of whole pages an accepted call wrote or read: guarded memory then ends
/// right beside both of their ends.
pub fn whole_pages(before: &State, call: &Call, after: &State) -> Found {
    let slots = before.settings.slots;
    let whole = slots * 4 % crate::shared::area::PAGE as u64 == 0;
    let wrote = whole && after.count > before.count;
    let read = whole && matches!(call.what, What::Departure);
    let tail = (before.first + before.count) % slots;
    vec![
        ("first element written", wrote && tail == 0),
        ("last element written", wrote && tail + 1 == slots),
        ("first element read", read && before.first == 0),
        ("last element read", read && before.first + 1 == slots),
    ]
}
