//! Ends of ranges in well-formed records, and ends of tables.

use crate::kind::{Call, Side};
use crate::model::formed::{common_slots, verdict_sum};
use crate::shared::area::PAGE;
use crate::shared::coverage::Found;
use crate::shared::kind::What;

#[rustfmt::skip]
pub fn ends(before: &Side, call: &Call, _after: &Side) -> Found {
    let s = &before.state.shared;
    let q = &before.state.queues[call.to];
    let other = &before.state.queues[1 - call.to];
    let size = if let What::Arrival(packet) = call.what { packet.size } else { 2 };
    let sum = verdict_sum(q);
    vec![
        ("target 1,000", q.target == 1_000), ("target 100,000", q.target == 100_000),
        ("buffer 1", q.buffer == 1), ("buffer 16,777,216", q.buffer == 16_777_216),
        ("slots 1", s.slots == 1), ("slots 65,536", s.slots == 65_536),
        ("reserve 0", s.reserve[call.to] == 0), ("reserve of all slots", s.reserve[call.to] == s.slots),
        ("both reserves 0", s.reserve == [0, 0]), ("no common slots", common_slots(s) == Some(0)),
        ("used 0", s.used == 0), ("used = slots", s.used == s.slots),
        ("freed 0", s.freed == 0), ("freed = slots - 1", s.freed + 1 == s.slots),
        ("spare 0", s.spare == 0), ("spare = slots", s.spare == s.slots),
        ("clock 0", q.clock == 0), ("clock 2^48", q.clock == 1 << 48),
        ("clock below the other's", q.clock < other.clock), ("clock above the other's", q.clock > other.clock),
        ("last tick = clock", q.last == q.clock),
        ("probability 0", q.probability == 0), ("probability 2^32", q.probability == 1 << 32),
        ("old delay 10,000,000", q.old_delay == 10_000_000),
        ("allowance 0", q.allowance == 0), ("allowance 150,000", q.allowance == 150_000),
        ("accumulated 0", q.accumulated == 0), ("accumulated just below 8.5", q.accumulated == 36_507_222_015),
        ("average 0", q.average == 0), ("average 10,000,000", q.average == 10_000_000),
        ("measuring 1", q.measuring == 1), ("measuring 2^64 - 1", q.measuring == u64::MAX),
        ("start = clock", q.measuring > 0 && q.start == q.clock), ("counted 16,383", q.counted == 16_383),
        ("count 0", q.count == 0), ("count = slots", q.count == s.slots),
        ("bytes = count", q.count > 0 && q.bytes == q.count),
        ("bytes = 65,535 x count", q.count > 0 && q.bytes == 65_535 * q.count),
        ("bytes = buffer", q.bytes == q.buffer),
        ("head 0", q.head == 0), ("head = slots - 1", q.head + 1 == s.slots),
        ("tail 0", q.tail == 0), ("tail = slots - 1", q.tail + 1 == s.slots),
        ("counts of 0", sum == 0), ("counts of 2^48", sum == 1 << 48),
        ("counts of 2^48 of the other queue", verdict_sum(other) == 1 << 48),
        ("size 1", size == 1), ("size 65,535", size == 65_535),
    ]
}

/// Which end of tables of whole pages an accepted call wrote or read: guarded memory then ends
/// right beside both of their ends.
#[rustfmt::skip]
pub fn whole_pages(before: &Side, call: &Call, after: &Side) -> Found {
    let slots = before.state.shared.slots;
    let whole = after.answer < 100 && slots as usize * 4 % PAGE == 0;
    let (q, now) = (&before.state.queues[call.to], &after.state.queues[call.to]);
    let wrote = whole && now.count > q.count;
    let left = whole && now.count < q.count;
    vec![
        ("first element taken", wrote && now.tail == 0),
        ("last element taken", wrote && now.tail + 1 == slots),
        ("first element linked", wrote && q.count > 0 && q.tail == 0),
        ("last element linked", wrote && q.count > 0 && q.tail + 1 == slots),
        ("first element left", left && q.head == 0),
        ("last element left", left && q.head + 1 == slots),
    ]
}
