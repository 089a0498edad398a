//! Ends of ranges in well-formed records, and ends of tables.

use crate::flows::Flow;
use crate::kind::{Call, Side};
use crate::model::formed::verdict_sum;
use crate::shared::area::PAGE;
use crate::shared::coverage::Found;
use crate::shared::kind::What;

#[rustfmt::skip]
pub fn ends(before: &Side, call: &Call, _after: &Side) -> Found {
    let (r, c) = (&before.state, &before.state.common);
    let size = if let What::Arrival(packet) = call.what { packet.size } else { 2 };
    let sum = verdict_sum(&r.queue(0));
    let any = |holds: &dyn Fn(&Flow) -> bool| r.flows.iter().any(holds);
    vec![
        ("target 1,000", c.target == 1_000), ("target 100,000", c.target == 100_000),
        ("buffer 1", c.buffer == 1), ("buffer 16,777,216", c.buffer == 16_777_216),
        ("slots 1", c.slots == 1), ("slots 65,536", c.slots == 65_536),
        ("salt 0", c.salt == 0), ("salt 2^32 - 1", c.salt == u64::from(u32::MAX)),
        ("clock 0", c.clock == 0), ("clock 2^48", c.clock == 1 << 48), ("last tick = clock", c.last == c.clock),
        ("count 0", c.count == 0), ("count = slots", c.count == c.slots), ("bytes = buffer", c.bytes == c.buffer),
        ("used 0", c.used == 0), ("used = slots", c.used == c.slots),
        ("freed 0", c.freed == 0), ("freed = slots - 1", c.freed + 1 == c.slots),
        ("spare 0", c.spare == 0), ("spare = slots", c.spare == c.slots),
        ("counts of 0", sum == 0), ("counts of 2^48", sum == 1 << 48),
        ("first 0", c.first == 0), ("first 63", c.first == 63),
        ("no flow listed", c.listed == 0), ("64 flows listed", c.listed == 64),
        ("no old flow, some listed", c.old == 0 && c.listed > 0), ("all listed are old", c.old == c.listed && c.old > 0),
        ("64 old flows", c.old == 64), ("64 new flows", c.listed == 64 && c.old == 0),
        ("lists around the end of the order", c.first + c.listed > 64),
        ("deficit -65,535", r.deficits.contains(&0)), ("deficit 1,514", r.deficits.contains(&67_049)),
        ("all flows hold packets", r.flows.iter().all(|f| f.count > 0)),
        ("one flow holds all", any(&|f| f.count == c.count && c.count > 1)),
        ("probability 0", any(&|f| f.probability == 0)), ("probability 2^32", any(&|f| f.probability == 1 << 32)),
        ("old delay 10,000,000", any(&|f| f.old_delay == 10_000_000)),
        ("allowance 0", any(&|f| f.allowance == 0)), ("allowance 150,000", any(&|f| f.allowance == 150_000)),
        ("accumulated just below 8.5", any(&|f| f.accumulated == 36_507_222_015)),
        ("average 10,000,000", any(&|f| f.average == 10_000_000)),
        ("measuring 1", any(&|f| f.measuring == 1)), ("measuring 2^64 - 1", any(&|f| f.measuring == u64::MAX)),
        ("start = clock", any(&|f| f.measuring > 0 && f.start == c.clock)), ("counted 16,383", any(&|f| f.counted == 16_383)),
        ("a flow's bytes = its count", any(&|f| f.count > 0 && f.bytes == f.count)),
        ("a flow's bytes = 65,535 x its count", any(&|f| f.count > 0 && f.bytes == 65_535 * f.count)),
        ("a flow's bytes = buffer", any(&|f| f.bytes == c.buffer)),
        ("head 0", any(&|f| f.head == 0)), ("head = slots - 1", any(&|f| f.head + 1 == c.slots)),
        ("tail 0", any(&|f| f.tail == 0)), ("tail = slots - 1", any(&|f| f.tail + 1 == c.slots)),
        ("size 1", size == 1), ("size 65,535", size == 65_535),
    ]
}

/// Which end of tables of whole pages an accepted call wrote or read: guarded memory then ends
/// right beside both of their ends.
#[rustfmt::skip]
pub fn whole_pages(before: &Side, call: &Call, after: &Side) -> Found {
    let slots = before.state.common.slots;
    let whole = after.answer < 100 && slots as usize * 4 % PAGE == 0;
    let arrives = matches!(call.what, What::Arrival(_));
    let flow = if arrives { after.flow } else { after.packet.flow } as usize;
    let (f, now) = (&before.state.flows[flow], &after.state.flows[flow]);
    let wrote = whole && now.count > f.count;
    let left = whole && now.count < f.count;
    vec![
        ("first element taken", wrote && now.tail == 0),
        ("last element taken", wrote && now.tail + 1 == slots),
        ("first element linked", wrote && f.count > 0 && f.tail == 0),
        ("last element linked", wrote && f.count > 0 && f.tail + 1 == slots),
        ("first element left", left && f.head == 0),
        ("last element left", left && f.head + 1 == slots),
    ]
}
