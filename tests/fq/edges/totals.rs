//! Rules 1 and 2 by the totals, and what of an arrival's rules is the flow's own.

use crate::flows::rules::decide;
use crate::kind::{arriving, Call, Side};
use crate::model::arrival::Rule;
use crate::model::numbers::*;
use crate::shared::coverage::Found;

#[rustfmt::skip]
pub fn arrival(before: &Side, call: &Call, after: &Side) -> Found {
    let (c, flow) = (&before.state.common, after.flow as usize);
    let f = &before.state.flows[flow];
    let size = u64::from(call.packet().size);
    let admitted = after.answer < 2;
    let rule = decide(&before.state, flow, &arriving(call.packet())).rule;
    vec![
        ("no room, the flow's own bytes are few", after.answer == 2 && f.bytes + size <= c.buffer / 2),
        ("no slot, the flow holds no packet", after.answer == 3 && f.count == 0),
        ("no slot, the flow holds a packet", after.answer == 3 && f.count > 0),
        ("last slot taken", admitted && after.state.common.count == c.slots),
        ("small flow among many bytes", rule == Rule::SmallQueue && c.bytes > 2 * SMALL_QUEUE),
        ("beside other flows", admitted && f.bytes < c.bytes),
        ("early of one flow among others", after.answer == 4 && f.bytes < c.bytes),
        ("marked among others", after.answer == 1 && f.bytes < c.bytes),
        ("flow 0", admitted && flow == 0),
        ("flow 63", admitted && flow == 63),
        ("record of one slot", c.slots == 1),
        ("record of 65,536 slots", c.slots == 65_536),
    ]
}

#[rustfmt::skip]
pub fn arrival_edges(before: &Side, call: &Call, after: &Side) -> Found {
    let (c, flow) = (&before.state.common, after.flow as usize);
    let f = &before.state.flows[flow];
    let size = u64::from(call.packet().size);
    let others = c.bytes > f.bytes;
    let full = c.count == c.slots;
    vec![
        ("one byte too many in all", after.answer == 2 && others && c.bytes + size == c.buffer + 1),
        ("buffer just filled by all", after.answer < 2 && others && c.bytes + size == c.buffer),
        ("bytes decide before slots", after.answer == 2 && full),
        ("slots before the allowance", after.answer == 3 && f.allowance > 0),
        ("one slot left", after.answer < 2 && c.count + 1 == c.slots),
        ("own bytes 3,000, more in all", after.answer == 0 && f.bytes == 3_000 && others && f.allowance == 0),
        ("own bytes 3,001, more in all", f.bytes == 3_001 && others && f.allowance == 0 && !full),
        ("salt 0", c.salt == 0),
        ("salt 2^32 - 1", c.salt == u64::from(u32::MAX)),
    ]
}
