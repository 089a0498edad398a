//! What refusal 9 is given for.

use crate::kind::{Call, Side};
use crate::model::store::{link_of, size_of};
use crate::shared::coverage::Found;

#[rustfmt::skip]
pub fn arrival(before: &Side, call: &Call, _after: &Side) -> Found {
    let s = &before.state.shared;
    let q = &before.state.queues[call.to];
    let link = link_of(before.sizes[s.freed as usize]);
    vec![
        ("link is the number of slots", link == s.slots),
        ("link 65,535", link == 65_535),
        ("two freed", s.spare == 2),
        ("more freed", s.spare > 2),
        ("into an empty queue", q.count == 0),
        ("behind a packet", q.count > 0),
        ("an accumulated sum that is kept", q.accumulated > 0 && q.allowance == 0 && q.bytes > 3_000),
        ("intercom", call.to == 0),
        ("passengers", call.to == 1),
    ]
}

#[rustfmt::skip]
pub fn departure(before: &Side, call: &Call, _after: &Side) -> Found {
    let s = &before.state.shared;
    let q = &before.state.queues[call.to];
    let word = before.sizes[q.head as usize];
    let (size, link) = (u64::from(size_of(word)), link_of(word));
    let left = q.count - 1;
    let fits = size > 0 && size <= q.bytes && left <= q.bytes - size && q.bytes - size <= 65_535 * left;
    let linked = q.count < 2 || link < s.slots;
    vec![
        ("size 0", size == 0 && linked),
        ("bytes below 0", size > q.bytes && linked),
        ("bytes below the count left", size <= q.bytes && q.bytes - size < left && linked),
        ("bytes one below the count left", size <= q.bytes && q.bytes - size + 1 == left && linked),
        ("bytes above 65,535 x count left", size <= q.bytes && q.bytes - size > 65_535 * left && left > 0 && linked),
        ("bytes one above 65,535 x count left", size <= q.bytes && q.bytes - size == 65_535 * left + 1 && linked),
        ("bytes left of the only packet", size > 0 && size < q.bytes && left == 0),
        ("link is the number of slots", fits && !linked && link == s.slots),
        ("link 65,535", fits && !linked && link == 65_535),
        ("size and link", !fits && !linked),
        ("intercom", call.to == 0),
        ("passengers", call.to == 1),
    ]
}
