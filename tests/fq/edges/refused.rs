//! What refusals 6 and 9 are given for.

use crate::flows::schedule::choose;
use crate::kind::{Call, Side};
use crate::model::store::{link_of, size_of};
use crate::shared::coverage::Found;

#[rustfmt::skip]
pub fn arrival(before: &Side, _call: &Call, after: &Side) -> Found {
    let (c, f) = (&before.state.common, &before.state.flows[after.flow as usize]);
    let link = link_of(before.sizes[c.freed as usize]);
    vec![
        ("link is the number of slots", link == c.slots),
        ("link 65,535", link == 65_535),
        ("two freed", c.spare == 2),
        ("more freed", c.spare > 2),
        ("into an empty flow", f.count == 0),
        ("behind a packet", f.count > 0),
        ("an accumulated sum that is kept", f.accumulated > 0 && f.allowance == 0 && f.bytes > 3_000),
        ("a flow in neither list", f.count == 0 && c.listed == 0),
    ]
}

#[rustfmt::skip]
pub fn departure(before: &Side, _call: &Call, after: &Side) -> Found {
    let (r, c) = (&before.state, &before.state.common);
    let choice = choose(r);
    let q = r.queue(choice.flow);
    let nine = after.answer == 109;
    let word = if nine { before.sizes[q.head as usize] } else { 0 };
    let (size, link) = (u64::from(size_of(word)), link_of(word));
    let left = q.count.saturating_sub(1);
    let rest = q.bytes.checked_sub(size);
    let fits = size > 0 && rest.map_or(false, |rest| left <= rest && rest <= 65_535 * left);
    let linked = q.count < 2 || link < c.slots;
    vec![
        ("6, both lists empty", !nine && c.listed == 0),
        ("6, emptied flows listed and owing", !nine && choice.total() > 0 && (0..64).any(|f| r.deficit(f) < 0)),
        ("size 0", nine && size == 0 && linked),
        ("bytes below 0", nine && rest.is_none() && linked),
        ("bytes one below the count left", nine && rest.map_or(false, |rest| rest + 1 == left) && linked),
        ("bytes one above 65,535 x count left", nine && rest == Some(65_535 * left + 1) && linked),
        ("bytes left of the only packet", nine && size > 0 && left == 0 && rest.map_or(false, |rest| rest > 0)),
        ("link is the number of slots", nine && fits && !linked && link == c.slots),
        ("link 65,535", nine && fits && !linked && link == 65_535),
        ("size and link", nine && !fits && !linked),
        ("9 after moves, which are undone", nine && choice.total() > 0),
        ("9 after quanta, which are undone", nine && r.deficit(choice.flow) < 0),
        ("other flows hold packets", nine && q.count < c.count),
    ]
}
