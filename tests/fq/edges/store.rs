//! What an accepted call does to slots, places and links.

use crate::kind::{Call, Side};
use crate::model::store::{link_of, size_of};
use crate::shared::coverage::Found;

/// Whether another flow that holds a packet has its head at this place.
fn heads(side: &Side, own: usize, place: u64) -> bool {
    let flows = side.state.flows.iter().enumerate();
    flows.filter(|(flow, f)| *flow != own && f.count > 0).any(|(_, f)| f.head == place)
}

#[rustfmt::skip]
pub fn entering(before: &Side, _call: &Call, after: &Side) -> Found {
    let (c, now) = (&before.state.common, &after.state.common);
    let f = &before.state.flows[after.flow as usize];
    let admitted = after.answer < 2;
    vec![
        ("place never taken before", admitted && c.spare == 0),
        ("last place never taken before", admitted && c.spare == 0 && now.used == c.slots),
        ("the only freed place", admitted && c.spare == 1),
        ("freed place of two, its link followed", admitted && c.spare == 2),
        ("freed place of more, its link followed", admitted && c.spare > 2),
        ("freed place while others were never taken", admitted && c.spare > 0 && c.used < c.slots),
        ("into an empty flow", admitted && f.count == 0),
        ("behind the only packet", admitted && f.count == 1),
        ("behind more packets", admitted && f.count > 1),
        ("dropped with spare slots", !admitted && c.spare >= 2),
    ]
}

#[rustfmt::skip]
pub fn entering_damaged(before: &Side, _call: &Call, after: &Side) -> Found {
    let flow = after.flow as usize;
    let (c, f) = (&before.state.common, &before.state.flows[flow]);
    let admitted = after.answer < 2;
    let link = link_of(before.sizes[c.freed as usize]);
    let place = after.state.flows[flow].tail;
    let follows = admitted && c.spare >= 2;
    vec![
        ("one freed, its link leads to no slot", admitted && c.spare == 1 && link >= c.slots),
        ("none freed, a link to no slot at `freed`", admitted && c.spare == 0 && link >= c.slots),
        ("dropped, freed link leads to no slot", !admitted && c.spare >= 2 && link >= c.slots),
        ("freed link is the last slot", follows && link + 1 == c.slots),
        ("freed link 65,535", follows && link == 65_535),
        ("freed link is itself", follows && link == c.freed),
        ("freed link is another flow's head", follows && heads(before, flow, link)),
        ("freed slot holds a size", admitted && c.spare > 0 && size_of(before.sizes[c.freed as usize]) > 0),
        ("the place is the tail itself", admitted && f.count > 0 && f.tail == place),
        ("the place is another flow's head", admitted && heads(before, flow, place)),
        ("the freed link is read before the tail is written", follows && f.count > 0 && f.tail == c.freed),
        ("tail's old link leads to no slot", admitted && f.count > 0
            && link_of(before.sizes[f.tail as usize]) >= c.slots),
    ]
}

#[rustfmt::skip]
pub fn leaving(before: &Side, _call: &Call, after: &Side) -> Found {
    let flow = after.packet.flow as usize;
    let (c, f, now) = (&before.state.common, &before.state.flows[flow], &after.state.flows[flow]);
    vec![
        ("the only packet leaves", f.count == 1),
        ("one of two leaves", f.count == 2),
        ("one of more leaves, link followed", f.count > 2),
        ("no slot was freed before", c.spare == 0),
        ("a slot was freed before", c.spare > 0),
        ("head stays where the flow is left empty", now.count == 0 && now.head == f.head),
        ("all slots were taken", c.used == c.slots && c.spare == 0),
        ("the last packet of all", c.count == 1),
        ("other flows hold packets", f.count < c.count),
    ]
}

#[rustfmt::skip]
pub fn leaving_damaged(before: &Side, _call: &Call, after: &Side) -> Found {
    let flow = after.packet.flow as usize;
    let (c, f) = (&before.state.common, &before.state.flows[flow]);
    let link = link_of(before.sizes[f.head as usize]);
    vec![
        ("only packet, its link leads to no slot", f.count == 1 && link >= c.slots),
        ("link is the last slot", f.count >= 2 && link + 1 == c.slots),
        ("link 65,535", f.count >= 2 && link == 65_535),
        ("link is itself", f.count >= 2 && link == f.head),
        ("link is another flow's head", f.count >= 2 && heads(before, flow, link)),
        ("link is a freed slot", f.count >= 2 && c.spare > 0 && link == c.freed),
        ("head is a freed slot", c.spare > 0 && f.head == c.freed),
        ("head is another flow's", heads(before, flow, f.head)),
        ("head was never taken", f.head >= c.used),
    ]
}
