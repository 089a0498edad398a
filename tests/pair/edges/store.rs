//! What an accepted call does to slots, places and links.

use crate::kind::{Call, Side};
use crate::model::formed::{common_slots, common_use};
use crate::model::store::{link_of, size_of};
use crate::model::Records;
use crate::shared::coverage::Found;
use crate::shared::kind::What;

/// The common slots that are free.
fn common_left(r: &Records) -> u64 {
    common_slots(&r.shared).unwrap_or(0) - common_use(r) as u64
}

fn has_room(before: &Side, call: &Call) -> bool {
    let What::Arrival(packet) = call.what else { return false };
    let q = &before.state.queues[call.to];
    q.bytes + u64::from(packet.size) <= q.buffer
}

/// Rule 2 at both of its limits.
#[rustfmt::skip]
pub fn slots(before: &Side, call: &Call, after: &Side) -> Found {
    let r = &before.state;
    let (queue, other) = (call.to, 1 - call.to);
    let (count, reserve) = (r.queues[queue].count, r.shared.reserve[queue]);
    let (admitted, none) = (after.answer < 2, after.answer == 3);
    let (left, common) = (common_left(r), common_slots(&r.shared).unwrap_or(0));
    let others = r.queues[other].count;
    vec![
        ("admitted below the reserve, common slots left", admitted && count < reserve && left > 0),
        ("admitted below the reserve, no common slot left", admitted && count < reserve && left == 0 && common > 0),
        ("admitted one below the reserve, none common", admitted && count + 1 == reserve && common == 0),
        ("admitted at the reserve", admitted && count == reserve && left > 0),
        ("admitted above the reserve", admitted && count > reserve && left > 0),
        ("last common slot taken", admitted && count >= reserve && left == 1),
        ("admitted without a reserve", admitted && reserve == 0),
        ("dropped at the reserve, common use at its limit", none && count == reserve && common > 0),
        ("dropped above the reserve", none && count > reserve),
        ("dropped, no slot is common", none && common == 0),
        ("dropped, though the other's reserve has free slots", none && others < r.shared.reserve[other]),
        ("dropped, every slot is taken", none && count + others == r.shared.slots),
        ("dropped without a reserve", none && reserve == 0),
        ("the other queue has all common slots", none && count <= reserve
            && others > r.shared.reserve[other] && common > 0),
        ("common use by both queues", admitted && count > reserve && others > r.shared.reserve[other]),
        ("bytes decide before slots", after.answer == 2 && left == 0 && count >= reserve && !has_room(before, call)),
    ]
}

/// Which place is taken, and how it is linked.
#[rustfmt::skip]
pub fn entering(before: &Side, call: &Call, after: &Side) -> Found {
    let (s, now) = (&before.state.shared, &after.state.shared);
    let q = &before.state.queues[call.to];
    let admitted = after.answer < 2;
    let dropped = after.answer >= 2;
    vec![
        ("place never taken before", admitted && s.spare == 0),
        ("last place never taken before", admitted && s.spare == 0 && now.used == s.slots),
        ("the only freed place", admitted && s.spare == 1),
        ("freed place of two, its link followed", admitted && s.spare == 2),
        ("freed place of more, its link followed", admitted && s.spare > 2),
        ("freed place while others were never taken", admitted && s.spare > 0 && s.used < s.slots),
        ("into an empty queue", admitted && q.count == 0),
        ("behind the only packet", admitted && q.count == 1),
        ("behind more packets", admitted && q.count > 1),
        ("both queues hold packets", admitted && before.state.queues.iter().all(|q| q.count > 0)),
        ("dropped with spare slots", dropped && s.spare >= 2),
        ("pair of one slot", s.slots == 1),
        ("pair of 65,536 slots", s.slots == 65_536),
        ("marked and stored", after.answer == 1),
    ]
}

/// Links and places that no run from fresh gives, and that no rule refuses.
#[rustfmt::skip]
pub fn entering_damaged(before: &Side, call: &Call, after: &Side) -> Found {
    let s = &before.state.shared;
    let q = &before.state.queues[call.to];
    let other = &before.state.queues[1 - call.to];
    let admitted = after.answer < 2;
    let link = link_of(before.sizes[s.freed as usize]);
    let place = after.state.queues[call.to].tail;
    let follows = admitted && s.spare >= 2;
    vec![
        ("one freed, its link leads to no slot", admitted && s.spare == 1 && link >= s.slots),
        ("none freed, a link to no slot at `freed`", admitted && s.spare == 0 && link >= s.slots),
        ("dropped, freed link leads to no slot", after.answer >= 2 && s.spare >= 2 && link >= s.slots),
        ("freed link is the last slot", follows && link + 1 == s.slots),
        ("freed link 65,535", follows && link == 65_535),
        ("freed link is itself", follows && link == s.freed),
        ("freed link is the other queue's head", follows && link == other.head && other.count > 0),
        ("freed slot holds a size", admitted && s.spare > 0 && size_of(before.sizes[s.freed as usize]) > 0),
        ("the place is the tail itself", admitted && q.count > 0 && q.tail == place),
        ("the place is the other queue's head", admitted && other.count > 0 && other.head == place),
        ("the place is the own head", admitted && q.count > 1 && q.head == place && q.tail != place),
        ("the freed link is read before the tail is written", follows && q.count > 0 && q.tail == s.freed),
        ("tail's old link leads to no slot", admitted && q.count > 0
            && link_of(before.sizes[q.tail as usize]) >= s.slots),
    ]
}

#[rustfmt::skip]
pub fn leaving(before: &Side, call: &Call, after: &Side) -> Found {
    let s = &before.state.shared;
    let q = &before.state.queues[call.to];
    let reserve = s.reserve[call.to];
    let left = after.state.queues[call.to].count;
    vec![
        ("the only packet leaves", q.count == 1),
        ("one of two leaves", q.count == 2),
        ("one of more leaves, link followed", q.count > 2),
        ("no slot was freed before", s.spare == 0),
        ("a slot was freed before", s.spare > 0),
        ("head stays where the queue is left empty", left == 0 && after.state.queues[call.to].head == q.head),
        ("leaves a common slot", q.count > reserve),
        ("leaves a reserved slot", q.count <= reserve),
        ("all slots were taken", s.used == s.slots && s.spare == 0),
        ("the other queue holds packets", before.state.queues[1 - call.to].count > 0),
    ]
}

#[rustfmt::skip]
pub fn leaving_damaged(before: &Side, call: &Call, _after: &Side) -> Found {
    let s = &before.state.shared;
    let q = &before.state.queues[call.to];
    let other = &before.state.queues[1 - call.to];
    let link = link_of(before.sizes[q.head as usize]);
    vec![
        ("only packet, its link leads to no slot", q.count == 1 && link >= s.slots),
        ("link is the last slot", q.count >= 2 && link + 1 == s.slots),
        ("link 65,535", q.count >= 2 && link == 65_535),
        ("link is itself", q.count >= 2 && link == q.head),
        ("link is the other queue's head", q.count >= 2 && other.count > 0 && link == other.head),
        ("link is a freed slot", q.count >= 2 && s.spare > 0 && link == s.freed),
        ("head is a freed slot", s.spare > 0 && q.head == s.freed),
        ("head is the other queue's", other.count > 0 && q.head == other.head),
        ("head was never taken", q.head >= s.used),
    ]
}
