//! What a call does to the lists and deficits.

use crate::flows::schedule::choose;
use crate::kind::{Call, Side};
use crate::shared::coverage::Found;

#[rustfmt::skip]
pub fn arrival(before: &Side, _call: &Call, after: &Side) -> Found {
    let (r, c, now, flow) = (&before.state, &before.state.common, &after.state.common, after.flow as usize);
    let admitted = after.answer < 2;
    let enters = now.listed > c.listed;
    let stays = admitted && !enters;
    let place = (0..c.listed).find(|i| r.order[((c.first + i) % 64) as usize] == flow as u64);
    vec![
        ("enters, both lists empty", enters && c.listed == 0),
        ("enters behind an old flow", enters && c.listed > 0 && c.old == c.listed),
        ("enters behind a new flow", enters && c.old < c.listed),
        ("enters behind new flows, old ones before them", enters && c.old < c.listed && c.old > 0),
        ("enters around the end of the order", enters && c.first + c.listed >= 64),
        ("enters at the end of the order", enters && c.first + c.listed == 63),
        ("enters as the last of 64", enters && c.listed == 63),
        ("enters, its deficit was another", enters && r.deficit(flow) != 1_514),
        ("stays, deficit kept", stays && r.deficit(flow) != 1_514),
        ("stays though emptied", stays && r.flows[flow].count == 0),
        ("stays in the new list", stays && place.map_or(false, |i| i >= c.old)),
        ("stays in the old list", stays && place.map_or(false, |i| i < c.old)),
        ("stays, owing", stays && r.deficit(flow) < 0),
        ("dropped, stays out of the lists", !admitted && place.is_none()),
        ("dropped, stays in the lists", !admitted && place.is_some()),
    ]
}

#[rustfmt::skip]
pub fn choosing(before: &Side, _call: &Call, after: &Side) -> Found {
    let (r, c, now) = (&before.state, &before.state.common, &after.state.common);
    let choice = choose(r);
    let (total, [new_owes, old_owes, new_empty, old_empty]) = (choice.total(), choice.moves);
    let from_new = !choice.schedule.new_is_empty();
    let deficit = choice.schedule.deficits[choice.flow];
    vec![
        ("no move", total == 0),
        ("one move", total == 1),
        ("many moves", total >= 30),
        ("chosen in the new list", from_new),
        ("chosen in the old list", !from_new),
        ("chosen in the new list, old flows wait", from_new && choice.schedule.old > 0),
        ("a new flow that owes goes to the old list", new_owes > 0),
        ("an old flow that owes goes to the end", old_owes > 0),
        ("an emptied new flow goes to the old list", new_empty > 0),
        ("an emptied old flow leaves", old_empty > 0),
        ("the only old flow goes to the end", old_owes > 0 && now.listed == 1),
        ("chosen after a quantum or more", r.deficit(choice.flow) < 0),
        ("the deficit becomes negative", after.state.deficit(choice.flow) < 0),
        ("the deficit stays not negative", after.state.deficit(choice.flow) >= 0),
        ("chosen with the whole quantum", deficit == 1_514),
        ("`first` goes around the end", now.first < c.first),
        ("the flow is left empty and stays listed", after.state.flows[choice.flow].count == 0),
        ("more than half of the flows listed", c.listed > 32),
    ]
}

#[rustfmt::skip]
pub fn choosing_edges(before: &Side, _call: &Call, after: &Side) -> Found {
    let (r, c) = (&before.state, &before.state.common);
    let choice = choose(r);
    let [new_owes, old_owes, new_empty, old_empty] = choice.moves;
    let (total, deficit) = (choice.total(), choice.schedule.deficits[choice.flow]);
    let written = choice.schedule.order != r.order;
    vec![
        ("2,879 moves", total == 2_879),
        ("more than 2,000 moves", total > 2_000 && total < 2_879),
        ("44 quanta for one flow", r.deficit(choice.flow) == -65_535),
        ("chosen at deficit 0", deficit == 0 && r.deficit(choice.flow) == 0),
        ("chosen at 0 after a quantum", deficit == 0 && r.deficit(choice.flow) == -1_514),
        ("deficit -1 is passed", r.deficit(choice.flow) == -1),
        ("deficit becomes -65,535", after.state.deficit(choice.flow) == -65_535),
        ("64 listed, `first` 0", c.listed == 64 && c.first == 0),
        ("64 listed, `first` 63", c.listed == 64 && c.first == 63),
        ("64 listed, an old flow goes to its own place", c.listed == 64 && old_owes > 0 && old_empty == 0),
        ("the order is written", written),
        ("moves that write nothing to the order", total > 0 && !written),
        ("an emptied new flow goes to an empty old list", new_empty > 0 && c.old == 0),
        ("a flow that owes and holds nothing", new_owes + old_owes > 0 && (0..64).any(|f| r.deficit(f) < 0 && r.flows[f].count == 0)),
        ("all four moves", choice.moves.iter().all(|&moves| moves > 0)),
        ("elements outside the lists are no flows", c.listed < 64 && r.order.iter().any(|&flow| flow > 63)),
        ("chosen: flow 0", choice.flow == 0),
        ("chosen: flow 63", choice.flow == 63),
    ]
}
