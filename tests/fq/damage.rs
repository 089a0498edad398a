//! Damaged tables and crossed chains.

use crate::flows::FLOWS;
use crate::kind::Side;
use crate::links::{relink, wrong_link, wrong_size};
use crate::model::store::{link_of, word};
use crate::shared::random::Random;
use crate::shared::single::Do;

/// Damages what the call reads of this flow, so that 9 applies or just does not; and chains at random.
pub fn tables(r: &mut Random, what: Do, flow: usize, wanted: bool, side: &mut Side) {
    if r.one_in(6) {
        cross(r, flow, side);
    }
    let (c, f) = (side.state.common, side.state.flows[flow]);
    let link = wrong_link(r, c.slots);
    if c.slots > 65_535 && r.one_in(2) {
        let place = if what == Do::Arrival { c.freed } else { f.head };
        relink(&mut side.sizes, place, 65_535);
    }
    match what {
        Do::Departure if wanted && f.count >= 2 && r.one_in(2) => {
            relink(&mut side.sizes, f.head, link);
        }
        Do::Departure if wanted && f.count >= 1 => {
            let at = f.head as usize;
            let size = wrong_size(r, &side.state.queue(flow));
            side.sizes[at] = word(size, link_of(side.sizes[at]));
        }
        Do::Arrival if wanted => relink(&mut side.sizes, c.freed, link),
        _ => {}
    }
}

/// Chains that no run from fresh gives: a link or a place of the record leads anywhere.
fn cross(r: &mut Random, flow: usize, side: &mut Side) {
    let slots = side.state.common.slots;
    for _ in 0..r.range(1, 3) {
        let (any, other) = (r.range(0, slots - 1), r.range(0, FLOWS as u64 - 1) as usize);
        let changed = r.pick(&[flow, flow, other]);
        let (c, flows) = (&mut side.state.common, &mut side.state.flows);
        let (own, of) = (flows[flow], flows[other]);
        let place = r.pick(&[c.freed, own.head, own.tail, of.head, of.tail, any]);
        match r.range(0, 5) {
            0 => flows[changed].head = place,
            1 => flows[changed].tail = place,
            2 => c.freed = place,
            3 => relink(&mut side.sizes, c.freed, place.min(65_535)),
            _ => relink(&mut side.sizes, flows[changed].head, place.min(65_535)),
        }
    }
}
