//! Damaged tables and crossed chains.

use crate::kind::Side;
use crate::links::{relink, wrong_link, wrong_size};
use crate::model::store::{link_of, word};
use crate::model::Records;
use crate::shared::random::Random;
use crate::shared::single::Do;

/// Damages what the call reads, so that 9 applies or just does not; and chains at random.
pub fn tables(r: &mut Random, what: Do, queue: usize, wanted: bool, side: &mut Side) {
    if r.one_in(6) {
        cross(r, side);
    }
    let (s, q) = (side.state.shared, side.state.queues[queue]);
    let link = wrong_link(r, s.slots);
    if s.slots > 65_535 && r.one_in(2) {
        relink(&mut side.sizes, r.pick(&[q.head, s.freed]), 65_535);
    }
    match what {
        Do::Departure if wanted && q.count >= 2 && r.one_in(2) => {
            relink(&mut side.sizes, q.head, link);
        }
        Do::Departure if wanted && q.count >= 1 => {
            let at = q.head as usize;
            side.sizes[at] = word(wrong_size(r, &q), link_of(side.sizes[at]));
        }
        Do::Arrival if wanted => relink(&mut side.sizes, s.freed, link),
        _ => {}
    }
}

/// Chains that no run from fresh gives: a link or a place of the records leads anywhere.
fn cross(r: &mut Random, side: &mut Side) {
    let slots = side.state.shared.slots;
    for _ in 0..r.range(1, 3) {
        let (queue, any) = (r.range(0, 1) as usize, r.range(0, slots - 1));
        let Records { shared, queues } = &mut side.state;
        let places = [shared.freed, queues[0].head, queues[1].head, queues[0].tail, queues[1].tail];
        let other = r.pick(&[places[0], places[1], places[2], places[3], places[4], any]);
        match r.range(0, 5) {
            0 => queues[queue].head = other,
            1 => queues[queue].tail = other,
            2 => shared.freed = other,
            3 => relink(&mut side.sizes, shared.freed, other.min(65_535)),
            _ => relink(&mut side.sizes, queues[queue].head, other.min(65_535)),
        }
    }
}
