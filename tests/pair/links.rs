//! Wrong words of the sizes table.

use crate::model::numbers::*;
use crate::model::store::{size_of, word};
use crate::model::Queue;
use crate::shared::random::Random;

/// Another link in the word at a place.
pub fn relink(sizes: &mut [u32], place: u64, link: u64) {
    let at = place as usize;
    sizes[at] = word(size_of(sizes[at]), link);
}

/// A link to no slot, or to the last one.
pub fn wrong_link(r: &mut Random, slots: u64) -> u64 {
    let any = r.range(slots.min(65_535), 65_535);
    r.pick(&[slots, slots, 65_535, any, any, slots - 1]).min(65_535)
}

/// A stored size that refusal 9 is about, or one beside it.
pub fn wrong_size(r: &mut Random, q: &Queue) -> u32 {
    let others = q.count - 1;
    let too_large = (q.bytes - others + 1).min(SIZE.1) as u32;
    let too_small = q.bytes.saturating_sub(SIZE.1 * others + 1).min(SIZE.1) as u32;
    let below_zero = (q.bytes + 1).min(SIZE.1) as u32;
    r.pick(&[0, 0, too_large, too_large, too_large - 1, too_small, too_small, below_zero])
}
