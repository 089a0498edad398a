//! The store: words, places, and what an entering and a leaving packet do to them (1 to 9).

use super::numbers::LINK;
use super::{Queue, Shared};

pub fn size_of(word: u32) -> u32 {
    word % LINK
}

pub fn link_of(word: u32) -> u64 {
    u64::from(word / LINK)
}

pub fn word(size: u32, link: u64) -> u32 {
    size + LINK * link as u32
}

/// The place that an admitted packet takes (7).
pub fn next_place(s: &Shared) -> u64 {
    if s.spare >= 1 {
        s.freed
    } else {
        s.used
    }
}

/// A place is replaced by its link exactly where another one stands behind it (5).
fn follow(place: u64, standing: u64, sizes: &[u32]) -> u64 {
    if standing >= 2 {
        link_of(sizes[place as usize])
    } else {
        place
    }
}

/// An admitted arrival (7).
pub fn enter(
    s: &mut Shared,
    q: &mut Queue,
    (handles, sizes): (&mut [u32], &mut [u32]),
    (handle, size): (u32, u32),
) {
    let place = next_place(s);
    let freed = follow(s.freed, s.spare, sizes);
    if q.count >= 1 {
        let tail = q.tail as usize;
        sizes[tail] = word(size_of(sizes[tail]), place); // (i)
    }
    handles[place as usize] = handle; // (ii)
    sizes[place as usize] = size; // (iii)
    q.head = if q.count == 0 { place } else { q.head };
    q.tail = place;
    q.count += 1;
    q.bytes += u64::from(size);
    if s.spare >= 1 {
        s.freed = freed;
        s.spare -= 1;
    } else {
        s.used += 1;
    }
}

/// An accepted departure (8): the handle and size of the head.
pub fn leave(s: &mut Shared, q: &mut Queue, handles: &[u32], sizes: &mut [u32]) -> (u32, u32) {
    let place = q.head;
    let (handle, size) = (handles[place as usize], size_of(sizes[place as usize]));
    q.head = follow(place, q.count, sizes);
    sizes[place as usize] = word(0, s.freed);
    q.count -= 1;
    q.bytes -= u64::from(size);
    s.freed = place;
    s.spare += 1;
    (handle, size)
}
