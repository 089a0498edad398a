//! Departure: the head leaves.

use super::refusals::{departure_refusals, given};
use super::{Counts, State};

/// The handle and size of the head that leaves, or the number of the refusal.
pub fn departure(
    s: &mut State,
    counts: &Counts,
    flow: u32,
    (handles, sizes): (&[u32], &[u32]),
    clock: u64,
) -> Result<(u32, u32), u32> {
    given(departure_refusals(s, counts, flow, handles.len(), sizes, clock))?;
    s.clock = clock;
    let head = s.first as usize;
    s.first = (s.first + 1) % s.settings.slots;
    s.count -= 1;
    s.bytes -= u64::from(sizes[head]);
    Ok((handles[head], sizes[head]))
}
