//! Arrival: the page's rules 1 to 15.

use super::numbers::*;
use super::refusals::{arrival_refusals, given};
use super::{Counts, State};

/// The arguments of an arrival, without its clock.
#[derive(Clone, Copy, Debug)]
pub struct Arriving {
    pub handle: u32,
    pub size: u32,
    pub u: u32,
}

/// The rule that gave the verdict, and the sum of rule 8 before it stops (0 if it was not reached).
#[derive(Clone, Copy, Debug)]
pub struct Decision {
    pub rule: usize,
    pub scaled: u64,
    pub sum: u64,
}

/// Rule 7.
pub fn scaled(probability: u64, size: u32) -> u64 {
    (probability * u64::from(size) / MEAN_PACKET).min(LOW)
}

/// Rules 1 to 14, and what they change before the verdict.
pub fn decide(s: &mut State, packet: &Arriving) -> Decision {
    let by = |rule| Decision { rule, scaled: 0, sum: 0 };
    if s.bytes + u64::from(packet.size) > s.settings.buffer {
        s.accumulated = 0;
        return by(1);
    }
    if s.count == s.settings.slots {
        s.accumulated = 0;
        return by(2);
    }
    if s.allowance > 0 {
        return by(3);
    }
    if s.probability == 0 {
        s.accumulated = 0; // 4
    }
    if s.activity == INACTIVE && 3 * s.bytes < s.settings.buffer {
        return by(5);
    }
    if s.activity == INACTIVE {
        s.activity = QUIESCENT; // 6
    }
    let scaled = scaled(s.probability, packet.size); // 7
    let sum = s.accumulated + scaled;
    s.accumulated = sum.min(HIGH); // 8
    Decision { rule: by_probability(s, scaled, packet.u), scaled, sum }
}

/// Rules 9 to 14.
fn by_probability(s: &State, scaled: u64, u: u32) -> usize {
    let short_delay = 2 * s.old_delay < s.settings.target;
    let rules = [
        (short_delay && 5 * s.probability < WHOLE, 9),
        (s.bytes <= SMALL_QUEUE, 10),
        (s.accumulated < LOW, 11),
        (s.accumulated == HIGH, 12),
        (u64::from(u) < scaled, 13),
    ];
    rules.iter().find(|(holds, _)| *holds).map_or(14, |(_, rule)| *rule)
}

fn verdict(rule: usize) -> usize {
    match rule {
        1 => DROPPED_BYTES,
        2 => DROPPED_SLOTS,
        12 | 13 => DROPPED_EARLY,
        _ => ENQUEUED,
    }
}

/// Rule 15.
fn dropped_early(s: &mut State) {
    s.accumulated = 0;
    if s.activity == QUIESCENT {
        s.activity = ACTIVE;
        s.allowance = FULL_ALLOWANCE;
    }
}

/// An enqueued packet goes to the tail.
fn enqueue(s: &mut State, handles: &mut [u32], sizes: &mut [u32], packet: &Arriving) {
    let tail = ((s.first + s.count) % s.settings.slots) as usize;
    handles[tail] = packet.handle;
    sizes[tail] = packet.size;
    s.count += 1;
    s.bytes += u64::from(packet.size);
}

/// The verdict on a packet that arrives, or the number of the refusal.
pub fn arrival(
    s: &mut State,
    counts: &mut Counts,
    flow: u32,
    (handles, sizes): (&mut [u32], &mut [u32]),
    clock: u64,
    packet: &Arriving,
) -> Result<usize, u32> {
    let lengths = (handles.len(), sizes.len());
    given(arrival_refusals(s, counts, flow, lengths, clock, packet.size))?;
    s.clock = clock;
    let decision = decide(s, packet);
    let verdict = verdict(decision.rule);
    if verdict == DROPPED_EARLY {
        dropped_early(s);
    }
    if verdict == ENQUEUED {
        enqueue(s, handles, sizes, packet);
    }
    counts[flow as usize][verdict] += 1;
    Ok(verdict)
}
