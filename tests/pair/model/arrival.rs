//! Arrival: the rules on the called queue, with rule 2 by the common slots (16, 17).

use super::formed::{common_slots, common_use};
use super::numbers::*;
use super::refusals::{arrival_refusals, lowest};
use super::store;
use super::{Arriving, Queue, Records};

/// The rules that decide on an arrival, in their order. The two of the sum stand between the
/// document's rules 5 and 6.
#[derive(Clone, Copy, PartialEq, Eq, PartialOrd, Ord, Debug)]
pub enum Rule {
    Bytes,
    Slots,
    Allowance,
    ShortDelay,
    SmallQueue,
    LowSum,
    HighSum,
    Random,
    Otherwise,
}

/// What is decided on an arrival: the first rule that holds, its verdict, and the accumulated
/// probability after it.
#[derive(Clone, Copy)]
pub struct Decision {
    pub rule: Rule,
    pub verdict: usize,
    pub accumulated: u64,
}

pub fn is_admitted(verdict: usize) -> bool {
    verdict == ENQUEUED || verdict == MARKED
}

/// Rule 2: the reserve and the common slots are taken (16).
pub fn no_slot(r: &Records, queue: usize) -> bool {
    let common = common_slots(&r.shared).map(u128::from);
    r.queues[queue].count >= r.shared.reserve[queue] && Some(common_use(r)) == common
}

fn deciding_rule(r: &Records, queue: usize, packet: &Arriving) -> Rule {
    let q = &r.queues[queue];
    let rules = [
        (q.bytes + u64::from(packet.size) > q.buffer, Rule::Bytes),
        (no_slot(r, queue), Rule::Slots),
        (true, by_state(q, packet.u)),
    ];
    first(&rules)
}

fn first(rules: &[(bool, Rule)]) -> Rule {
    rules.iter().find(|(holds, _)| *holds).map_or(Rule::Otherwise, |(_, rule)| *rule)
}

/// Rules 3 to 7, which read the queue's own state alone.
pub fn by_state(q: &Queue, u: u32) -> Rule {
    let sum = q.accumulated + q.probability;
    let rules = [
        (q.allowance > 0, Rule::Allowance),
        (2 * q.old_delay < q.target && 5 * q.probability < WHOLE, Rule::ShortDelay),
        (q.bytes <= SMALL_QUEUE, Rule::SmallQueue),
        (20 * sum < 17 * WHOLE, Rule::LowSum),
        (sum >= FORCED, Rule::HighSum),
        (u64::from(u) < q.probability, Rule::Random),
    ];
    first(&rules)
}

pub fn decide(r: &Records, queue: usize, packet: &Arriving) -> Decision {
    decision(&r.queues[queue], deciding_rule(r, queue, packet), packet.ecn)
}

/// What the deciding rule gives.
pub fn decision(q: &Queue, rule: Rule, ecn: bool) -> Decision {
    let early = if ecn && q.probability < TENTH { MARKED } else { DROPPED_EARLY };
    let verdict = match rule {
        Rule::Bytes => DROPPED_BYTES,
        Rule::Slots => DROPPED_SLOTS,
        Rule::HighSum | Rule::Random => early,
        _ => ENQUEUED,
    };
    let accumulated = match rule {
        Rule::HighSum | Rule::Random => 0,
        Rule::LowSum | Rule::Otherwise => q.accumulated + q.probability,
        _ => q.accumulated,
    };
    Decision { rule, verdict, accumulated }
}

/// The verdict on a packet that arrives, or the number of the refusal.
pub fn arrival(
    r: &mut Records,
    queue: usize,
    (handles, sizes): (&mut [u32], &mut [u32]),
    clock: u64,
    packet: &Arriving,
) -> Result<usize, u32> {
    lowest(arrival_refusals(r, queue, (handles, sizes), clock, packet))?;
    let decision = decide(r, queue, packet);
    let q = &mut r.queues[queue];
    q.clock = clock;
    q.accumulated = decision.accumulated;
    q.verdicts[decision.verdict] += 1;
    if is_admitted(decision.verdict) {
        store::enter(&mut r.shared, q, (handles, sizes), (packet.handle, packet.size));
    }
    Ok(decision.verdict)
}
