//! The four calls (21, 25, 27, 28).

use super::hash::{flow_of, Key};
use super::refusals::*;
use super::schedule::{choose, Schedule};
use super::{Common, Record, Settings, FLOWS, LEAST};
use crate::model::arrival::{by_state, decision, is_admitted, Decision, Rule};
use crate::model::departure::measure;
use crate::model::numbers::FULL_ALLOWANCE;
use crate::model::refusals::lowest;
use crate::model::store;
use crate::model::tick::{queueing_delay, update};
use crate::model::Arriving;

/// A fresh record, or the number of the refusal and an all-zero one (21).
pub fn fresh(set: &Settings) -> (Result<(), u32>, Record) {
    let answer = lowest(fresh_refusals(set));
    if answer.is_err() {
        return (answer, Record::zero());
    }
    let mut r = Record::zero();
    r.common = Common {
        target: set.target,
        buffer: set.buffer,
        slots: set.slots,
        salt: u64::from(set.salt),
        clock: set.clock,
        last: set.clock,
        ..Common::default()
    };
    for flow in 0..FLOWS {
        r.flows[flow].allowance = FULL_ALLOWANCE;
        r.deficits[flow] = -LEAST as u32; // 0
    }
    (answer, r)
}

/// The rules on an arrival of this flow: 1 and 2 by the totals, the others by its own state (25).
pub fn decide(r: &Record, flow: usize, packet: &Arriving) -> Decision {
    let c = &r.common;
    let q = r.queue(flow);
    let rule = if c.bytes + u64::from(packet.size) > c.buffer {
        Rule::Bytes
    } else if c.count == c.slots {
        Rule::Slots
    } else {
        by_state(&q, packet.u)
    };
    decision(&q, rule, packet.ecn)
}

/// The verdict on a packet that arrives, or the number of the refusal (25).
pub fn arrival(
    r: &mut Record,
    (handles, sizes): (&mut [u32], &mut [u32]),
    clock: u64,
    key: &Key,
    packet: &Arriving,
) -> Result<usize, u32> {
    lowest(arrival_refusals(r, (handles, sizes), clock, key, packet))?;
    let flow = flow_of(key, r.common.salt as u32);
    let decided = decide(r, flow, packet);
    r.common.clock = clock;
    r.common.verdicts[decided.verdict] += 1;
    r.flows[flow].accumulated = decided.accumulated;
    if is_admitted(decided.verdict) {
        let (mut s, mut q) = (r.store(), r.queue(flow));
        store::enter(&mut s, &mut q, (handles, sizes), (packet.handle, packet.size));
        r.set_store(&s);
        r.set_queue(flow, &q);
        r.common.count += 1;
        r.common.bytes += u64::from(packet.size);
        let mut schedule = Schedule::of(r);
        schedule.enlist(flow);
        schedule.keep(r);
    }
    Ok(decided.verdict)
}

/// Flow, handle and size of the packet that leaves, or the number of the refusal (27).
pub fn departure(
    r: &mut Record,
    (handles, sizes): (&[u32], &mut [u32]),
    clock: u64,
) -> Result<(u32, u32, u32), u32> {
    lowest(departure_refusals(r, (handles, sizes), clock))?;
    let mut choice = choose(r);
    let flow = choice.flow;
    r.common.clock = clock;
    let (mut s, mut q) = (r.store(), r.queue(flow));
    let (handle, size) = store::leave(&mut s, &mut q, handles, sizes);
    measure(&mut q, u64::from(size));
    r.set_store(&s);
    r.set_queue(flow, &q);
    r.common.count -= 1;
    r.common.bytes -= u64::from(size);
    choice.schedule.deficits[flow] -= i64::from(size);
    choice.schedule.keep(r);
    Ok((flow as u32, handle, size))
}

/// The periodic update of all flows, or the number of the refusal (28).
pub fn tick(r: &mut Record, clock: u64) -> Result<(), u32> {
    lowest(tick_refusals(r, clock))?;
    for flow in 0..FLOWS {
        let mut q = r.queue(flow);
        let delay = queueing_delay(&q);
        update(&mut q, delay, clock);
        r.set_queue(flow, &q);
    }
    (r.common.last, r.common.clock) = (clock, clock);
    Ok(())
}
