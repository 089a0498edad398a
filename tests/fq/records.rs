//! Random records, near the ends of every range, with lists and chains.

use crate::aims;
use crate::flows::{Record, FLOWS};
use crate::layout;
use crate::model::numbers::*;
use crate::model::Queue;
use crate::shared::random::Random;
use crate::states;

/// A record without lists and places. Lists come from `list`, places and tables from `lay_out`.
pub fn record(r: &mut Random) -> Record {
    let mut q = Queue::default();
    states::settings(r, &mut q);
    states::clocks(r, &mut q);
    let mut record = Record::zero();
    let any = r.range(0, u64::from(u32::MAX));
    let c = &mut record.common;
    (c.target, c.buffer, c.clock, c.last) = (q.target, q.buffer, q.clock, q.last);
    c.slots = states::slots(r);
    c.salt = r.pick(&[0, 5, u64::from(u32::MAX), any, any]);
    c.verdicts = states::sound_counts(r);
    fill(r, &mut record);
    for flow in 0..FLOWS {
        change(&mut record, flow, |q| {
            states::control(r, q);
            states::measurement(r, q);
        });
    }
    record
}

/// Changes a flow by what works on a queue.
pub fn change(record: &mut Record, flow: usize, run: impl FnOnce(&mut Queue)) {
    let mut q = record.queue(flow);
    run(&mut q);
    record.set_queue(flow, &q);
    record.common.buffer = q.buffer;
}

/// Gives packets to none, a few, or all of the flows.
fn fill(r: &mut Random, record: &mut Record) {
    let holding = r.pick(&[0, 1, 1, 2, 2, 3, 8, FLOWS]);
    if holding == FLOWS {
        let c = &mut record.common;
        (c.buffer, c.slots) = (c.buffer.max(70_000), c.slots.max(70));
    }
    for (i, flow) in shuffled(r, (0..FLOWS).collect()).into_iter().take(holding).enumerate() {
        give(r, record, flow, (holding - 1 - i) as u64);
    }
    settle(record);
    if r.one_in(3) {
        let room = record.common.bytes + r.spread(0, 70_000);
        record.common.buffer = room.clamp(1, BUFFER.1);
    }
}

/// Packets for one flow, as many as slots and buffer allow if so many flows are to have one each, with
/// bytes that they can have.
fn give(r: &mut Random, record: &mut Record, flow: usize, others: u64) {
    settle(record);
    let c = &record.common;
    let room = (c.buffer - c.bytes).saturating_sub(others);
    let most = (c.slots - c.count).saturating_sub(others).min(room);
    let any = r.range(0, most);
    let count = r.pick(&[1, 1, 2, 3, most, any]).min(most);
    let high = (SIZE.1 * count).min(room);
    let any = r.range(count, high);
    let small = r.pick(&[2_999, 3_000, 3_001, 16_384]);
    let list = [count, count + 1, high, high.saturating_sub(1), small, small, any, any];
    let bytes = r.pick(&list).min(high).max(count);
    (record.flows[flow].count, record.flows[flow].bytes) = (count, bytes);
}

/// One packet for a flow that holds none.
pub fn hold(r: &mut Random, record: &mut Record, flow: usize) {
    let bytes = r.spread(1, SIZE.1);
    let f = &mut record.flows[flow];
    if f.count == 0 {
        (f.count, f.bytes) = (1, bytes.min(record.common.buffer));
    }
    fit(record, flow);
}

pub fn empty(record: &mut Record, flow: usize) {
    change(record, flow, aims::at_empty);
}

/// The totals are those of the flows.
pub fn settle(record: &mut Record) {
    record.common.count = record.flows.iter().map(|flow| flow.count).sum();
    record.common.bytes = record.flows.iter().map(|flow| flow.bytes).sum();
}

/// Settles the record; where the buffer or the tables cannot hold all, the others lose what they hold.
pub fn fit(record: &mut Record, flow: usize) {
    settle(record);
    if record.common.bytes > BUFFER.1 || record.common.count > SLOTS.1 - 3 {
        (0..FLOWS).filter(|&other| other != flow).for_each(|other| empty(record, other));
        settle(record);
    }
    let c = &mut record.common;
    (c.buffer, c.slots) = (c.buffer.max(c.bytes), c.slots.max(c.count));
}

/// Lists every flow that holds a packet, and so many others; elements outside the lists are anything.
pub fn list(r: &mut Random, record: &mut Record, others: usize) {
    let (mut flows, empty): (Vec<usize>, Vec<usize>) =
        (0..FLOWS).partition(|&flow| record.flows[flow].count > 0);
    flows.extend(shuffled(r, empty).into_iter().take(others));
    let flows = shuffled(r, flows);
    let (listed, any) = (flows.len() as u64, r.range(0, 63));
    let c = &mut record.common;
    c.first = r.pick(&[0, 0, 1, 62, 63, any, any]);
    c.listed = listed;
    let any = r.range(0, listed);
    c.old = r.pick(&[0, 0, listed, listed, any, any]);
    let wild = r.one_in(4);
    for element in &mut record.order {
        *element = if wild { r.number() } else { r.range(0, 63) };
    }
    for (i, &flow) in flows.iter().enumerate() {
        record.order[(record.common.first as usize + i) % FLOWS] = flow as u64;
    }
    let owing = r.one_in(2);
    for deficit in &mut record.deficits {
        *deficit = if owing { self::deficit(r) } else { r.range(65_535, 67_049) as u32 };
    }
}

/// Takes a flow that holds no packet out of the lists, if it stands in them.
pub fn unlist(record: &mut Record, flow: usize) {
    let c = &mut record.common;
    let place = (0..c.listed).find(|i| record.order[((c.first + i) % 64) as usize] == flow as u64);
    if let Some(i) = place {
        c.listed -= 1;
        c.old = c.old.min(c.listed);
        let (at, last) = ((c.first + i) % 64, (c.first + c.listed) % 64);
        record.order.swap(at as usize, last as usize);
    }
}

/// A deficit and 65,535, near the ends, 0, and a quantum from 0.
fn deficit(r: &mut Random) -> u32 {
    let (any, owed) = (r.range(0, 67_049), r.range(0, 65_534));
    let list = [0, 1, 64_020, 64_021, 64_022, 65_534, 65_535, 65_536, 67_048, 67_049, any, owed];
    r.pick(&list) as u32
}

/// The places of all flows, and tables a little longer than the slots.
pub fn lay_out(r: &mut Random, record: &mut Record, spare: u64) -> (Vec<u32>, Vec<u32>) {
    let mut store = record.store();
    let mut queues: Vec<Queue> = (0..FLOWS).map(|flow| record.queue(flow)).collect();
    layout::take_slots(r, &mut store, record.common.count, spare);
    let tables = layout::lay_chains(r, &mut store, &mut queues);
    record.common.slots = store.slots;
    record.set_store(&store);
    for (flow, q) in queues.iter().enumerate() {
        record.set_queue(flow, q);
    }
    tables
}

pub fn shuffled(r: &mut Random, mut list: Vec<usize>) -> Vec<usize> {
    for i in (1..list.len()).rev() {
        list.swap(i, r.range(0, i as u64) as usize);
    }
    list
}
