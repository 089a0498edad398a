//! Random records with tables, whole chains and damaged ones, and calls on them.

use crate::aims;
use crate::broken;
use crate::damage;
use crate::flows::formed::{
    well_formed, AT_DEFICITS, AT_FLOWS, AT_LISTS, CONDITIONS, FLOW_CONDITIONS,
};
use crate::flows::hash::{flow_of, Key};
use crate::flows::schedule::choose;
use crate::flows::{Record, Settings, FLOWS};
use crate::kind::{fresh_call, Call, Flows, Side, NOBODY};
use crate::layout;
use crate::model::formed::verdict_sum;
use crate::model::numbers::*;
use crate::records;
use crate::shared::bursts::{Bursting, Standing};
use crate::shared::kind::{Arriving, Refusals};
use crate::shared::numbers::{around_ends, split};
use crate::shared::pair::Failure;
use crate::shared::random::Random;
use crate::shared::single::{self, some_refusals, Do, Drawn};

impl Drawn for Flows {
    fn case(r: &mut Random) -> (Side, Call) {
        let what = r.pick(Flows::CALLS);
        let wanted = some_refusals::<Flows>(r, what);
        let broken = wanted[2].then(|| condition(r));
        let (mut record, key) = (records::record(r), any_key(r));
        let (flow, others) = prepare(r, what, &key, &wanted, broken, &mut record);
        records::list(r, &mut record, others);
        if what == Do::Arrival && record.flows[flow].count == 0 && r.one_in(4) {
            records::unlist(&mut record, flow);
        }
        let flow = if what == Do::Departure { served(r, &mut record, flow) } else { flow };
        let spare = layout::spare(r, what, wanted[9]).min(SLOTS.1 - record.common.count);
        let (handles, sizes) = records::lay_out(r, &mut record, spare);
        let mut side = Side::new(record, handles, sizes);
        damage::tables(r, what, flow, wanted[9], &mut side);
        if let Some(condition) = broken {
            match r.one_in(6) {
                true => broken::scramble(r, &mut side.state),
                false => broken::break_one(r, &mut side.state, condition),
            }
        }
        let call = single::call::<Flows>(r, what, key, &side, &wanted);
        (side, call)
    }

    fn next_to(r: &mut Random, _: &Key) -> Key {
        any_key(r)
    }

    fn packet(r: &mut Random, side: &Side, key: &Key, wrong: bool) -> Arriving {
        let c = &side.state.common;
        let flow = &side.state.flows[flow_of(key, c.salt as u32)];
        single::packet(r, c.buffer.saturating_sub(c.bytes), flow.probability, wrong)
    }

    /// One setting or two at a time at, beside and far from the ends of their ranges, and ticks on the
    /// record that fresh returned. The record's memory is not prepared.
    fn fresh_calls(
        run: &mut dyn FnMut(&Side, &[Call]) -> Result<(), Failure<Flows>>,
    ) -> Result<(), Failure<Flows>> {
        let mut dirty = Record::zero();
        dirty.common.words_mut().fill(3);
        dirty.order = [5; 64];
        dirty.flow_words_mut().fill(7);
        dirty.deficits = [9; 64];
        let side = Side::new(dirty, Vec::new(), Vec::new());
        let ranges = [TARGET, BUFFER, SLOTS, (0, u64::from(u32::MAX)), (0, CLOCK_MAX)];
        around_ends(ranges, [15_000, 64_000, 64, 7, 5], |words| {
            let [target, buffer, slots, salt, clock] = words;
            let fresh = fresh_call(Settings { target, buffer, slots, salt: salt as u32, clock });
            let tick = |clock: u64| Call::tick(NOBODY, clock, 0);
            run(&side, &[fresh, tick(clock), tick(clock.saturating_add(15_000))])
        })
    }
}

/// Any key, or one of few bytes that are not 0.
pub fn any_key(r: &mut Random) -> Key {
    let mut key = [0; 13];
    for byte in &mut key {
        let any = r.number() as u8;
        *byte = r.pick(&[any, any, any, 0, 255]);
    }
    match r.range(0, 7) {
        0 => [0; 13],
        1 => [255; 13],
        2 | 3 => {
            let mut few = [0; 13];
            few[r.range(0, 12) as usize] = key[0];
            few
        }
        _ => key,
    }
}

/// Any condition; those on flows and deficits are many, and each kind is as frequent as the others.
fn condition(r: &mut Random) -> usize {
    let flow = r.range(0, FLOWS as u64 - 1) as usize;
    let flow = r.pick(&[0, 63, flow]);
    match r.range(0, 9) {
        0..=2 => r.range(0, AT_FLOWS as u64 - 1) as usize,
        3..=5 => {
            AT_FLOWS + flow * FLOW_CONDITIONS + r.range(0, FLOW_CONDITIONS as u64 - 1) as usize
        }
        6..=8 => r.range(AT_LISTS as u64, AT_DEFICITS as u64 - 1) as usize,
        _ => CONDITIONS - FLOWS + flow,
    }
}

/// What the call, the wanted refusals and the condition to be broken need of the record: the flow that
/// the call is about, and how many flows without packets are listed.
fn prepare(
    r: &mut Random,
    what: Do,
    key: &Key,
    wanted: &Refusals,
    broken: Option<usize>,
    record: &mut Record,
) -> (usize, usize) {
    let flow = flow_of(key, record.common.salt as u32);
    if what != Do::Departure {
        records::change(record, flow, |q| aims::aim(r, what, q));
        records::fit(record, flow);
    }
    let c = &mut record.common;
    if wanted[5] {
        c.last = c.clock.saturating_sub(r.pick(&[0, 1, 14_998, 14_999]));
    }
    if wanted[8] || (what != Do::Arrival && r.one_in(8)) {
        c.verdicts = split(r, COUNTS_MAX);
    }
    if wanted[6] {
        (0..FLOWS).for_each(|flow| records::empty(record, flow));
    } else if what == Do::Departure && record.common.count == 0 {
        records::hold(r, record, flow);
    }
    if what == Do::Arrival && wanted[9] && r.one_in(2) {
        record.flows[flow].allowance = FULL_ALLOWANCE;
    }
    let others = broken.and_then(|condition| broken::prepare(r, record, condition));
    records::settle(record);
    (flow, others.unwrap_or(r.pick(&[0, 0, 1, 2, 5, 64])))
}

/// The flow that is chosen, brought near an edge; it keeps a packet, and so it is chosen still.
fn served(r: &mut Random, record: &mut Record, flow: usize) -> usize {
    if record.common.count == 0 {
        return flow;
    }
    if r.one_in(200) {
        owe_all(r, record);
    }
    let flow = choose(record).flow;
    records::change(record, flow, |q| aims::aim(r, Do::Departure, q));
    records::fit(record, flow);
    flow
}

/// The longest choices: all flows listed, the least deficits, and few of them hold a packet.
fn owe_all(r: &mut Random, record: &mut Record) {
    let few = r.range(0, 2) as usize;
    let holding: Vec<usize> = (0..FLOWS).filter(|&flow| record.flows[flow].count > 0).collect();
    for &flow in holding.iter().skip(1 + few) {
        records::empty(record, flow);
    }
    records::settle(record);
    records::list(r, record, FLOWS);
    record.common.old = r.pick(&[0, 0, record.common.old]);
    record.deficits = [r.pick(&[0, 0, 1]); FLOWS];
    if r.one_in(2) {
        // The only flow with a packet stands last.
        let last = (record.common.first as usize + FLOWS - 1) % FLOWS;
        let place = record.order.iter().position(|&flow| flow == holding[0] as u64);
        record.order.swap(last, place.unwrap_or(last));
    }
}

impl Bursting for Flows {
    const UNKNOWN: &'static [u32] = &[4, 5, 256, 1 << 16, u32::MAX];
    const NUMBERS: usize = 10;

    fn counts<'a>(record: &'a mut Record, _: &Key) -> Option<&'a mut [u64; 5]> {
        Some(&mut record.common.verdicts)
    }

    /// After the kind the key, and three bytes that nobody reads.
    fn numbered(key: &Key, kind: u32) -> Vec<u32> {
        let mut bytes = [0xA5; 16];
        bytes[..13].copy_from_slice(key);
        let number = |four: &[u8]| u32::from_le_bytes([four[0], four[1], four[2], four[3]]);
        [kind].into_iter().chain(bytes.chunks(4).map(number)).collect()
    }

    fn standing(side: &Side, _: &Key) -> Standing {
        let formed = well_formed(&side.state);
        let counted = verdict_sum(&side.state.queue(0));
        Standing { formed, calm: false, active: false, counted, no_flow: false }
    }
}
