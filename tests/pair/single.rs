//! Random records with tables, whole chains and damaged ones, and calls on them.

use crate::aims;
use crate::broken;
use crate::damage;
use crate::kind::{fresh_call, Call, Side, Two};
use crate::layout;
use crate::model::formed::{verdict_sum, well_formed, CONDITIONS};
use crate::model::numbers::*;
use crate::model::{Queue, Records, Settings};
use crate::shared::bursts::{Bursting, Standing};
use crate::shared::kind::{Arriving, Refusals};
use crate::shared::numbers::around_ends;
use crate::shared::pair::Failure;
use crate::shared::random::Random;
use crate::shared::single::{self, some_refusals, Do, Drawn};
use crate::states;

impl Drawn for Two {
    fn case(r: &mut Random) -> (Side, Call) {
        let what = r.pick(Two::CALLS);
        let queue = r.range(0, 1) as usize;
        let wanted = some_refusals::<Two>(r, what);
        let broken = wanted[2].then(|| r.range(0, CONDITIONS as u64 - 1) as usize);
        let mut records = states::records(r);
        aims::aim(r, what, &mut records.queues[queue]);
        prepare(r, what, &wanted, &mut records.queues[queue]);
        if let Some(condition) = broken {
            prepare_to_break(r, &mut records, condition);
        }
        let spare = layout::spare(r, what, wanted[9]);
        if records.queues[0].count + records.queues[1].count > SLOTS.1 {
            aims::at_empty(&mut records.queues[1 - queue]);
        }
        let room = SLOTS.1 - records.queues[0].count - records.queues[1].count;
        let (handles, sizes) = layout::lay_out(r, &mut records, spare.min(room));
        let mut side = Side::new(records, handles, sizes);
        damage::tables(r, what, queue, wanted[9], &mut side);
        if let Some(condition) = broken {
            match r.one_in(6) {
                true => broken::scramble(r, &mut side.state),
                false => broken::break_one(r, &mut side.state, condition),
            }
        }
        let call = single::call::<Two>(r, what, queue, &side, &wanted);
        (side, call)
    }

    fn next_to(r: &mut Random, _: &usize) -> usize {
        r.range(0, 1) as usize
    }

    fn packet(r: &mut Random, side: &Side, to: &usize, wrong: bool) -> Arriving {
        let q = &side.state.queues[*to];
        single::packet(r, q.buffer.saturating_sub(q.bytes), q.probability, wrong)
    }

    /// One setting or two at a time at, beside and far from the ends of their ranges, and a tick of
    /// each queue on the records that fresh returned.
    fn fresh_calls(
        run: &mut dyn FnMut(&Side, &[Call]) -> Result<(), Failure<Two>>,
    ) -> Result<(), Failure<Two>> {
        let queue = [TARGET, BUFFER, (0, 64), (0, CLOCK_MAX)];
        let [a, b, c, d] = queue;
        let sound = [64, 15_000, 64_000, 20, 5, 20_000, 30_000, 30, 1_000_000];
        around_ends([SLOTS, a, b, c, d, a, b, c, d], sound, |words| fresh(words, run))?;
        RESERVES.into_iter().try_for_each(|(slots, reserves)| {
            let mut words = sound;
            (words[0], words[3], words[7]) = (slots, reserves.0, reserves.1);
            fresh(words, run)
        })
    }
}

/// Slots and reserves whose sum is the slots, one above them, or small only where it wraps round.
const RESERVES: [(u64, (u64, u64)); 10] = [
    (1, (1, 0)),
    (1, (0, 1)),
    (1, (1, 1)),
    (4, (2, 3)),
    (65_536, (65_536, 0)),
    (65_536, (32_768, 32_768)),
    (65_536, (32_768, 32_769)),
    (64, (u64::MAX, 1)),
    (64, (2, u64::MAX)),
    (64, (1 << 63, 1 << 63)),
];

fn fresh(
    words: [u64; 9],
    run: &mut dyn FnMut(&Side, &[Call]) -> Result<(), Failure<Two>>,
) -> Result<(), Failure<Two>> {
    let [slots, target, buffer, reserve, clock, more @ ..] = words;
    let first = Settings { target, buffer, reserve, clock };
    let [target, buffer, reserve, clock] = more;
    let second = Settings { target, buffer, reserve, clock };
    let mut dirty = Records::default();
    dirty.shared.freed = 3;
    (dirty.queues[0].measuring, dirty.queues[1].measuring) = (7, u64::MAX);
    dirty.queues[0].tail = 9;
    let fresh = fresh_call(slots, [first, second]);
    let ticks = [Call::tick(0, first.clock, 0), Call::tick(1, second.clock, 0)];
    run(&Side::new(dirty, Vec::new(), Vec::new()), &[fresh, ticks[0], ticks[1]])
}

/// What refusals 5, 6, 8 and 9 need of the called queue.
fn prepare(r: &mut Random, what: Do, wanted: &Refusals, q: &mut Queue) {
    if wanted[5] {
        q.last = q.clock.saturating_sub(r.pick(&[0, 1, 14_998, 14_999]));
    }
    if wanted[6] {
        aims::at_empty(q);
    } else if what == Do::Departure && q.count == 0 {
        (q.count, q.bytes) = (1, q.buffer.min(r.spread(1, SIZE.1)));
    }
    if wanted[8] || (what != Do::Arrival && r.one_in(8)) {
        q.verdicts = states::split(r, COUNTS_MAX);
    }
    if what == Do::Arrival && wanted[9] && r.one_in(2) {
        q.allowance = FULL_ALLOWANCE;
    }
}

/// Packets where the condition that is to be broken needs some, or none.
fn prepare_to_break(r: &mut Random, records: &mut Records, condition: usize) {
    if !(4..46).contains(&condition) {
        return;
    }
    let q = &mut records.queues[(condition - 4) / 21];
    match (condition - 4) % 21 {
        12 | 15 | 16 if q.count == 0 => (q.count, q.bytes, q.buffer) = (1, 1, BUFFER.1),
        13 => q.count = q.count.min(200),
        14 if q.bytes < 2 => (q.count, q.bytes, q.buffer) = (1, 2, BUFFER.1),
        17 => q.clock = q.clock.max(1),
        19 => aims::at_empty(q),
        1 if r.one_in(3) => aims::at_empty(q),
        _ => {}
    }
    let q = &mut records.queues[(condition - 4) / 21];
    q.bytes = q.bytes.clamp(q.count, SIZE.1 * q.count);
    q.buffer = q.buffer.max(q.bytes);
}

impl Bursting for Two {
    const UNKNOWN: &'static [u32] = &[8, 9, 256, 1 << 16, u32::MAX];

    fn counts<'a>(records: &'a mut Records, to: &usize) -> Option<&'a mut [u64; 5]> {
        Some(&mut records.queues[*to].verdicts)
    }

    fn numbered(to: &usize, kind: u32) -> Vec<u32> {
        vec![4 * *to as u32 + kind]
    }

    fn kind_of(number: u32) -> Option<u32> {
        (number < 8).then_some(number % 4)
    }

    fn standing(side: &Side, _: &usize) -> Standing {
        let formed = well_formed(&side.state);
        let counted = side.state.queues.iter().map(verdict_sum).max().unwrap_or(0);
        Standing { formed, calm: false, active: false, counted, no_flow: false }
    }
}
