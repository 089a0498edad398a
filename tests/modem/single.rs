//! Random records with counts and tables, and calls on them.

use crate::aims;
use crate::broken;
use crate::kind::{self, Call, Modem, Side};
use crate::model::numbers::*;
use crate::model::{self, Row, Settings, State};
use crate::shared::bursts::{Bursting, Standing};
use crate::shared::kind::{Arriving, Refusals, What};
use crate::shared::numbers;
use crate::shared::pair::Failure;
use crate::shared::random::Random;
use crate::shared::single::{self, filled, size_of_next, some_refusals, Do, Drawn};
use crate::states;

impl Drawn for Modem {
    const CALLS: &'static [Do] = &[Do::Arrival, Do::Departure, Do::Tick];

    fn case(r: &mut Random) -> (Side, Call) {
        let what = r.pick(Modem::CALLS);
        let wanted = some_refusals::<Modem>(r, what);
        let size = any_size(r);
        let mut s = states::well_formed(r);
        let credits = aim(r, what, size, &mut s);
        if wanted[5] {
            s.last = s.clock.saturating_sub(r.pick(&[0, 1, 15_998, 15_999]));
        }
        if wanted[6] {
            aims::at_empty(&mut s);
        } else if what == Do::Departure && s.count == 0 {
            (s.count, s.bytes) = (1, s.settings.buffer.min(r.spread(1, SIZE.1)));
        }
        let (handles, mut sizes) = tables(r, &s);
        if wanted[9] {
            sizes[s.first as usize] = numbers::wrong_size(r, s.count, s.bytes);
        }
        let row = damage(r, what, &wanted, &mut s);
        let flow = if wanted[10] { wrong_flow(r) } else { r.range(0, 15) as u32 };
        let side = kind::side(s, states::counts(r, flow, row), handles, sizes);
        let mut call = single::call::<Modem>(r, what, flow, &side, &wanted);
        match &mut call.what {
            What::Arrival(packet) if !wanted[7] && r.one_in(2) => {
                packet.size = size;
                packet.u = any_u(r, s.probability, size);
            }
            What::Tick(lent) => *lent = credits,
            _ => {}
        }
        (side, call)
    }

    fn next_to(_: &mut Random, first: &u32) -> u32 {
        *first.min(&15)
    }

    fn packet(r: &mut Random, side: &Side, _: &u32, wrong: bool) -> Arriving {
        let s = &side.state.record;
        let room = s.settings.buffer.saturating_sub(s.bytes).min(SIZE.1);
        let any = u64::from(any_size(r));
        let size = if wrong {
            r.pick(&[0, 0, 65_536, 65_537, u64::from(u32::MAX), 1 << 31])
        } else {
            r.pick(&[1, 65_535, any, any, any, room, room + 1, room.saturating_sub(1)])
                .clamp(1, SIZE.1)
        };
        let size = size as u32;
        let handle = r.number() as u32;
        kind::packet(r.pick(&[0, u32::MAX, handle]), size, any_u(r, s.probability, size))
    }

    fn credits(r: &mut Random, state: &kind::State) -> u32 {
        aims::credits(r, &state.record)
    }

    /// One setting or two at a time at, beside and far from the ends of their ranges, for flows of all
    /// kinds, and a tick on the record that fresh returned.
    fn fresh_calls(
        run: &mut dyn FnMut(&Side, &[Call]) -> Result<(), Failure<Modem>>,
    ) -> Result<(), Failure<Modem>> {
        let ranges = [TARGET, BUFFER, SLOTS, RATE, RATE, (0, CLOCK_MAX)];
        let dirty = State { first: 3, probability: 9, activity: 2, reset: 4, ..State::default() };
        let side = kind::side(dirty, [[7, 6, u64::MAX, 4, 3]; 16], Vec::new(), Vec::new());
        let mut turn = 0;
        numbers::around_ends(ranges, [10_000, 30_000, 64, 20_000, 10_000, 5], |words| {
            let [target, buffer, slots, peak, sustained, clock] = words;
            let settings = Settings { target, buffer, slots, peak, sustained };
            turn += 1;
            [turn % 16, 15, 16, 17, u32::MAX].into_iter().try_for_each(|flow| {
                run(&side, &[Call::fresh(flow, settings, clock), Call::tick(flow, clock, 0)])
            })
        })
    }
}

/// Sizes at their ends and near those at which the scaled probability reaches its limit.
fn any_size(r: &mut Random) -> u32 {
    let any = r.spread(1, SIZE.1) as u32;
    r.pick(&[1, 63, 64, 100, 869, 870, 871, 1_023, 1_024, 1_024, 1_025, 1_500, 65_535, any, any])
}

/// A random number beside the scaled probability, at an end, or any other.
fn any_u(r: &mut Random, probability: u64, size: u32) -> u32 {
    let scaled = model::scaled(probability.min(PROBABILITY_MAX), size.min(65_535));
    let any = r.number() >> 32;
    let list = [scaled.saturating_sub(1), scaled, scaled + 1, 0, u64::from(u32::MAX), any];
    r.pick(&list).min(u64::from(u32::MAX)) as u32
}

/// Brings the record near an edge of the call, often. Gives the credits of a tick.
fn aim(r: &mut Random, what: Do, size: u32, s: &mut State) -> u32 {
    let credits = aims::credits(r, s);
    match (what, r.range(0, 7)) {
        (Do::Arrival, 0) => aims::at_a_third(r, s),
        (Do::Arrival, 1 | 2) => aims::at_suppression(r, s),
        (Do::Arrival, 3..=5) => aims::at_sums(r, s, size),
        (Do::Tick, 0 | 1) => {
            aims::at_quiet(r, s);
            return 0;
        }
        (Do::Tick, 2..=4) => {
            aims::at_ends(r, s);
            return 0;
        }
        (Do::Tick, 5) => return aims::at_longest(r, s),
        _ => {}
    }
    credits
}

/// The row of the call's flow; record and row are broken where refusal 2 is wanted.
fn damage(r: &mut Random, what: Do, wanted: &Refusals, s: &mut State) -> Row {
    let full = wanted[8] || (what != Do::Arrival && r.one_in(8));
    let mut row = if full { numbers::split(r, COUNTS_MAX) } else { states::sound_row(r) };
    if wanted[2] && r.one_in(6) {
        broken::scramble(r, s);
    } else if wanted[2] {
        let last = if wanted[8] || wanted[10] { broken::ROW - 1 } else { broken::ROW };
        match r.range(0, last as u64) as usize {
            broken::ROW => row = numbers::too_many(r),
            condition => broken::break_one(r, s, condition),
        }
    }
    row
}

fn wrong_flow(r: &mut Random) -> u32 {
    let any = r.range(16, u64::from(u32::MAX)) as u32;
    r.pick(&[16, 16, 17, 31, 1 << 16, 1 << 31, u32::MAX, any])
}

/// Tables a little longer than the slots. The queued sizes add up to the queued bytes.
fn tables(r: &mut Random, s: &State) -> (Vec<u32>, Vec<u32>) {
    let (handles, mut sizes) = filled(r, s.settings.slots);
    let mut bytes = s.bytes;
    for i in 0..s.count {
        let size = size_of_next(r, bytes, s.count - i - 1, &[]);
        sizes[((s.first + i) % s.settings.slots) as usize] = size as u32;
        bytes -= size;
    }
    (handles, sizes)
}

impl Bursting for Modem {
    /// 1 is the arrival of a packet that may be marked: the modem marks none.
    const UNKNOWN: &'static [u32] = &[1, 1, 4, 5, 1 << 16, u32::MAX];
    const EACH_TO: bool = false;

    fn counts<'a>(state: &'a mut kind::State, to: &u32) -> Option<&'a mut [u64; 5]> {
        state.counts.get_mut(*to as usize)
    }

    fn steady_credits(r: &mut Random) -> u32 {
        r.spread(0, u64::from(u32::MAX)) as u32
    }

    fn kind_of(number: u32) -> Option<u32> {
        [0, 2, 3].contains(&number).then_some(number)
    }

    fn standing(side: &Side, to: &u32) -> Standing {
        let s = &side.state;
        let formed = model::well_formed(&s.record, &s.counts, *to);
        let counted = model::row_sum(&model::row(&s.counts, *to));
        Standing { formed, calm: false, active: s.activity == 2, counted, no_flow: *to > 15 }
    }
}
