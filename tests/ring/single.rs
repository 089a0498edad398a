//! Random states with tables, and calls on them.

use crate::broken;
use crate::kind::{Call, Ring, Side};
use crate::model::{self, Asked, State, CLOCK_MAX};
use crate::shared::bursts::{Bursting, Standing};
use crate::shared::kind::{Arriving, Refusals};
use crate::shared::numbers;
use crate::shared::pair::Failure;
use crate::shared::random::Random;
use crate::shared::single::{self, filled, size_of_next, some_refusals, Do, Drawn, FEW_TICKS};
use crate::states;

impl Drawn for Ring {
    const CALLS: &'static [Do] = &[Do::Arrival, Do::Departure, Do::Tick];

    fn case(r: &mut Random) -> (Side, Call) {
        let what = r.pick(Ring::CALLS);
        let wanted = some_refusals::<Ring>(r, what);
        let mut s = states::well_formed(r);
        aim(r, what, &mut s);
        prepare(r, what, &wanted, &mut s);
        let (handles, mut sizes) = tables(r, &s);
        if wanted[9] {
            sizes[s.first as usize] = numbers::wrong_size(r, s.count, s.bytes);
        }
        if wanted[2] && r.one_in(6) {
            broken::scramble(r, &mut s);
        } else if wanted[2] {
            let last = if wanted[8] { 22 } else { 23 };
            let condition = r.range(0, last) as usize;
            broken::break_one(r, &mut s, condition);
        }
        let side = Side::new(s, handles, sizes);
        let call = single::call::<Ring>(r, what, (), &side, &wanted);
        (side, call)
    }

    fn next_to(_: &mut Random, _: &()) {}

    fn packet(r: &mut Random, side: &Side, _: &(), wrong: bool) -> Arriving {
        let s = &side.state;
        let room = s.buffer.saturating_sub(s.bytes).min(65_535);
        let any = r.spread(1, 65_535);
        let size = if wrong {
            r.pick(&[0, 0, 65_536, 65_537, u64::from(u32::MAX), 1 << 31])
        } else {
            r.pick(&[1, 65_535, 1_500, any, any, room, room + 1, room.saturating_sub(1)])
                .clamp(1, 65_535)
        };
        let p = s.probability;
        let any = r.number();
        let list = [p.saturating_sub(1), p, p.saturating_add(1), 0, u64::from(u32::MAX), any >> 32];
        let u = r.pick(&list).min(u64::from(u32::MAX)) as u32;
        let handle = r.pick(&[0, u32::MAX, any as u32]);
        Arriving { handle, size: size as u32, ecn: r.one_in(2), u }
    }

    /// A measurement's end.
    fn end(r: &mut Random, s: &State) -> Option<u64> {
        Some(s.start.saturating_add(r.pick(&[0, 1, 9_999_999, 10_000_000, 10_000_001])))
    }

    /// Every setting at, beside and far from the ends of its range, and a tick on the record that
    /// fresh returned.
    fn fresh_calls(
        run: &mut dyn FnMut(&Side, &[Call]) -> Result<(), Failure<Ring>>,
    ) -> Result<(), Failure<Ring>> {
        let far = [1 << 32, (1 << 32) + 1_500, 1 << 63, u64::MAX];
        let with_far = |ends: &[u64]| [ends, &far].concat();
        let mut dirty = State { verdicts: [7; 5], ..State::default() };
        (dirty.measuring, dirty.first, dirty.probability) = (1, 3, 9);
        (dirty.accumulated, dirty.profile, dirty.active) = (5, 6, 7);
        let side = Side::new(dirty, Vec::new(), Vec::new());
        let profiles = with_far(&[0, 1, 2]);
        for target in with_far(&[0, 999, 1_000, 1_001, 15_000, 99_999, 100_000, 100_001]) {
            for buffer in with_far(&[0, 1, 2, 16_777_215, 16_777_216, 16_777_217]) {
                for slots in with_far(&[0, 1, 2, 65_535, 65_536, 65_537]) {
                    for clock in with_far(&[0, 1, CLOCK_MAX - 1, CLOCK_MAX, CLOCK_MAX + 1]) {
                        for &profile in &profiles {
                            let asked = Asked { target, buffer, slots, profile, clock };
                            run(&side, &[Call::fresh((), asked, clock), Call::tick((), clock, 0)])?;
                        }
                    }
                }
            }
        }
        Ok(())
    }
}

/// Brings the state near an edge of the call, often.
fn aim(r: &mut Random, what: Do, s: &mut State) {
    match what {
        Do::Arrival if r.one_in(3) => states::aim_at_late_rules(r, s),
        Do::Arrival if r.one_in(3) => states::aim_at_early_verdicts(r, s),
        Do::Arrival if r.one_in(3) => states::aim_at_activation(r, s),
        Do::Departure if r.one_in(4) => states::aim_at_last_packet(r, s),
        Do::Tick if r.one_in(3) => states::aim_at_refill(r, s),
        Do::Tick if r.one_in(4) => states::aim_at_cap(r, s),
        _ => {}
    }
}

/// What refusals 5, 6 and 8 need of the state.
fn prepare(r: &mut Random, what: Do, wanted: &Refusals, s: &mut State) {
    if wanted[5] {
        s.last = s.clock.saturating_sub(r.pick(&[0, 1, 14_998, 14_999]));
    }
    if wanted[6] {
        states::empty(s);
    } else if what == Do::Departure && s.count == 0 {
        (s.count, s.bytes) = (1, s.buffer.min(r.spread(1, 65_535)));
        states::measurement(r, s);
    }
    if wanted[8] || (what != Do::Arrival && r.one_in(8)) {
        s.verdicts = numbers::split(r, CLOCK_MAX);
    }
}

/// Tables a little longer than the slots. The queued sizes add up to the queued bytes.
fn tables(r: &mut Random, s: &State) -> (Vec<u32>, Vec<u32>) {
    let (handles, mut sizes) = filled(r, s.slots);
    let mut bytes = s.bytes;
    for i in 0..s.count {
        let to_end = 16_384 - s.counted - 1 + r.range(0, 2);
        let to_threshold = (bytes + 1).saturating_sub(16_384 + r.range(0, 2));
        let list = [to_end, to_end, to_threshold];
        let size = size_of_next(r, bytes, s.count - i - 1, &list);
        sizes[((s.first + i) % s.slots) as usize] = size as u32;
        bytes -= size;
    }
    (handles, sizes)
}

impl Bursting for Ring {
    const IN_BURSTS: &'static [Do] = FEW_TICKS;
    const UNKNOWN: &'static [u32] = &[4, 5, 256, 1 << 16, u32::MAX];

    /// Some plain states whose first arrival may be early.
    fn burst_case(r: &mut Random) -> (Side, Call) {
        if !r.one_in(6) {
            return Ring::case(r);
        }
        let mut s = states::well_formed(r);
        states::aim_at_early_verdicts(r, &mut s);
        s.profile = model::PLAIN;
        let (handles, sizes) = tables(r, &s);
        let side = Side::new(s, handles, sizes);
        let first = single::call::<Ring>(r, Do::Arrival, (), &side, &Refusals::default());
        (side, first)
    }

    fn counts<'a>(state: &'a mut State, _: &()) -> Option<&'a mut [u64; 5]> {
        Some(&mut state.verdicts)
    }

    fn standing(side: &Side, _: &()) -> Standing {
        let s = &side.state;
        let (formed, counted) = (model::well_formed(s), model::verdict_sum(s));
        Standing { formed, calm: s.profile == 1, active: s.active != 0, counted, no_flow: false }
    }
}
