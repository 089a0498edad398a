//! The ring queue as a kind.

use crate::library::*;
use crate::model::{self, Asked, State};
use crate::shared::kind::{self, widened, Arriving, Kind, Packet, Refusals, View, What};
use crate::shared::lend::Memory;
use crate::words;

pub struct Ring;

pub type Side = kind::Side<State>;
pub type Call = kind::Call<(), Asked>;

words!(State, 23, FIELDS, words, state_of:
    target, buffer, slots, clock, last, probability, old_delay, allowance, accumulated, average,
    measuring, start, counted, count, bytes, first,
    verdicts[0], verdicts[1], verdicts[2], verdicts[3], verdicts[4], profile, active);

/// The model's arguments of an arrival.
pub fn arriving(p: &Arriving) -> model::Arriving {
    model::Arriving { handle: p.handle, size: p.size, ecn: p.ecn, u: p.u }
}

impl Kind for Ring {
    const PARTS: &'static [usize] = &[WORDS];
    const SIZES_ARE_READ: bool = true;
    const TICK_PERIOD: u64 = model::TICK_PERIOD;

    type State = State;
    type To = ();
    type Settings = Asked;
    type Words = [u64; WORDS];

    fn words(state: &State) -> [u64; WORDS] {
        words(state)
    }

    fn state_of(words: &[u64; WORDS]) -> State {
        state_of(words)
    }

    fn fields() -> Vec<String> {
        FIELDS.map(str::to_string).to_vec()
    }

    #[rustfmt::skip]
    fn view(s: &State, _: &()) -> View {
        let State { slots, buffer, clock, last, count, bytes, probability, .. } = *s;
        let State { target, old_delay, allowance, accumulated, verdicts, .. } = *s;
        View { slots, buffer, clock, last, count, bytes, probability, target, old_delay, allowance, accumulated, verdicts }
    }

    fn places(s: &State) -> Vec<u64> {
        let tail = (u128::from(s.first) + u128::from(s.count)) % u128::from(s.slots.max(1));
        vec![s.first, tail as u64]
    }

    fn model(side: &mut Side, call: &Call) -> Result<u32, u32> {
        let clock = call.clock;
        let (state, (handles, sizes)) = side.lend(call.lent);
        match call.what {
            What::Fresh(asked) => {
                let (answer, fresh) = model::fresh(&asked);
                *state = fresh;
                answer.map(|()| 0)
            }
            What::Arrival(p) => {
                let verdict = model::arrival(state, handles, sizes, clock, &arriving(&p))?;
                Ok(verdict as u32)
            }
            What::Departure => {
                let (handle, size) = model::departure(state, handles, sizes, clock)?;
                side.packet = Packet { flow: 0, handle, size };
                Ok(0)
            }
            What::Tick(_) => model::tick(state, clock).map(|()| 0),
        }
    }

    fn model_formed(state: &State, _: &()) -> bool {
        model::well_formed(state)
    }

    fn applying(before: &Side, call: &Call) -> Refusals {
        let (s, lent, clock) = (&before.state, call.lent, call.clock);
        widened(match call.what {
            What::Fresh(asked) => model::fresh_refusals(&asked),
            What::Arrival(p) => {
                model::arrival_refusals(s, (lent.handles, lent.sizes), clock, p.size)
            }
            What::Departure => {
                model::departure_refusals(s, lent.handles, &before.sizes[..lent.sizes], clock)
            }
            What::Tick(_) => model::tick_refusals(s, clock),
        })
    }

    #[rustfmt::skip]
    fn library(m: &Memory, call: &Call) -> u32 {
        let (state, clock) = (m.parts[0], call.clock);
        let (h, hl, s, sl) = (m.handles, m.handles_len, m.sizes, m.sizes_len);
        unsafe {
            match call.what {
                What::Fresh(a) => obikuteru_fresh(state, a.target, a.buffer, a.slots, a.profile, a.clock),
                What::Arrival(p) => obikuteru_arrival(state, h, hl, s, sl, clock, p.handle, p.size, p.ecn, p.u),
                What::Departure => obikuteru_departure(state, h, hl, s, sl, clock, m.packet),
                What::Tick(_) => obikuteru_tick(state, clock),
            }
        }
    }

    fn formed(m: &Memory, _: &()) -> bool {
        unsafe { obikuteru_well_formed(m.parts[0]) }
    }

    #[rustfmt::skip]
    fn burst(m: &Memory, _: &(), calls: &[u32], answers: &mut [u64]) -> u32 {
        let (c, a) = (calls.as_ptr(), answers.as_mut_ptr());
        let (cl, al) = (calls.len(), answers.len());
        unsafe { obikuteru_calls(m.parts[0], m.handles, m.handles_len, m.sizes, m.sizes_len, c, cl, a, al) }
    }
}
