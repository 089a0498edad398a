//! A flow of the cable modem as a kind.
//!
//! Of the table of counts every call may touch the row of its flow alone. So guarded memory ends right
//! after that row, or begins right before it; of a flow that has no row, none may be touched.

use crate::library::*;
use crate::model::{self, Counts, Refusals, Settings};
use crate::shared::kind::{self, Arriving, Kind, Packet, View, What};
use crate::shared::lend::Memory;
use crate::words;
use std::ops::{Deref, DerefMut, Range};

pub struct Modem;

/// The record of a flow, and the counts of all flows.
#[derive(Clone, Copy, PartialEq, Debug)]
pub struct State {
    pub record: model::State,
    pub counts: Counts,
}

impl Deref for State {
    type Target = model::State;

    fn deref(&self) -> &model::State {
        &self.record
    }
}

impl DerefMut for State {
    fn deref_mut(&mut self) -> &mut model::State {
        &mut self.record
    }
}

pub type Side = kind::Side<State>;
pub type Call = kind::Call<u32, Settings>;

words!(model::State, 16, FIELDS, words, state_of:
    settings.target, settings.buffer, settings.slots, settings.peak, settings.sustained,
    clock, last, probability, accumulated, old_delay, allowance, reset, activity, first, count, bytes);

pub fn side(record: model::State, counts: Counts, handles: Vec<u32>, sizes: Vec<u32>) -> Side {
    Side::new(State { record, counts }, handles, sizes)
}

/// The model's arguments of an arrival.
pub fn arriving(p: &Arriving) -> model::Arriving {
    model::Arriving { handle: p.handle, size: p.size, u: p.u }
}

/// A packet; the modem marks none.
pub fn packet(handle: u32, size: u32, u: u32) -> Arriving {
    Arriving { handle, size, ecn: false, u }
}

/// The table of counts among the record's parts.
const COUNTS: usize = 1;

impl Kind for Modem {
    const PARTS: &'static [usize] = &[16, 80];
    const SIZES_ARE_READ: bool = true;
    const TICK_PERIOD: u64 = model::numbers::TICK_PERIOD;

    type State = State;
    type To = u32;
    type Settings = Settings;
    type Words = [u64; 96];

    fn words(state: &State) -> [u64; 96] {
        let mut all = [0; 96];
        all[..16].copy_from_slice(&words(&state.record));
        for (place, row) in all[16..].chunks_mut(5).zip(&state.counts) {
            place.copy_from_slice(row);
        }
        all
    }

    fn state_of(words: &[u64; 96]) -> State {
        let mut record = [0; 16];
        record.copy_from_slice(&words[..16]);
        let mut counts = [[0; 5]; 16];
        for (row, from) in counts.iter_mut().zip(words[16..].chunks(5)) {
            row.copy_from_slice(from);
        }
        State { record: state_of(&record), counts }
    }

    fn fields() -> Vec<String> {
        let count = |place: usize| format!("counts[{}][{}]", place / 5, place % 5);
        FIELDS.iter().map(|name| name.to_string()).chain((0..80).map(count)).collect()
    }

    #[rustfmt::skip]
    fn view(state: &State, to: &u32) -> View {
        let model::State { clock, last, count, bytes, probability, old_delay, allowance, accumulated, .. } = state.record;
        let Settings { slots, buffer, target, .. } = state.settings;
        let verdicts = state.counts.get(*to as usize).copied().unwrap_or_default();
        View { slots, buffer, clock, last, count, bytes, probability, target, old_delay, allowance, accumulated, verdicts }
    }

    fn places(s: &State) -> Vec<u64> {
        let tail =
            (u128::from(s.first) + u128::from(s.count)) % u128::from(s.settings.slots.max(1));
        vec![s.first, tail as u64]
    }

    fn model(side: &mut Side, call: &Call) -> Result<u32, u32> {
        let (flow, clock) = (call.to, call.clock);
        let (State { record, counts }, (handles, sizes)) = side.lend(call.lent);
        match call.what {
            What::Fresh(settings) => {
                let (answer, fresh) = model::fresh(counts, flow, settings, clock);
                *record = fresh;
                answer.map(|()| 0)
            }
            What::Arrival(p) => {
                let (tables, packet) = ((handles, sizes), arriving(&p));
                let verdict = model::arrival(record, counts, flow, tables, clock, &packet)?;
                Ok(verdict as u32)
            }
            What::Departure => {
                let tables = (&*handles, &*sizes);
                let (handle, size) = model::departure(record, counts, flow, tables, clock)?;
                side.packet = Packet { flow: 0, handle, size };
                Ok(0)
            }
            What::Tick(credits) => model::tick(record, counts, flow, clock, credits).map(|()| 0),
        }
    }

    fn model_formed(state: &State, to: &u32) -> bool {
        model::well_formed(&state.record, &state.counts, *to)
    }

    fn applying(before: &Side, call: &Call) -> Refusals {
        let (s, counts) = (&before.state.record, &before.state.counts);
        let (flow, clock, lent) = (call.to, call.clock, call.lent);
        match call.what {
            What::Fresh(settings) => model::fresh_refusals(flow, &settings, clock),
            What::Arrival(packet) => {
                let lengths = (lent.handles, lent.sizes);
                model::arrival_refusals(s, counts, flow, lengths, clock, packet.size)
            }
            What::Departure => {
                let sizes = &before.sizes[..lent.sizes];
                model::departure_refusals(s, counts, flow, lent.handles, sizes, clock)
            }
            What::Tick(_) => model::tick_refusals(s, counts, flow, clock),
        }
    }

    #[rustfmt::skip]
    fn library(m: &Memory, call: &Call) -> u32 {
        let (state, counts, flow, clock) = (m.parts[0], m.parts[COUNTS], call.to, call.clock);
        let (h, hl, s, sl) = (m.handles, m.handles_len, m.sizes, m.sizes_len);
        unsafe {
            match call.what {
                What::Fresh(Settings { target, buffer, slots, peak, sustained }) =>
                    obikuteru_modem_fresh(state, counts, flow, target, buffer, slots, peak, sustained, clock),
                What::Arrival(p) => obikuteru_modem_arrival(state, counts, flow, h, hl, s, sl, clock, p.handle, p.size, p.u),
                What::Departure => obikuteru_modem_departure(state, counts, flow, h, hl, s, sl, clock, m.packet),
                What::Tick(credits) => obikuteru_modem_tick(state, counts, flow, clock, credits),
            }
        }
    }

    fn formed(m: &Memory, to: &u32) -> bool {
        unsafe { obikuteru_modem_well_formed(m.parts[0], m.parts[COUNTS], *to) }
    }

    #[rustfmt::skip]
    fn burst(m: &Memory, to: &u32, calls: &[u32], answers: &mut [u64]) -> u32 {
        let (c, cl, a, al) = (calls.as_ptr(), calls.len(), answers.as_mut_ptr(), answers.len());
        let (h, hl, s, sl) = (m.handles, m.handles_len, m.sizes, m.sizes_len);
        unsafe { obikuteru_modem_calls(m.parts[0], m.parts[COUNTS], *to, h, hl, s, sl, c, cl, a, al) }
    }

    /// The counts are read at departures and ticks.
    fn only_read(call: &Call) -> &'static [usize] {
        match call.what {
            What::Departure | What::Tick(_) => &[COUNTS],
            _ => &[],
        }
    }

    fn open(part: usize, to: &u32, at_end: bool) -> Range<usize> {
        match (part, *to as usize, at_end) {
            (0, _, _) => 0..16,
            (_, 16.., _) => 0..0,
            (_, flow, true) => 0..5 * flow + 5,
            (_, flow, false) => 5 * flow..80,
        }
    }
}
