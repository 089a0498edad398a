//! 64 flows in one pair of tables as a kind. A call is for a sender, by its key; only an arrival uses it.

use crate::flows::formed::well_formed;
use crate::flows::hash::{flow_of, Key};
use crate::flows::refusals::*;
use crate::flows::rules::{arrival, departure, fresh, tick};
use crate::flows::{Record, Settings, COMMON_FIELDS, FLOW_FIELDS};
use crate::library::*;
use crate::model;
use crate::shared::kind::{self, widened, Kind, Packet, Refusals, View, What};
use crate::shared::lend::Memory;
pub use crate::states::{arriving, view_of};

pub struct Flows;

pub type Side = kind::Side<Record>;
pub type Call = kind::Call<Key, Settings>;

/// The key of calls that are for no sender.
pub const NOBODY: Key = [0; 13];

pub fn fresh_call(settings: Settings) -> Call {
    Call::fresh(NOBODY, settings, settings.clock)
}

/// The library's flow of a key.
pub fn library_flow(key: *const u8, salt: u32) -> u32 {
    unsafe { obikuteru_fq_flow(key, salt) }
}

impl Kind for Flows {
    const PARTS: &'static [usize] = &[19, 64, 768, 32];
    const FLOW_LEAVES: bool = true;
    const SIZES_ARE_READ: bool = false;
    const TICK_PERIOD: u64 = model::numbers::TICK_PERIOD;

    type State = Record;
    type To = Key;
    type Settings = Settings;
    type Words = [u64; 883];

    fn words(r: &Record) -> [u64; 883] {
        let mut all = [0; 883];
        all[..19].copy_from_slice(r.common.words());
        all[19..83].copy_from_slice(&r.order);
        all[83..851].copy_from_slice(r.flow_words());
        for (word, two) in all[851..].iter_mut().zip(r.deficits.chunks(2)) {
            *word = u64::from(two[0]) | u64::from(two[1]) << 32;
        }
        all
    }

    fn state_of(words: &[u64; 883]) -> Record {
        let mut r = Record::zero();
        r.common.words_mut().copy_from_slice(&words[..19]);
        r.order.copy_from_slice(&words[19..83]);
        r.flow_words_mut().copy_from_slice(&words[83..851]);
        for (two, word) in r.deficits.chunks_mut(2).zip(&words[851..]) {
            (two[0], two[1]) = (*word as u32, (*word >> 32) as u32);
        }
        r
    }

    fn fields() -> Vec<String> {
        let common = COMMON_FIELDS.iter().map(|name| name.to_string());
        let order = (0..64).map(|i| format!("order[{i}]"));
        let flows = (0..768).map(|i| format!("{} of {}", FLOW_FIELDS[i % 12], i / 12));
        let deficits = (0..32).map(|i| format!("deficits[{}], [{}]", 2 * i + 1, 2 * i));
        common.chain(order).chain(flows).chain(deficits).collect()
    }

    /// All flows as one.
    #[rustfmt::skip]
    fn view(r: &Record, _: &Key) -> View {
        let c = &r.common;
        View { slots: c.slots, buffer: c.buffer, clock: c.clock, last: c.last, count: c.count, bytes: c.bytes,
            target: c.target, verdicts: c.verdicts, ..View::default() }
    }

    fn places(r: &Record) -> Vec<u64> {
        let holding = r.flows.iter().filter(|flow| flow.count > 0);
        holding.flat_map(|flow| [flow.head, flow.tail]).chain([r.common.freed]).collect()
    }

    fn model(side: &mut Side, call: &Call) -> Result<u32, u32> {
        if let What::Arrival(_) = call.what {
            side.flow = flow_of(&call.to, side.state.common.salt as u32) as u32;
        }
        let (r, (handles, sizes)) = side.lend(call.lent);
        match call.what {
            What::Fresh(settings) => {
                let (answer, made) = fresh(&settings);
                *r = made;
                answer.map(|()| 0)
            }
            What::Arrival(p) => {
                let (tables, packet) = ((handles, sizes), arriving(&p));
                let verdict = arrival(r, tables, call.clock, &call.to, &packet)?;
                Ok(verdict as u32)
            }
            What::Departure => {
                let (flow, handle, size) = departure(r, (&*handles, sizes), call.clock)?;
                side.packet = Packet { flow, handle, size };
                Ok(0)
            }
            What::Tick(_) => tick(r, call.clock).map(|()| 0),
        }
    }

    fn model_formed(r: &Record, _: &Key) -> bool {
        well_formed(r)
    }

    fn applying(before: &Side, call: &Call) -> Refusals {
        let (r, clock, tables) = (&before.state, call.clock, before.tables(call.lent));
        widened(match call.what {
            What::Fresh(settings) => fresh_refusals(&settings),
            What::Arrival(p) => arrival_refusals(r, tables, clock, &call.to, &arriving(&p)),
            What::Departure => departure_refusals(r, tables, clock),
            What::Tick(_) => tick_refusals(r, clock),
        })
    }

    #[rustfmt::skip]
    fn library(m: &Memory, call: &Call) -> u32 {
        let ([common, order, flows, deficits], clock) = (m.parts, call.clock);
        let (h, hl, s, sl) = (m.handles, m.handles_len, m.sizes, m.sizes_len);
        unsafe {
            match call.what {
                What::Fresh(a) => obikuteru_fq_fresh_of(
                    common, order, flows, deficits, a.target, a.buffer, a.slots, a.salt, a.clock),
                What::Arrival(p) => obikuteru_fq_arrival_of(
                    common, order, flows, deficits, h, hl, s, sl, clock, m.argument, p.handle, p.size, p.ecn, p.u),
                What::Departure => obikuteru_fq_departure_of(common, order, flows, deficits, h, hl, s, sl, clock, m.packet),
                What::Tick(_) => obikuteru_fq_tick_of(common, order, flows, deficits, clock),
            }
        }
    }

    fn formed(m: &Memory, _: &Key) -> bool {
        let [common, order, flows, deficits] = m.parts;
        unsafe { obikuteru_fq_well_formed_of(common, order, flows, deficits) }
    }

    #[rustfmt::skip]
    fn burst(m: &Memory, _: &Key, calls: &[u32], answers: &mut [u64]) -> u32 {
        let [common, order, flows, deficits] = m.parts;
        let (c, cl, a, al) = (calls.as_ptr(), calls.len(), answers.as_mut_ptr(), answers.len());
        let (h, hl, s, sl) = (m.handles, m.handles_len, m.sizes, m.sizes_len);
        unsafe { obikuteru_fq_calls_of(common, order, flows, deficits, h, hl, s, sl, c, cl, a, al) }
    }

    fn argument(to: &Key) -> &[u8] {
        to
    }

    fn flow(key: *const u8, r: &Record) -> u32 {
        library_flow(key, r.common.salt as u32)
    }

    /// The order and the deficits are read at a tick.
    fn only_read(call: &Call) -> &'static [usize] {
        match call.what {
            What::Tick(_) => &[1, 3],
            _ => &[],
        }
    }
}
