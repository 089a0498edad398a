//! What is counted of the modem.
//!
//! Pairs of refusals that can apply to one call together (others are evaluated on the raw fields
//! even where the record is not well formed):
//!   fresh:     1 and 10
//!   arrival:   any two of 2, 3, 4, 7, 8, 10, but 8 and 10, as a flow above 15 has no row
//!   departure: any two of 2, 3, 4, 6, 9, 10, but 6 and 9, as a count of 0 has no head
//!   tick:      any two of 2, 4, 5, 10

use crate::edges::{arrival, departure, ends, tick};
use crate::kind::{arriving, packet, side, Call, Modem, Side};
use crate::model::{self, Settings, State};
use crate::shared::coverage::{list, About, Covered, List, BOTH, SINGLE};
use crate::shared::groups::owned;
use crate::shared::kind::{Lent, What, CALLS};

/// Flows that no modem has.
const WRONG_FLOWS: [u32; 3] = [16, 17, u32::MAX];

/// The rules that give a verdict.
const NUMBERS: [usize; 10] = [1, 2, 3, 5, 9, 10, 11, 12, 13, 14];

fn credits(call: &Call) -> u32 {
    match call.what {
        What::Tick(credits) => credits,
        _ => 0,
    }
}

impl Covered for Modem {
    const VERDICTS: [&'static str; 5] =
        ["enqueued", "", "dropped, bytes", "dropped, slots", "dropped, early"];
    const RULES: &'static [&'static str] = &["1", "2", "3", "5", "9", "10", "11", "12", "13", "14"];
    const APPLY: [&'static [usize]; 4] =
        [&[1, 10], &[2, 3, 4, 7, 8, 10], &[2, 3, 4, 6, 9, 10], &[2, 4, 5, 10]];
    const APART: [&'static [(usize, usize)]; 4] = [&[], &[(8, 10)], &[(6, 9)], &[]];
    const BANDS: &'static [(u64, i64)] = &model::numbers::BANDS;
    const BAND_ENDS: bool = true;
    const RUN_EVENTS: (&'static str, &'static [&'static str]) = ("", &[]);
    const NO_BURST: &'static [&'static str] = &["ready: calm", "ready: marked"];

    fn conditions() -> Vec<String> {
        owned(&model::CONDITIONS)
    }

    /// Those of a flow that has a row.
    fn holding(before: &Side, call: &Call) -> Option<Vec<bool>> {
        let s = &before.state;
        let row = s.counts.get(call.to as usize)?;
        Some(model::conditions(&s.record, row).to_vec())
    }

    fn rule(before: &Side, call: &Call, _: &Side) -> usize {
        let rule = model::decide(&mut before.state.record.clone(), &arriving(call.packet())).rule;
        NUMBERS.iter().position(|&number| number == rule).unwrap_or(0)
    }

    fn steps(before: &Side, call: &Call) -> Vec<(u64, i64)> {
        let s = &before.state.record;
        if s.allowance > 0 {
            return Vec::new();
        }
        vec![(s.probability, model::step(s, model::queueing_delay(s, credits(call))))]
    }

    /// A label for each flow and each kind of call.
    fn more_groups() -> Vec<(&'static str, (bool, bool), Vec<String>)> {
        let named = |flows: &[u32]| -> Vec<String> {
            let of = |flow: &u32| CALLS.map(|name| format!("{name} of flow {flow}"));
            flows.iter().flat_map(of).collect()
        };
        let flows: Vec<u32> = (0..16).collect();
        vec![
            ("accepted for each flow", BOTH, named(&flows)),
            ("flows above 15", BOTH, named(&WRONG_FLOWS)),
        ]
    }

    fn more(call: &Call, after: &Side) -> Vec<(usize, usize)> {
        let wrong = WRONG_FLOWS.iter().position(|&flow| flow == call.to);
        let wrong = wrong.map(|place| (1, 4 * place + call.place()));
        let accepted = (after.answer < 100).then(|| (0, 4 * call.to as usize + call.place()));
        wrong.into_iter().chain(accepted).collect()
    }

    #[rustfmt::skip]
    fn lists() -> Vec<List<Modem>> {
        let list = list::<Modem>;
        vec![
            list("arrival", About::Arrivals, BOTH, |b, c, a| arrival::events(&b.state, c.packet(), a)),
            list("arrival, rules 1 to 6", About::Arrivals, SINGLE, |b, c, a| arrival::early_edges(&b.state, c.packet(), a)),
            list("arrival, rules 7 to 14", About::Arrivals, SINGLE, |b, c, a| arrival::late_edges(&b.state, c.packet(), a)),
            list("departure", About::Departures, BOTH, |b, _, a| departure::events(&b.state, &a.state)),
            list("departure, sizes that just fit", About::Departures, SINGLE, |_, _, a| departure::edges(&a.state)),
            list("departure, heads refused", About::WrongDepartures, SINGLE, |b, _, _| departure::wrong_head(b)),
            list("tick", About::Ticks, BOTH, |b, c, a| tick::events(&b.state, credits(c), &a.state)),
            list("tick, rules 1 and 2", About::Ticks, SINGLE, |b, c, a| tick::early_edges(&b.state, credits(c), &a.state)),
            list("tick, rules 3 to 8", About::Ticks, SINGLE, |b, c, a| tick::probability_edges(&b.state, credits(c), &a.state)),
            list("tick, rules 9 to 12", About::Ticks, SINGLE, |b, c, a| tick::activity_edges(&b.state, credits(c), &a.state)),
            list("end of a range", About::Sound, SINGLE, |b, c, _| ends::ends(b, c)),
            list("tables of whole pages", About::Accepted, BOTH, |b, c, a| ends::whole_pages(&b.state, c, &a.state)),
        ]
    }

    fn sample() -> (Side, [Call; 4]) {
        let settings = Settings { target: 10_000, buffer: 9, slots: 2, peak: 1, sustained: 1 };
        let state = State { settings, count: 1, bytes: 1, ..State::default() };
        let (lent, side) = (Lent::both(2), side(state, [[0; 5]; 16], vec![1; 2], vec![1; 2]));
        let calls = [
            Call::fresh(0, settings, 0),
            Call::arrival(0, lent, 0, packet(0, 1, 0)),
            Call::departure(0, lent, 0),
            Call::tick(0, 16_000, 0),
        ];
        (side, calls)
    }
}
