//! What is counted of the pair.
//!
//! Pairs of refusals that can apply to one call together (those but 9 of an arrival are evaluated
//! on the raw fields, even where the records are not well formed):
//!   arrival:   any two of 2, 3, 4, 7, 8, 9, but 2 and 9, 3 and 9, as the verdict needs sound records
//!   departure: any two of 2, 3, 4, 6, 9, but 6 and 9, as a count of 0 has no head
//!   tick:      any two of 2, 4, 5
//! Refusal 1 stands alone: it is the only one of fresh.

use crate::edges::{ends, refused, rules, store};
use crate::kind::{arriving, fresh_call, Call, Side, Two, QUEUES};
use crate::model::arrival::decide;
use crate::model::formed::{condition_names, conditions};
use crate::model::fresh::fresh;
use crate::model::numbers::BANDS;
use crate::model::tick::{queueing_delay, step};
use crate::model::{Queue, Settings};
use crate::shared::coverage::{by_queue, list, About, Covered, List, BOTH, QUEUE_RULES, SINGLE};
use crate::shared::kind::{Arriving, Lent, CALLS};

/// The called queue before and after.
fn called(before: &Side, call: &Call, after: &Side) -> [Queue; 2] {
    [before.state.queues[call.to], after.state.queues[call.to]]
}

impl Covered for Two {
    const VERDICTS: [&'static str; 5] =
        ["enqueued", "marked", "dropped-bytes", "dropped-slots", "dropped-early"];
    const RULES: &'static [&'static str] = QUEUE_RULES;
    const QUEUES: &'static [&'static str] = &QUEUES;
    const APPLY: [&'static [usize]; 4] = [&[1], &[2, 3, 4, 7, 8, 9], &[2, 3, 4, 6, 9], &[2, 4, 5]];
    const APART: [&'static [(usize, usize)]; 4] = [&[], &[(2, 9), (3, 9)], &[(6, 9)], &[]];
    const BANDS: &'static [(u64, i64)] = &BANDS;
    const RUN_EVENTS: (&'static str, &'static [&'static str]) = (
        "long runs",
        &[
            "the passengers take a slot that the intercom left",
            "the intercom takes a slot that the passengers left",
            "the intercom answers as if alone",
            "the passengers answer as if alone",
            "alone, early verdict",
            "alone, dropped by slots elsewhere",
            "1,000 ticks with an empty queue",
            "arrival within 150,000 of them",
        ],
    );
    const NO_BURST: &'static [&'static str] =
        &["ready: calm", "ready: turned active", "ready: turned inactive", "a flow above 15"];

    /// That a count is above the slots cannot be the only condition broken.
    fn conditions() -> Vec<String> {
        let alone =
            |name: String| if name.ends_with("count <= slots") { String::new() } else { name };
        condition_names().into_iter().map(alone).collect()
    }

    fn holding(before: &Side, _: &Call) -> Option<Vec<bool>> {
        Some(conditions(&before.state).to_vec())
    }

    fn rule(before: &Side, call: &Call, _: &Side) -> usize {
        decide(&before.state, call.to, &arriving(call.packet())).rule as usize
    }

    fn queue(to: &usize) -> usize {
        *to
    }

    fn steps(before: &Side, call: &Call) -> Vec<(u64, i64)> {
        let q = &before.state.queues[call.to];
        vec![(q.probability, step(q, queueing_delay(q)))]
    }

    fn more_groups() -> Vec<(&'static str, (bool, bool), Vec<String>)> {
        vec![("accepted", BOTH, by_queue::<Two>(&CALLS[1..]))]
    }

    fn more(call: &Call, after: &Side) -> Vec<(usize, usize)> {
        match after.answer < 100 && !call.is_fresh() {
            true => vec![(0, 3 * call.to + call.place() - 1)],
            false => Vec::new(),
        }
    }

    #[rustfmt::skip]
    fn lists() -> Vec<List<Two>> {
        let list = list::<Two>;
        vec![
            list("arrival", About::Arrivals, BOTH, |b, c, a| rules::arrival(&called(b, c, a), c.packet(), a.answer)),
            list("arrival, edges of rules", About::Arrivals, SINGLE,
                |b, c, a| rules::arrival_edges(&called(b, c, a), c.packet(), a.answer)),
            list("slots at an arrival", About::Arrivals, BOTH, store::slots),
            list("place of an arrival", About::Arrivals, BOTH, store::entering),
            list("damage that an arrival does not see", About::Arrivals, SINGLE, store::entering_damaged),
            list("arrival refused by 9", About::WrongArrivals, SINGLE, refused::arrival),
            list("departure", About::Departures, BOTH, |b, c, a| rules::departure(&called(b, c, a), a.packet.size)),
            list("departure, edges of rules", About::Departures, SINGLE,
                |b, c, a| rules::departure_edges(&called(b, c, a), a.packet.size)),
            list("place of a departure", About::Departures, BOTH, store::leaving),
            list("damage that a departure does not see", About::Departures, SINGLE, store::leaving_damaged),
            list("departure refused by 9", About::WrongDepartures, SINGLE, refused::departure),
            list("tick", About::Ticks, BOTH, |b, c, a| rules::tick(&called(b, c, a))),
            list("end of a range", About::Sound, SINGLE, ends::ends),
            list("tables of whole pages", About::Sound, BOTH, ends::whole_pages),
        ]
    }

    fn sample() -> (Side, [Call; 4]) {
        let set = Settings { target: 15_000, buffer: 64_000, reserve: 1, clock: 0 };
        let side = Side::new(fresh(4, [set, set]).1, vec![0; 4], vec![0; 4]);
        let (lent, packet) = (Lent::both(4), Arriving { handle: 7, size: 100, ecn: false, u: 0 });
        let calls = [
            fresh_call(4, [set, set]),
            Call::arrival(0, lent, 0, packet),
            Call::departure(0, lent, 0),
            Call::tick(0, 15_000, 0),
        ];
        (side, calls)
    }
}
