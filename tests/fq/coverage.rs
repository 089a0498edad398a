//! What is counted of the flows.
//!
//! Pairs of refusals that can apply to one call together (those but 9 are evaluated on the raw fields,
//! even where the record is not well formed):
//!   arrival:   any two of 2, 3, 4, 7, 8, 9, but 2 and 9, 3 and 9, as the verdict needs a sound record
//!   departure: any two of 2, 3, 4, 6, 9, but 2 and 9, 6 and 9, as nothing is chosen then
//!   tick:      any two of 2, 4, 5
//! Refusal 1 stands alone: it is the only one of fresh.

use crate::edges::{ends, lists, refused, rules, store, totals};
use crate::flows::formed::*;
use crate::flows::rules::{decide, fresh};
use crate::flows::{Settings, FLOWS};
use crate::kind::{arriving, fresh_call, Call, Flows, Side, NOBODY};
use crate::model::numbers::BANDS;
use crate::model::tick::{queueing_delay, step};
use crate::model::Queue;
use crate::shared::coverage::{list, About, Covered, Found, List, BOTH, QUEUE_RULES, SINGLE};
use crate::shared::groups::owned;
use crate::shared::kind::{Arriving, Lent, What, CALLS};
use crate::shared::report;

pub const OTHERS_SLOT: usize = 0;
pub const SHARED_FLOW: usize = 1;
pub const EMPTY_TICKS: usize = 2;
pub const ARRIVAL_AFTER_TICKS: usize = 3;

fn flow_of_condition(place: usize) -> Option<usize> {
    match place {
        AT_FLOWS..AT_LISTS => Some((place - AT_FLOWS) / FLOW_CONDITIONS),
        AT_DEFICITS.. => Some(place - AT_DEFICITS),
        _ => None,
    }
}

/// A flow before and after a call.
fn called(before: &Side, after: &Side, flow: u32) -> [Queue; 2] {
    [before.state.queue(flow as usize), after.state.queue(flow as usize)]
}

fn arrived(before: &Side, after: &Side) -> [Queue; 2] {
    called(before, after, after.flow)
}

fn left(before: &Side, after: &Side) -> [Queue; 2] {
    called(before, after, after.packet.flow)
}

/// What a tick does to at least one flow.
fn ticks(before: &Side, after: &Side) -> Found {
    let mut all = rules::tick(&called(before, after, 0));
    for flow in 1..FLOWS as u32 {
        let found = rules::tick(&called(before, after, flow));
        for (label, (_, happened)) in all.iter_mut().zip(found) {
            label.1 |= happened;
        }
    }
    all
}

impl Covered for Flows {
    const VERDICTS: [&'static str; 5] = report::VERDICTS;
    const RULES: &'static [&'static str] = QUEUE_RULES;
    const APPLY: [&'static [usize]; 4] = [&[1], &[2, 3, 4, 7, 8, 9], &[2, 3, 4, 6, 9], &[2, 4, 5]];
    const APART: [&'static [(usize, usize)]; 4] = [&[], &[(2, 9), (3, 9)], &[(2, 9), (6, 9)], &[]];
    const BANDS: &'static [(u64, i64)] = &BANDS;
    const RUN_EVENTS: (&'static str, &'static [&'static str]) = (
        "long runs",
        &[
            "a flow takes a slot that another left",
            "two senders in one flow",
            "1,000 ticks with an empty flow",
            "arrival within 150,000 of them",
        ],
    );
    const NO_BURST: &'static [&'static str] =
        &["ready: calm", "ready: turned active", "ready: turned inactive", "a flow above 15"];

    /// A flow with a count above the slots or bytes above the buffer breaks a total too. Of the flows, the
    /// first and the last must be reached, and one between stands for all others.
    fn conditions() -> Vec<String> {
        let never =
            |name: &str| name.ends_with(": count <= slots") || name.ends_with(": bytes <= buffer");
        let named = |(place, name): (usize, String)| match flow_of_condition(place) {
            Some(flow) if never(&name) || !matches!(flow, 0 | 1 | 63) => String::new(),
            Some(1) => name.replace("flow 1:", "a flow between:"),
            _ => name,
        };
        condition_names().into_iter().enumerate().map(named).collect()
    }

    fn holding(before: &Side, _: &Call) -> Option<Vec<bool>> {
        Some(conditions(&before.state).to_vec())
    }

    fn condition_label(place: usize) -> usize {
        match (flow_of_condition(place), place) {
            (Some(2..63), AT_DEFICITS..) => AT_DEFICITS + 1,
            (Some(2..63), _) => AT_FLOWS + FLOW_CONDITIONS + (place - AT_FLOWS) % FLOW_CONDITIONS,
            _ => place,
        }
    }

    fn rule(before: &Side, call: &Call, after: &Side) -> usize {
        decide(&before.state, after.flow as usize, &arriving(call.packet())).rule as usize
    }

    fn steps(before: &Side, _: &Call) -> Vec<(u64, i64)> {
        let step_of = |flow| {
            let q = before.state.queue(flow);
            (q.probability, step(&q, queueing_delay(&q)))
        };
        (0..FLOWS).map(step_of).collect()
    }

    fn more_groups() -> Vec<(&'static str, (bool, bool), Vec<String>)> {
        let served = (0..FLOWS).map(|flow| flow.to_string()).collect();
        vec![("accepted", BOTH, owned(&CALLS[1..])), ("flow served", BOTH, served)]
    }

    fn more(call: &Call, after: &Side) -> Vec<(usize, usize)> {
        match call.what {
            _ if after.answer >= 100 || call.is_fresh() => Vec::new(),
            What::Departure => vec![(0, 1), (1, after.packet.flow as usize)],
            _ => vec![(0, call.place() - 1)],
        }
    }

    #[rustfmt::skip]
    fn lists() -> Vec<List<Flows>> {
        let list = list::<Flows>;
        vec![
            list("arrival", About::Arrivals, SINGLE, |b, c, a| rules::arrival(&arrived(b, a), c.packet(), a.answer)),
            list("arrival, edges of rules", About::Arrivals, SINGLE,
                |b, c, a| rules::arrival_edges(&arrived(b, a), c.packet(), a.answer)),
            list("totals at an arrival", About::Arrivals, BOTH, totals::arrival),
            list("totals at an arrival, edges", About::Arrivals, SINGLE, totals::arrival_edges),
            list("lists at an arrival", About::Arrivals, BOTH, lists::arrival),
            list("place of an arrival", About::Arrivals, BOTH, store::entering),
            list("damage that an arrival does not see", About::Arrivals, SINGLE, store::entering_damaged),
            list("arrival refused by 9", About::WrongArrivals, SINGLE, refused::arrival),
            list("departure", About::Departures, SINGLE, |b, _, a| rules::departure(&left(b, a), a.packet.size)),
            list("departure, edges of rules", About::Departures, SINGLE,
                |b, _, a| rules::departure_edges(&left(b, a), a.packet.size)),
            list("choosing", About::Departures, BOTH, lists::choosing),
            list("choosing, edges", About::Departures, SINGLE, lists::choosing_edges),
            list("place of a departure", About::Departures, BOTH, store::leaving),
            list("damage that a departure does not see", About::Departures, SINGLE, store::leaving_damaged),
            list("departure refused by 6 or 9", About::RefusedDepartures, SINGLE, refused::departure),
            list("tick of some flow", About::Ticks, BOTH, |b, _, a| ticks(b, a)),
            list("end of a range", About::Sound, SINGLE, ends::ends),
            list("tables of whole pages", About::Sound, BOTH, ends::whole_pages),
        ]
    }

    fn sample() -> (Side, [Call; 4]) {
        let set = Settings { target: 15_000, buffer: 64_000, slots: 4, salt: 0, clock: 0 };
        let side = Side::new(fresh(&set).1, vec![0; 4], vec![0; 4]);
        let (lent, packet) = (Lent::both(4), Arriving { handle: 7, size: 100, ecn: false, u: 0 });
        let calls = [
            fresh_call(set),
            Call::arrival(NOBODY, lent, 0, packet),
            Call::departure(NOBODY, lent, 0),
            Call::tick(NOBODY, 15_000, 0),
        ];
        (side, calls)
    }
}
