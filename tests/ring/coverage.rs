//! What is counted of the queue.
//!
//! Pairs of refusals that can apply to one call together (others are evaluated on the raw fields
//! even where the state is not well formed):
//!   arrival:   any two of 2, 3, 4, 7, 8
//!   departure: any two of 2, 3, 4, 6, 9 but 6 and 9, as a count of 0 has no head
//!   tick:      any two of 2, 4, 5
//! Refusal 1 stands alone: it is the only one of fresh.

use crate::calm;
use crate::events;
use crate::kind::{arriving, Call, Ring, Side};
use crate::model::{self, Asked};
use crate::shared::coverage::{list, About, Covered, List, BOTH, SINGLE};
use crate::shared::groups::owned;
use crate::shared::kind::{Arriving, Lent};
use crate::shared::report;

impl Covered for Ring {
    const VERDICTS: [&'static str; 5] = report::VERDICTS;
    const RULES: &'static [&'static str] =
        &["1", "2", "inactive", "3", "4", "5", "sum below 0.85", "sum of 8.5 and more", "6", "7"];
    const APPLY: [&'static [usize]; 4] = [&[1], &[2, 3, 4, 7, 8], &[2, 3, 4, 6, 9], &[2, 4, 5]];
    const APART: [&'static [(usize, usize)]; 4] = [&[], &[], &[(6, 9)], &[]];
    const BANDS: &'static [(u64, i64)] = &model::BANDS;
    const BAND_ENDS: bool = true;
    const RUN_EVENTS: (&'static str, &'static [&'static str]) = (
        "event of long runs",
        &[
            "arrival after 1,000 ticks with an empty queue",
            "arrival at an inactive queue after 1,000 ticks with an empty queue",
            "turned active a second time",
        ],
    );
    const NO_BURST: &'static [&'static str] = &["a flow above 15"];

    fn conditions() -> Vec<String> {
        owned(&model::CONDITIONS)
    }

    fn holding(before: &Side, _: &Call) -> Option<Vec<bool>> {
        Some(model::conditions(&before.state).to_vec())
    }

    fn rule(before: &Side, call: &Call, _: &Side) -> usize {
        model::deciding_rule(&model::begun(&before.state), &arriving(call.packet())) as usize
    }

    fn steps(before: &Side, _: &Call) -> Vec<(u64, i64)> {
        let s = &before.state;
        match s.active {
            0 => Vec::new(),
            _ => vec![(s.probability, model::step(s, model::queueing_delay(s)))],
        }
    }

    #[rustfmt::skip]
    fn lists() -> Vec<List<Ring>> {
        let list = list::<Ring>;
        vec![
            list("measurement", About::Departures, BOTH, events::measurement),
            list("event", About::All, BOTH, events::events),
            list("event of single calls", About::All, SINGLE, events::singles),
            list("end of a range", About::Sound, SINGLE, events::ends),
            list("tables of whole pages", About::Accepted, BOTH, events::whole_pages),
            list("early packet beside one tenth", About::Arrivals, SINGLE, events::early),
            list("measurement, few packets left", About::Departures, SINGLE, events::given_up),
            list("sum of probabilities", About::Arrivals, SINGLE, events::sums),
            list("calm profile", About::All, BOTH, |b, c, a| events::named(&calm::CALM_EVENTS, calm::found(b, c, a).0)),
            list("calm profile, edges", About::All, SINGLE, |b, c, a| events::named(&calm::CALM_EDGES, calm::found(b, c, a).1)),
        ]
    }

    fn sample() -> (Side, [Call; 4]) {
        let asked = Asked { target: 15_000, buffer: 64_000, slots: 4, profile: 0, clock: 0 };
        let side = Side::new(model::fresh(&asked).1, vec![0; 4], vec![0; 4]);
        let (lent, packet) = (Lent::both(4), Arriving { handle: 7, size: 100, ecn: false, u: 0 });
        let calls = [
            Call::fresh((), asked, 0),
            Call::arrival((), lent, 0, packet),
            Call::departure((), lent, 0),
            Call::tick((), 15_000, 0),
        ];
        (side, calls)
    }
}
