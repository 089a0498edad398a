//! Long runs of a whole modem: sixteen flows from fresh, called in any order, with one table of
//! counts. Record, tables and counts go back to each call as the last one left them.

use crate::kind::{self, Call, Modem, Side};
use crate::model::numbers::{CLOCK_MAX, COUNTS_MAX};
use crate::model::{Counts, Settings, State};
use crate::plans::{self, Plan};
use crate::shadow::Shadow;
use crate::shared::coverage::Coverage;
use crate::shared::flow::Flow;
use crate::shared::kind::Arriving;
use crate::shared::lend::Lender;
use crate::shared::numbers::split;
use crate::shared::pair::{Failure, Pair};
use crate::shared::random::Random;
use crate::shared::runs::{next_phase, phase_calls, Run, Running};
use crate::shared::traffic::{Phase, Traffic};
use std::mem::swap;

/// Calls of one run.
const CALLS: u64 = 60_000;

/// The flows of the modem, and the counts that they share.
pub struct Watch {
    flows: Vec<Own>,
    counts: Counts,
}

/// What is kept of one flow: both sides of its memory, the answers so far, and the flow alone.
struct Own {
    model: Side,
    library: Side,
    shadow: Shadow,
    alone: Side,
}

impl Running for Modem {
    type Plan = Plan;
    type Watch = Watch;
    const PLANS: u64 = plans::KINDS;
    const ODD_CALLS: u64 = 13;
    const EARLY_TICKS: u64 = 8;

    fn traffic(plan: &Plan) -> Traffic {
        plan.traffic
    }

    fn weight(plan: &Plan) -> u64 {
        plan.weight
    }

    fn next_phase(r: &mut Random, _: &Plan, phase: Phase) -> Phase {
        next_phase(r, phase)
    }

    fn phase_calls(r: &mut Random, phase: Phase, count: u64) -> u64 {
        phase_calls(r, phase, count, 0)
    }

    fn next_size(side: &Side, _: &u32) -> u32 {
        side.sizes[side.state.first as usize]
    }

    fn run_packet(r: &mut Random, plan: &Plan) -> Arriving {
        let handle = r.number() as u32;
        let size = plan.traffic.size(r);
        kind::packet(handle, size, plan.traffic.u(r))
    }

    fn run_credits(r: &mut Random, state: &kind::State) -> u32 {
        let bytes = state.bytes;
        let some = r.range(0, bytes) as u32;
        r.pick(&[0, 0, 0, 0, some, some, bytes as u32, u32::MAX])
    }

    /// A flow that no modem has.
    fn odd_to(r: &mut Random, _: u32) -> u32 {
        r.pick(&[16, 17, u32::MAX])
    }

    /// A fresh one, or a tick at the last clock of all.
    fn odd_call(
        r: &mut Random,
        number: u64,
        flow: &Flow<Modem>,
        state: &kind::State,
        early: Call,
    ) -> Option<Call> {
        match state.clock {
            _ if number != 11 => None,
            clock if clock == CLOCK_MAX || r.one_in(20) => {
                let clock = r.pick(&[clock, flow.plan.clock]);
                Some(Call::fresh(flow.to, flow.plan.settings, clock))
            }
            clock if clock > CLOCK_MAX - 10_000_000 => Some(Call { clock: CLOCK_MAX, ..early }),
            _ => None,
        }
    }

    fn begin<'a>(
        r: &'a mut Random,
        turn: u64,
        lender: &'a mut Lender,
        coverage: &'a mut Coverage<Modem>,
    ) -> Result<Run<'a, Modem>, Failure<Modem>> {
        let nobody = kind::side(State::default(), [[0; 5]; 16], Vec::new(), Vec::new());
        let counts = std::array::from_fn(|_| std::array::from_fn(|_| r.number()));
        let (pair, watch) = (Pair::new(&nobody, lender), Watch { flows: Vec::new(), counts });
        let mut run = Run { r, pair, flows: Vec::new(), watch, coverage, calls: CALLS };
        for number in 0..16 {
            run.begin_flow(number, (u64::from(number) + turn) % plans::KINDS)?;
        }
        Ok(run)
    }

    fn swap(run: &mut Run<Modem>, place: usize, inward: bool) {
        let (pair, own) = (&mut run.pair, &mut run.watch.flows[place]);
        if !inward {
            run.watch.counts = pair.library.state.counts;
        }
        swap(&mut pair.model, &mut own.model);
        swap(&mut pair.library, &mut own.library);
        if inward {
            let counts = run.watch.counts;
            pair.change(|side| side.state.counts = counts);
        }
    }

    fn follow(run: &mut Run<Modem>, place: usize, call: &Call) -> Result<(), String> {
        let own = &mut run.watch.flows[place];
        own.shadow.follow(call, &run.pair.before, &run.pair.library)?;
        follow_alone(&mut own.alone, call, &run.pair.library)
    }
}

impl Run<'_, Modem> {
    /// Refused fresh calls, then an accepted one. Runs with few arrivals left then go on from a row
    /// of large counts, as if it were restored after 2^48 arrivals less those.
    fn begin_flow(&mut self, number: u32, kind: u64) -> Result<(), Failure<Modem>> {
        let plan = plans::plan(self.r, kind);
        let length = plan.settings.slots as usize + 1;
        let (fill, counts) = (self.r.number() as u32, self.watch.counts);
        let tables = (vec![fill; length], vec![!fill; length]);
        let start = kind::side(State::default(), counts, tables.0, tables.1);
        self.pair.change(|side| *side = start.clone());
        let wrong = Settings { peak: 0, ..plan.settings };
        for (flow, settings) in [
            (16, plan.settings),
            (17, plan.settings),
            (u32::MAX, wrong),
            (number, wrong),
            (number, plan.settings),
        ] {
            self.pair.noted(&Call::fresh(flow, settings, plan.clock), self.coverage)?;
        }
        if plan.arrivals_left > 0 {
            let row = split(self.r, COUNTS_MAX - plan.arrivals_left);
            self.pair.library.state.counts[number as usize] = row;
        }
        self.watch.counts = self.pair.library.state.counts;
        let (model, library) = (self.pair.model.clone(), self.pair.library.clone());
        let row = self.watch.counts[number as usize];
        let (shadow, mut alone) = (Shadow::new(library.state.clock, row), library.clone());
        alone.state.counts = [[u64::MAX; 5]; 16];
        alone.state.counts[number as usize] = row;
        self.watch.flows.push(Own { model, library, shadow, alone });
        let slots = plan.settings.slots;
        let clock = plan.clock;
        self.flows.push(Flow::new(number, plan, slots, clock));
        Ok(())
    }
}

/// Runs the call on the flow alone too, whose table of counts holds nothing sound but its own row:
/// whatever the other flows do, it gives the answers that the flow among them gives.
fn follow_alone(alone: &mut Side, call: &Call, among: &Side) -> Result<(), String> {
    Lender::own().call::<Modem>(alone, call);
    let flow = (call.to as usize).min(15);
    let same = alone.answer == among.answer
        && alone.packet == among.packet
        && alone.state.record == among.state.record
        && (call.to > 15 || alone.state.counts[flow] == among.state.counts[flow])
        && alone.handles == among.handles
        && alone.sizes == among.sizes;
    match same {
        true => Ok(()),
        false => {
            Err("alone, with other rows in the table of counts, the flow answers otherwise".into())
        }
    }
}
