//! Long runs of the flows from fresh: packets of many senders come, and a link takes them away. What
//! holds over a whole run is checked without the model, by two lists, as the page has them.

use crate::coverage::{ARRIVAL_AFTER_TICKS, EMPTY_TICKS, OTHERS_SLOT, SHARED_FLOW};
use crate::flows::hash::Key;
use crate::flows::schedule::choose;
use crate::flows::{Record, Settings};
use crate::kind::{fresh_call, Call, Flows, Side, NOBODY};
use crate::model::numbers::COUNTS_MAX;
use crate::model::store::size_of;
use crate::plans::{self, Plan};
use crate::shadow::Watch;
use crate::shared::chains::stored;
use crate::shared::coverage::Coverage;
use crate::shared::flow::Flow;
use crate::shared::kind::{Arriving, What};
use crate::shared::lend::Lender;
use crate::shared::numbers::split;
use crate::shared::pair::{Failure, Pair};
use crate::shared::random::Random;
use crate::shared::runs::{next_phase, phase_calls, Run, Running};
use crate::shared::traffic::{Phase, Traffic, EAGER};

/// Calls of one run, and of one with 65,536 slots.
const CALLS: (u64, u64) = (20_000, 3_000);

impl Running for Flows {
    type Plan = Plan;
    type Watch = Watch;
    const PLANS: u64 = plans::KINDS;
    const SENDERS: bool = true;

    fn traffic(plan: &Plan) -> Traffic {
        plan.traffic
    }

    fn next_phase(r: &mut Random, plan: &Plan, phase: Phase) -> Phase {
        match plan.eager {
            true => r.pick(&EAGER),
            false => next_phase(r, phase),
        }
    }

    fn phase_calls(r: &mut Random, phase: Phase, count: u64) -> u64 {
        phase_calls(r, phase, count, 4)
    }

    fn next_size(side: &Side, _: &Key) -> u32 {
        let head = side.state.flows[choose(&side.state).flow].head;
        size_of(side.sizes[head as usize])
    }

    fn run_packet(r: &mut Random, plan: &Plan) -> Arriving {
        let (handle, size) = (r.number() as u32, plan.traffic.size(r));
        Arriving { handle, size, ecn: r.one_in(2), u: plan.traffic.u(r) }
    }

    fn sender(r: &mut Random, plan: &Plan, _: &Key) -> Key {
        plan.key(r)
    }

    /// A refused fresh call, then an accepted one. Runs with few arrivals left then go on from large
    /// counts, as if they were restored after 2^48 arrivals less those.
    fn begin<'a>(
        r: &'a mut Random,
        turn: u64,
        lender: &'a mut Lender,
        coverage: &'a mut Coverage<Flows>,
    ) -> Result<Run<'a, Flows>, Failure<Flows>> {
        let plan = plans::plan(r, turn % plans::KINDS);
        let Settings { slots, clock, .. } = plan.settings;
        let mut fill = || (0..=slots).map(|_| r.number() as u32).collect();
        let start = Side::new(Record::zero(), fill(), fill());
        let mut pair = Pair::new(&start, lender);
        for settings in [Settings { target: 0, ..plan.settings }, plan.settings] {
            pair.noted(&fresh_call(settings), coverage)?;
        }
        if plan.arrivals_left > 0 {
            let counts = split(r, COUNTS_MAX - plan.arrivals_left);
            pair.change(|side| side.state.common.verdicts = counts);
        }
        let watch = Watch::new(&pair.library.state);
        let calls = if slots == 65_536 { CALLS.1 } else { CALLS.0 };
        let flows = vec![Flow::new(NOBODY, plan, slots, clock)];
        Ok(Run { r, pair, flows, watch, coverage, calls })
    }

    fn follow(run: &mut Run<Flows>, _: usize, call: &Call) -> Result<(), String> {
        let Pair { before, library, .. } = &run.pair;
        let quiet_until = run.watch.flows[library.flow as usize].queue.quiet_until;
        run.watch.follow(call, before, library)?;
        if let (What::Arrival(_), 0..=99) = (&call.what, library.answer) {
            if call.clock < quiet_until {
                run.coverage.note_run_event(ARRIVAL_AFTER_TICKS);
            }
            let sender = run.watch.senders[library.flow as usize].replace(call.to);
            if sender.map_or(false, |sender| sender != call.to) {
                run.coverage.note_run_event(SHARED_FLOW);
            }
        }
        if matches!(call.what, What::Tick(_)) && run.watch.flows[0].queue.empty_ticks == 1_000 {
            run.coverage.note_run_event(EMPTY_TICKS);
        }
        let c = &library.state.common;
        if c.used < 8 || run.r.one_in(c.used) {
            let ends = library.state.flows.iter().map(|f| (f.head, f.tail));
            let queues = run.watch.flows.iter().map(|own| &own.queue.packets).zip(ends);
            stored(queues, (c.used, c.freed, c.spare), &library.handles, &library.sizes)?;
        }
        if run.watch.takes_others_slot(before, library) {
            run.coverage.note_run_event(OTHERS_SLOT);
        }
        Ok(())
    }
}

impl Watch {
    /// Which flow left a slot last, and whether another takes it now.
    fn takes_others_slot(&mut self, before: &Side, after: &Side) -> bool {
        let (was, now) = (before.state.common.count, after.state.common.count);
        if now > was {
            let flow = after.flow as usize;
            let place = after.state.flows[flow].tail as usize;
            return self.left_by[place].map_or(false, |other| other != flow);
        }
        if now < was {
            let flow = after.packet.flow as usize;
            self.left_by[before.state.flows[flow].head as usize] = Some(flow);
        }
        false
    }
}
