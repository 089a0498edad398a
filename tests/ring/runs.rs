//! Long runs of the queue, and the rules that hold over a whole run.

use crate::kind::{Call, Ring, Side};
use crate::model::{Asked, State, CLOCK_MAX};
use crate::plans::{self, Plan};
use crate::shared::coverage::Coverage;
use crate::shared::flow::Flow;
use crate::shared::kind::{Arriving, Kind, What};
use crate::shared::lend::Lender;
use crate::shared::numbers::split;
use crate::shared::pair::{Failure, Pair};
use crate::shared::random::Random;
use crate::shared::runs::{Run, Running};
use crate::shared::shadow::{sound, Shadow};
use crate::shared::traffic::{Phase, Traffic};

/// What is kept of a run beside its queue.
pub struct Watch {
    shadow: Shadow,
    verdicts: [u64; 5],
    clock: u64,
    /// How often the queue turned active, and the end of the time after it in which nothing is
    /// dropped early.
    activations: u64,
    grace_until: u64,
}

impl Running for Ring {
    type Plan = Plan;
    type Watch = Watch;
    const PLANS: u64 = plans::KINDS;
    const WHOLE_PHASES: bool = true;
    const ODD_CALLS: u64 = 8;
    const EARLY_TICKS: u64 = 8;

    fn traffic(plan: &Plan) -> Traffic {
        plan.traffic
    }

    fn next_phase(r: &mut Random, _: &Plan, phase: Phase) -> Phase {
        match phase {
            Phase::Quiet => Phase::Burst,
            _ => r.pick(&plans::PHASES),
        }
    }

    fn phase_calls(r: &mut Random, phase: Phase, count: u64) -> u64 {
        match phase {
            Phase::Quiet => count + 1_300,
            Phase::Idle => r.range(50, 500),
            _ => r.range(200, 2_000),
        }
    }

    fn next_size(side: &Side, _: &()) -> u32 {
        side.sizes[side.state.first as usize]
    }

    fn run_packet(r: &mut Random, plan: &Plan) -> Arriving {
        let handle = r.number() as u32;
        let size = plan.traffic.size(r);
        let ecn = r.range(1, 100) <= plan.ecn;
        Arriving { handle, size, ecn, u: plan.traffic.u(r) }
    }

    /// Two refused calls of fresh, then an accepted one. Runs with few arrivals left then go on from a
    /// record with large counts, as if it were restored after 2^48 arrivals less those.
    fn begin<'a>(
        r: &'a mut Random,
        turn: u64,
        lender: &'a mut Lender,
        coverage: &'a mut Coverage<Ring>,
    ) -> Result<Run<'a, Ring>, Failure<Ring>> {
        let plan = plans::plan(r, turn % plans::KINDS);
        let length = plan.slots as usize + 1;
        let fill = r.number() as u32;
        let start = Side::new(State::default(), vec![fill; length], vec![!fill; length]);
        let mut pair = Pair::new(&start, lender);
        let Plan { target, buffer, slots, profile, clock, calls, .. } = plan;
        for (target, profile) in [(999, profile), (target, 2), (target, profile)] {
            let asked = Asked { target, buffer, slots, profile, clock };
            pair.noted(&Call::fresh((), asked, clock), coverage)?;
        }
        if plan.arrivals_left > 0 {
            let counts = split(r, CLOCK_MAX - plan.arrivals_left);
            pair.change(|side| side.state.verdicts = counts);
        }
        let watch = Watch {
            shadow: Shadow::default(),
            verdicts: pair.library.state.verdicts,
            clock: pair.library.state.clock,
            activations: 0,
            grace_until: 0,
        };
        let flows = vec![Flow::new((), plan, slots, clock)];
        Ok(Run { r, pair, flows, watch, coverage, calls })
    }

    fn follow(run: &mut Run<Ring>, _: usize, call: &Call) -> Result<(), String> {
        let Pair { before, library, .. } = &run.pair;
        let quiet_until = run.watch.shadow.quiet_until;
        run.watch.follow(call, &before.state, library)?;
        let inactive = before.state.active == 0;
        if let What::Arrival(_) = call.what {
            let quiet = library.answer < 100 && library.state.clock < quiet_until;
            let again = inactive && run.watch.activations == 2;
            for (event, happened) in [quiet, quiet && inactive, again].into_iter().enumerate() {
                if happened {
                    run.coverage.note_run_event(event);
                }
            }
        }
        Ok(())
    }
}

impl Watch {
    fn follow(&mut self, call: &Call, before: &State, after: &Side) -> Result<(), String> {
        sound(after.well_formed, after.answer)?;
        let state = &after.state;
        if state.measuring != 0 && state.counted + state.bytes < 16_384 {
            return Err("a measurement runs that the queued bytes cannot bring to its end".into());
        }
        if after.answer < 100 {
            self.clock = call.clock;
            match call.what {
                What::Arrival(packet) => {
                    self.activity(before, after)?;
                    self.arrived(&packet, before, after.answer)?;
                }
                What::Departure => {
                    self.shadow.packets.leave((after.packet.handle, after.packet.size))?
                }
                What::Tick(_) => self.ticked(before, after)?,
                What::Fresh(_) => {}
            }
        }
        if state.active == 0 && state.profile != 1 {
            return Err("a plain queue is inactive".into());
        }
        self.shadow.agrees(&Ring::view(state, &()), self.clock, &self.verdicts)
    }

    /// An arrival turns a queue active exactly where it finds it inactive with more than a third of
    /// the buffer queued. Inactive, and for 150 ms after it turned active, nothing is early.
    fn activity(&mut self, before: &State, after: &Side) -> Result<(), String> {
        let turns = before.active == 0 && before.bytes > before.buffer / 3;
        if turns {
            self.activations += 1;
            self.grace_until = self.clock + 150_000;
            self.shadow.accumulated = 0;
        }
        if (after.state.active != 0) != (turns || before.active != 0) {
            return Err("an arrival turned the queue active wrongly, or did not".into());
        }
        let early = after.answer == 1 || after.answer == 4;
        if early && (after.state.active == 0 || self.clock < self.grace_until) {
            return Err("early at an inactive queue or within 150 ms after it turned active".into());
        }
        Ok(())
    }

    fn arrived(&mut self, packet: &Arriving, before: &State, verdict: u32) -> Result<(), String> {
        self.verdicts[verdict as usize] += 1;
        let room = before.bytes + u64::from(packet.size) <= before.buffer;
        let place = (room, before.count < before.slots);
        let (q, handed) = (Ring::view(before, &()), (packet.handle, packet.size));
        self.shadow.arrived(&q, handed, (self.clock, verdict), place)
    }

    fn ticked(&mut self, before: &State, after: &Side) -> Result<(), String> {
        let same = State { clock: self.clock, last: self.clock, ..*before };
        if before.active == 0 && after.state != same {
            return Err("a tick of an inactive queue changed more than clock and last tick".into());
        }
        self.shadow.ticked(self.clock, after.state.probability)
    }
}
