//! Long runs of a pair from fresh: both queues called in any order, each by its own clock. What holds
//! over a whole run is checked without the model.

use crate::alone::Alone;
use crate::kind::{fresh_call, Call, Side, Two};
use crate::model::arrival::no_slot;
use crate::model::numbers::COUNTS_MAX;
use crate::model::store::size_of;
use crate::model::{Records, Settings};
use crate::plans::{self, Plan};
use crate::shared::chains::stored;
use crate::shared::coverage::Coverage;
use crate::shared::flow::Flow;
use crate::shared::kind::{Arriving, Kind, What};
use crate::shared::lend::Lender;
use crate::shared::pair::{Failure, Pair};
use crate::shared::random::Random;
use crate::shared::runs::{phase_calls, Run, Running};
use crate::shared::shadow::{sound, Shadow};
use crate::shared::traffic::{Phase, Traffic};
use crate::states;

/// Calls of one run, and of one with 65,536 slots.
const CALLS: (u64, u64) = (40_000, 8_000);

/// What is kept of one queue.
pub struct Own {
    shadow: Shadow,
    verdicts: [u64; 5],
    clock: u64,
    /// The ring queue that answers alike, as long as the count is below the reserve at each arrival.
    alone: Option<Alone>,
}

pub struct Watch {
    queues: [Own; 2],
    /// Which queue left a slot last.
    left_by: Vec<Option<usize>>,
}

impl Running for Two {
    type Plan = Plan;
    type Watch = Watch;
    const PLANS: u64 = plans::KINDS;

    fn traffic(plan: &Plan) -> Traffic {
        plan.traffic
    }

    fn weight(plan: &Plan) -> u64 {
        plan.weight
    }

    fn next_phase(r: &mut Random, plan: &Plan, phase: Phase) -> Phase {
        plan.next_phase(r, phase)
    }

    fn phase_calls(r: &mut Random, phase: Phase, count: u64) -> u64 {
        phase_calls(r, phase, count, 6)
    }

    fn next_size(side: &Side, to: &usize) -> u32 {
        size_of(side.sizes[side.state.queues[*to].head as usize])
    }

    fn run_packet(r: &mut Random, plan: &Plan) -> Arriving {
        let handle = r.number() as u32;
        let size = plan.traffic.size(r);
        let u = plan.traffic.u(r);
        Arriving { handle, size, ecn: r.one_in(2), u }
    }

    fn waits(plan: &Plan, records: &Records, to: &usize) -> bool {
        plan.polite && records.queues[*to].count >= plan.settings.reserve
    }

    fn begin<'a>(
        r: &'a mut Random,
        turn: u64,
        lender: &'a mut Lender,
        coverage: &'a mut Coverage<Two>,
    ) -> Result<Run<'a, Two>, Failure<Two>> {
        let (slots, plans) = plans::plans(r, turn % plans::KINDS);
        let pair = begin(r, slots, &plans, lender, coverage)?;
        let queues = [0, 1].map(|queue: usize| {
            let q = &pair.library.state.queues[queue];
            let alone = Alone::new(&plans[queue], q);
            Own { shadow: Shadow::default(), verdicts: q.verdicts, clock: q.clock, alone }
        });
        let flow = |to: usize| Flow::new(to, plans[to], slots, plans[to].settings.clock);
        let watch = Watch { queues, left_by: vec![None; slots as usize] };
        let calls = if slots == 65_536 { CALLS.1 } else { CALLS.0 };
        Ok(Run { r, pair, flows: vec![flow(0), flow(1)], watch, coverage, calls })
    }

    fn follow(run: &mut Run<Two>, queue: usize, call: &Call) -> Result<(), String> {
        let Pair { before, library, .. } = &run.pair;
        let own = &mut run.watch.queues[queue];
        let quiet_until = own.shadow.quiet_until;
        own.follow(call, before, library)?;
        if own.shadow.empty_ticks == 1_000 {
            run.coverage.note_run_event(6);
        }
        let arrived = matches!(call.what, What::Arrival(_)) && library.answer < 100;
        if arrived && call.clock < quiet_until {
            run.coverage.note_run_event(7);
        }
        let s = &library.state.shared;
        if s.used < 8 || run.r.one_in(s.used) {
            let ends = library.state.queues.iter().map(|q| (q.head, q.tail));
            let queues = run.watch.queues.iter().map(|own| &own.shadow.packets).zip(ends);
            stored(queues, (s.used, s.freed, s.spare), &library.handles, &library.sizes)?;
        }
        run.follow_alone(call)?;
        run.note_slot(call);
        Ok(())
    }
}

/// Refused fresh calls, then an accepted one. Runs with few arrivals left then go on from large
/// counts, as if they were restored after 2^48 arrivals less those.
fn begin<'a>(
    r: &mut Random,
    slots: u64,
    plans: &[Plan; 2],
    lender: &'a mut Lender,
    coverage: &mut Coverage<Two>,
) -> Result<Pair<'a, Two>, Failure<Two>> {
    let length = slots as usize + 1;
    let mut start = Side::new(Records::default(), vec![0; length], vec![0; length]);
    for place in 0..length {
        (start.handles[place], start.sizes[place]) = (r.number() as u32, r.number() as u32);
    }
    let mut pair = Pair::new(&start, lender);
    let settings = plans.map(|plan| plan.settings);
    let mut wrong = settings;
    wrong[1].reserve = slots - settings[0].reserve + 1;
    let nothing = [Settings { target: 0, ..settings[0] }, settings[1]];
    for settings in [wrong, nothing, settings] {
        pair.noted(&fresh_call(slots, settings), coverage)?;
    }
    for (queue, plan) in plans.iter().enumerate().filter(|(_, plan)| plan.arrivals_left > 0) {
        let counts = states::split(r, COUNTS_MAX - plan.arrivals_left);
        pair.change(|side| side.state.queues[queue].verdicts = counts);
    }
    Ok(pair)
}

impl Own {
    fn follow(&mut self, call: &Call, before: &Side, after: &Side) -> Result<(), String> {
        let (queue, other) = (call.to, 1 - call.to);
        if before.state.queues[other] != after.state.queues[other] {
            return Err("the record of the other queue was changed".into());
        }
        sound(after.well_formed, after.answer)?;
        let now = Two::view(&after.state, &queue);
        if after.answer < 100 {
            self.clock = call.clock;
            match call.what {
                What::Arrival(p) => {
                    let q = Two::view(&before.state, &queue);
                    self.verdicts[after.answer as usize] += 1;
                    let room = q.bytes + u64::from(p.size) <= q.buffer;
                    let place = (room, !no_slot(&before.state, queue));
                    let given = (self.clock, after.answer);
                    self.shadow.arrived(&q, (p.handle, p.size), given, place)?;
                }
                What::Departure => {
                    self.shadow.packets.leave((after.packet.handle, after.packet.size))?
                }
                What::Tick(_) => self.shadow.ticked(self.clock, now.probability)?,
                What::Fresh(_) => {}
            }
        }
        self.shadow.agrees(&now, self.clock, &self.verdicts)
    }
}

impl Run<'_, Two> {
    fn follow_alone(&mut self, call: &Call) -> Result<(), String> {
        let Pair { before, library, .. } = &self.pair;
        let (queue, queues) = (call.to, &mut self.watch.queues);
        let is_arrival = matches!(call.what, What::Arrival(_));
        let count = before.state.queues[queue].count;
        if is_arrival && count >= before.state.shared.reserve[queue] {
            queues[queue].alone = None;
        }
        if is_arrival && library.answer == 3 && queues[1 - queue].alone.is_some() {
            self.coverage.note_run_event(5);
        }
        if let Some(alone) = &mut queues[queue].alone {
            alone.follow(call, library)?;
            self.coverage.note_run_event(2 + queue);
            if is_arrival && (library.answer == 1 || library.answer == 4) {
                self.coverage.note_run_event(4);
            }
        }
        Ok(())
    }

    /// Who left a slot, and who takes it next.
    fn note_slot(&mut self, call: &Call) {
        let (queue, left_by) = (call.to, &mut self.watch.left_by);
        let (was, now) =
            (&self.pair.before.state.queues[queue], &self.pair.library.state.queues[queue]);
        if now.count > was.count {
            if left_by[now.tail as usize] == Some(1 - queue) {
                self.coverage.note_run_event(1 - queue);
            }
        } else if now.count < was.count {
            left_by[was.head as usize] = Some(queue);
        }
    }
}
