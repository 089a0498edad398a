//! Long runs from fresh: record and tables go back to each call as the last one left them.

use super::bursts::Bursting;
use super::coverage::Coverage;
use super::flow::Flow;
use super::kind::{Arriving, Call, CallOf, Lent, SideOf};
use super::lend::Lender;
use super::numbers::CLOCK_MAX;
use super::pair::{Failure, Pair};
use super::random::Random;
use super::recorded::Record;
use super::traffic::{Phase, Traffic, PHASES};

/// What the long runs of a kind are made of.
pub trait Running: Bursting {
    /// What a queue of a run is made of.
    type Plan;
    /// What follows the answers of a run.
    type Watch;
    /// How many kinds of plan there are.
    const PLANS: u64;
    /// Whether a run ends with a phase.
    const WHOLE_PHASES: bool = false;
    /// Whether packets have senders, which are then drawn with a packet, before its tables.
    const SENDERS: bool = false;
    /// The last number that an odd call may have, and the number below which it is a tick too soon.
    const ODD_CALLS: u64 = 9;
    const EARLY_TICKS: u64 = 6;

    fn traffic(plan: &Self::Plan) -> Traffic;
    /// How often the queue is called, beside others.
    fn weight(_: &Self::Plan) -> u64 {
        1
    }
    fn next_phase(r: &mut Random, plan: &Self::Plan, phase: Phase) -> Phase;
    fn phase_calls(r: &mut Random, phase: Phase, count: u64) -> u64;
    /// The size of the packet that leaves next.
    fn next_size(side: &SideOf<Self>, to: &Self::To) -> u32;
    fn run_packet(r: &mut Random, plan: &Self::Plan) -> Arriving;
    fn run_credits(_: &mut Random, _: &Self::State) -> u32 {
        1
    }
    /// Whom an arrival is for.
    fn sender(_: &mut Random, _: &Self::Plan, to: &Self::To) -> Self::To {
        *to
    }
    /// Whether nothing arrives now.
    fn waits(_: &Self::Plan, _: &Self::State, _: &Self::To) -> bool {
        false
    }
    /// Whom no call may be for.
    fn odd_to(_: &mut Random, to: Self::To) -> Self::To {
        to
    }
    /// An odd call of the kind's own; by default one at the last clock of all, where that is near.
    fn odd_call(
        r: &mut Random,
        number: u64,
        flow: &Flow<Self>,
        state: &Self::State,
        early: CallOf<Self>,
    ) -> Option<CallOf<Self>> {
        let q = Self::view(state, &flow.to);
        if number != 6 || q.clock <= CLOCK_MAX - 10_000_000 {
            return None;
        }
        Some(match r.range(0, 2) {
            0 => Call::tick(early.to, CLOCK_MAX, 0),
            1 => Call::departure(early.to, Lent::both(q.slots as usize), CLOCK_MAX),
            _ => early,
        })
    }

    /// The run of this turn after its calls of fresh.
    fn begin<'a>(
        r: &'a mut Random,
        turn: u64,
        lender: &'a mut Lender,
        coverage: &'a mut Coverage<Self>,
    ) -> Result<Run<'a, Self>, Failure<Self>>;
    /// Brings the memory of a queue into the pair, or out of it, where each queue has its own.
    fn swap(_: &mut Run<Self>, _place: usize, _in: bool) {}
    /// Whether the rules of a run hold after this call of a queue; the sentence says which does not.
    fn follow(run: &mut Run<Self>, place: usize, call: &CallOf<Self>) -> Result<(), String>;
}

pub struct Run<'a, K: Running> {
    pub r: &'a mut Random,
    pub pair: Pair<'a, K>,
    pub flows: Vec<Flow<K>>,
    pub watch: K::Watch,
    pub coverage: &'a mut Coverage<K>,
    pub calls: u64,
}

/// What a run is called: its number and its kind of plan.
pub fn name<K: Running>(run: u64) -> String {
    format!("long run {run} (plan {})", run % K::PLANS)
}

/// The next phase of most plans.
pub fn next_phase(r: &mut Random, phase: Phase) -> Phase {
    match phase {
        Phase::Quiet => r.pick(&[Phase::Burst, Phase::Overload, Phase::Light]),
        _ => r.pick(&PHASES),
    }
}

/// The calls of a phase; one quiet phase of so many is so long that ticks find the queue empty 1,000 times.
pub fn phase_calls(r: &mut Random, phase: Phase, count: u64, long: u64) -> u64 {
    match phase {
        Phase::Quiet if long > 0 && r.one_in(long) => count + r.range(1_100, 1_200),
        Phase::Quiet => count + r.range(20, 120),
        Phase::Idle => r.range(10, 100),
        _ => r.range(50, 600),
    }
}

/// One run; the plans take turns from run to run.
pub fn run<K: Running>(
    r: &mut Random,
    turn: u64,
    lender: &mut Lender,
    coverage: &mut Coverage<K>,
) -> Result<(), Failure<K>> {
    let mut run = K::begin(r, turn, lender, coverage)?;
    let weights: Vec<u64> = run.flows.iter().map(|flow| K::weight(&flow.plan)).collect();
    let (mut place, mut done) = (0, 0);
    let mut record = Record::new(&run.pair.library);
    K::swap(&mut run, place, true);
    while done < run.calls || (K::WHOLE_PHASES && run.flows[0].calls_left > 0) {
        let next = match weights.len() > 1 && run.r.one_in(4) {
            true => pick(run.r, &weights),
            false => place,
        };
        if next != place {
            run.burst(&mut record)?;
            K::swap(&mut run, place, false);
            K::swap(&mut run, next, true);
            place = next;
        }
        run.call(place, &mut record)?;
        done += 1;
    }
    run.burst(&mut record)
}

/// A place, as often as its weight.
fn pick(r: &mut Random, weights: &[u64]) -> usize {
    let mut left = r.range(1, weights.iter().sum());
    for (place, &weight) in weights.iter().enumerate() {
        if left <= weight {
            return place;
        }
        left -= weight;
    }
    0
}

impl<K: Running> Run<'_, K> {
    /// Runs a queue's next call on both sides, checks the rules of a run, and plans what comes next.
    fn call(&mut self, place: usize, record: &mut Record<K>) -> Result<(), Failure<K>> {
        let call = self.flows[place].next_call(self.r, &self.pair.model);
        if call.is_fresh() || record.is_full() {
            self.burst(record)?;
        }
        self.pair.call(&call)?;
        let to = self.flows[place].to;
        let Pair { before, library, .. } = &self.pair;
        if Record::<K>::fits(&call, &to, K::view(&before.state, &to).slots) {
            record.add(&call, before, library);
        }
        K::follow(self, place, &call)
            .map_err(|broken| Failure::Broken(format!("{broken}; {call:?}")))?;
        self.coverage.note(&self.pair.before, &call, &self.pair.library);
        self.flows[place].called(self.r, &call, &self.pair.model);
        Ok(())
    }

    /// The calls since the last burst, as one.
    fn burst(&mut self, record: &mut Record<K>) -> Result<(), Failure<K>> {
        self.coverage.calls += self.pair.burst(record)?;
        Ok(())
    }
}
