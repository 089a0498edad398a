//! One queue of a long run: when its next calls are due, by its own clock.

use super::kind::{Call, CallOf, Lent, SideOf, What};
use super::numbers::CLOCK_MAX;
use super::random::Random;
use super::runs::Running;
use super::traffic::{Phase, Traffic};

pub struct Flow<K: Running> {
    /// Whom its calls are for.
    pub to: K::To,
    pub plan: K::Plan,
    slots: usize,
    phase: Phase,
    pub calls_left: u64,
    arrival_at: Option<u64>,
    departure_at: Option<u64>,
    tick_at: u64,
}

impl<K: Running> Flow<K> {
    /// A queue after an accepted fresh at this clock.
    pub fn new(to: K::To, plan: K::Plan, slots: u64, clock: u64) -> Self {
        Flow {
            to,
            plan,
            slots: slots as usize,
            phase: Phase::Balanced,
            calls_left: 0,
            arrival_at: None,
            departure_at: None,
            tick_at: clock + K::TICK_PERIOD,
        }
    }

    fn traffic(&self) -> Traffic {
        K::traffic(&self.plan)
    }

    fn begin_phase(&mut self, r: &mut Random, side: &SideOf<K>) {
        let q = K::view(&side.state, &self.to);
        self.phase = K::next_phase(r, &self.plan, self.phase);
        self.calls_left = K::phase_calls(r, self.phase, q.count);
        self.plan_arrival(r, q.clock);
        self.departure_at = None;
        self.plan_departure(side);
    }

    fn plan_arrival(&mut self, r: &mut Random, clock: u64) {
        let gap = self.traffic().arrival_gap(r, self.phase);
        self.arrival_at = gap.map(|gap| clock + gap);
    }

    /// The link takes as long as the packet that it sends next is large.
    fn plan_departure(&mut self, side: &SideOf<K>) {
        let q = K::view(&side.state, &self.to);
        if self.departure_at.is_none() && q.count > 0 {
            let size = K::next_size(side, &self.to);
            let gap = self.traffic().departure_gap(u64::from(size), self.phase);
            self.departure_at = Some(q.clock + gap);
        }
    }

    /// Plans what comes after a call of this queue.
    pub fn called(&mut self, r: &mut Random, call: &CallOf<K>, side: &SideOf<K>) {
        let (clock, accepted) = (K::view(&side.state, &self.to).clock, side.answer < 100);
        match call.what {
            What::Arrival(_) => self.plan_arrival(r, clock),
            What::Departure if accepted => self.departure_at = None,
            What::Tick(_) if accepted => {
                let late = r.range(0, 300);
                self.tick_at = clock + K::TICK_PERIOD + r.pick(&[0, 0, 0, 1, late, late * 100]);
            }
            What::Fresh(_) if accepted => {
                self.tick_at = clock + K::TICK_PERIOD;
                self.departure_at = None;
                self.plan_arrival(r, clock);
            }
            _ => {}
        }
        self.plan_departure(side);
    }

    /// The call that is due first, or now and then one that should be refused.
    pub fn next_call(&mut self, r: &mut Random, side: &SideOf<K>) -> CallOf<K> {
        if self.calls_left == 0 {
            self.begin_phase(r, side);
        }
        self.calls_left -= 1;
        if r.one_in(20) {
            return self.odd_call(r, side);
        }
        let arrival = self.arrival_at.unwrap_or(u64::MAX);
        let departure = self.departure_at.unwrap_or(u64::MAX);
        let due = arrival.min(departure).min(self.tick_at);
        let mut clock = due.max(K::view(&side.state, &self.to).clock);
        if r.one_in(2) {
            clock = clock.min(CLOCK_MAX);
        }
        if due == self.tick_at {
            Call::tick(self.to, clock, K::run_credits(r, &side.state))
        } else if due == departure || K::waits(&self.plan, &side.state, &self.to) {
            Call::departure(self.to, self.lent(), clock)
        } else {
            let to = K::sender(r, &self.plan, &self.to);
            Call::arrival(to, self.lent(), clock, K::run_packet(r, &self.plan))
        }
    }

    fn lent(&self) -> Lent {
        Lent::both(self.slots)
    }

    /// A call with one argument wrong, or at a time when it is refused or seldom comes.
    fn odd_call(&mut self, r: &mut Random, side: &SideOf<K>) -> CallOf<K> {
        let q = K::view(&side.state, &self.to);
        let (lent, slots) = (self.lent(), self.slots);
        let wrong = (!K::SENDERS).then(|| Lent::wrong(r, slots));
        let mut packet = K::run_packet(r, &self.plan);
        let to = K::sender(r, &self.plan, &self.to);
        let wrong = wrong.unwrap_or_else(|| Lent::wrong(r, slots));
        let credits = K::run_credits(r, &side.state);
        let clock = q.clock;
        let bad_clock = r.pick(&[clock.wrapping_sub(1), CLOCK_MAX + 1, u64::MAX]);
        let early = clock.max(q.last + r.pick(&[0, 1, K::TICK_PERIOD - 1]));
        let other = K::odd_to(r, to);
        let last = Call::tick(to, early, credits);
        match r.range(0, K::ODD_CALLS) {
            0 => {
                packet.size = r.pick(&[0, 65_536, u32::MAX]);
                Call::arrival(to, lent, clock, packet)
            }
            1 => Call::arrival(to, wrong, clock, packet),
            2 => Call::arrival(to, lent, bad_clock, packet),
            3 => Call::departure(to, wrong, clock),
            4 => Call::departure(to, lent, bad_clock),
            5 => Call::tick(to, bad_clock, credits),
            n if n < K::EARLY_TICKS => last,
            8 if K::ODD_CALLS > 9 => Call::arrival(other, lent, clock, packet),
            9 if K::ODD_CALLS > 9 => Call::departure(other, lent, clock),
            10 => Call::tick(other, clock, credits),
            n => K::odd_call(r, n, self, &side.state, last).unwrap_or_else(|| {
                match q.count == 0 || r.one_in(4) {
                    true => Call::departure(to, lent, clock),
                    false => last,
                }
            }),
        }
    }
}
