//! Logs of runs: the queue's model on random traffic, every accepted call recorded.

use super::model::Queue;
use crate::log::types::{Record, Settings, ARRIVAL, DEPARTURE, TICK};
use crate::model::CLOCK_MAX;
use crate::plans::{self, Phase, Plan};
use crate::shared::random::Random;

pub struct Run {
    pub settings: Settings,
    pub records: Vec<Record>,
}

/// How many kinds of run there are: those of the plans, and three with ends of their own.
pub const KINDS: u64 = plans::KINDS + 3;

fn plan(r: &mut Random, kind: u64) -> Plan {
    let of_plans = kind < plans::KINDS;
    let mut plan = plans::plan(r, if of_plans { kind } else { 13 });
    match (kind + 1).saturating_sub(plans::KINDS) {
        1 => (plan.buffer, plan.traffic.sizes) = (1, (1, 2)),
        2 => (plan.clock, plan.traffic.ns_per_byte) = (CLOCK_MAX - 100_000, 300),
        3 => (plan.slots, plan.buffer) = (65_536, r.range(3_000, 100_000)),
        _ => {}
    }
    plan
}

/// A run of this kind until so many calls were accepted, or no time is left.
pub fn run(r: &mut Random, kind: u64, calls: usize) -> Run {
    let plan = plan(r, kind);
    let settings = Settings {
        target: plan.target,
        buffer: plan.buffer as u32,
        slots: plan.slots as u32,
        clock: plan.clock,
        profile: plan.profile as u8,
        unused: [0; 7],
    };
    let (mut handles, mut sizes) = (vec![0; plan.slots as usize], vec![0; plan.slots as usize]);
    let queue = Queue::new(&settings, &mut handles, &mut sizes);
    let mut traffic = Traffic {
        r,
        queue,
        phase: Phase::Overload,
        left: 0,
        arrival_at: plan.clock,
        departure_at: u64::MAX,
        tick_at: plan.clock + 15_000,
        plan,
        records: Vec::with_capacity(calls),
    };
    let mut tried = 0;
    while traffic.records.len() < calls && tried < 2 * calls {
        traffic.step();
        tried += 1;
    }
    Run { settings, records: traffic.records }
}

/// 65,536 slots, filled at one clock while the allowance lasts; then packets leave and arrive, so
/// that the ring goes round.
pub fn flood(r: &mut Random) -> Run {
    let (target, buffer, clock) = (15_000, 16_777_216, r.range(0, 1 << 40));
    let settings = Settings { target, buffer, slots: 65_536, clock, ..Settings::default() };
    let (mut handles, mut sizes) = (vec![0; 65_536], vec![0; 65_536]);
    let mut queue = Queue::new(&settings, &mut handles, &mut sizes);
    let mut records = Vec::new();
    for i in 0..100_000 {
        let mut record = Record { kind: DEPARTURE, clock: clock + i / 70_000, ..Record::default() };
        if i < 65_600 || r.one_in(2) {
            (record.kind, record.ecn) = (ARRIVAL, r.range(0, 1) as u8);
            (record.handle, record.size) = (r.number() as u32, r.range(1, 250) as u32);
        }
        if let Ok(verdict) = queue.call(&record) {
            let (bytes, probability) = (queue.state.bytes as u32, queue.state.probability);
            records.push(Record { verdict, bytes, probability, ..record });
        }
    }
    Run { settings, records }
}

struct Traffic<'a, 'b> {
    r: &'a mut Random,
    plan: Plan,
    queue: Queue<'b>,
    phase: Phase,
    /// How many calls the phase still lasts.
    left: u64,
    arrival_at: u64,
    departure_at: u64,
    tick_at: u64,
    records: Vec<Record>,
}

impl Traffic<'_, '_> {
    fn step(&mut self) {
        if self.left == 0 {
            self.phase = self.r.pick(&plans::PHASES[..11]);
            self.left = self.r.range(20, 600);
            self.schedule_arrival();
            self.departure_at = u64::MAX;
        }
        self.left -= 1;
        self.schedule_departure();
        let due = self.arrival_at.min(self.departure_at).min(self.tick_at);
        let clock = due.max(self.queue.state.clock).min(CLOCK_MAX);
        let mut record = self.record(due, clock);
        let answer = self.queue.call(&record);
        self.reschedule(record.kind);
        if let Ok(verdict) = answer {
            record.verdict = verdict;
            record.bytes = self.queue.state.bytes as u32;
            record.probability = self.queue.state.probability;
            self.records.push(record);
        }
    }

    /// The call that is due, as a record without its answer.
    fn record(&mut self, due: u64, clock: u64) -> Record {
        if due == self.tick_at {
            return Record { kind: TICK, clock, ..Record::default() };
        }
        if due == self.departure_at || self.r.one_in(50) {
            return Record { kind: DEPARTURE, clock, ..Record::default() };
        }
        let any = self.r.number() as u32;
        let u = if self.plan.traffic.lucky { u32::MAX } else { self.r.pick(&[any, any, any, 0]) };
        Record {
            kind: ARRIVAL,
            ecn: u8::from(self.r.range(1, 100) <= self.plan.ecn),
            handle: self.r.number() as u32,
            clock,
            size: self.plan.traffic.size(self.r),
            u,
            ..Record::default()
        }
    }

    fn reschedule(&mut self, kind: u8) {
        match kind {
            ARRIVAL => self.schedule_arrival(),
            DEPARTURE => self.departure_at = u64::MAX,
            _ => {
                let late = self.r.range(0, 300);
                let due = self.queue.state.last + 15_000 + self.r.pick(&[0, 0, 1, late]);
                self.tick_at = if due > CLOCK_MAX { u64::MAX } else { due };
            }
        }
    }

    fn schedule_arrival(&mut self) {
        let gap = self.plan.traffic.arrival_gap(self.r, self.phase);
        self.arrival_at = gap.map_or(u64::MAX, |gap| self.queue.state.clock + gap);
    }

    fn schedule_departure(&mut self) {
        let state = &self.queue.state;
        if self.departure_at == u64::MAX && state.count > 0 {
            let size = u64::from(self.queue.sizes[state.first as usize]);
            self.departure_at = state.clock + self.plan.traffic.departure_gap(size, self.phase);
        }
    }
}
