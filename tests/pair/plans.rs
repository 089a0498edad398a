//! Settings and traffic of the queues of a long run.

use crate::model::numbers::{BUFFER, CLOCK_MAX};
use crate::model::Settings;
use crate::shared::random::Random;
use crate::shared::runs::next_phase;
use crate::shared::traffic::{Phase, Traffic, EAGER};

/// What a queue is made of.
#[derive(Clone, Copy)]
pub struct Plan {
    pub settings: Settings,
    pub traffic: Traffic,
    /// If not 0, how many arrivals are left before the counts sum to 2^48.
    pub arrivals_left: u64,
    /// Whether nothing arrives while the count is at the reserve or above.
    pub polite: bool,
    /// Whether more arrives than leaves in nearly all phases.
    pub eager: bool,
    /// How often it is called, beside the other queue.
    pub weight: u64,
}

/// How many kinds of run there are.
pub const KINDS: u64 = 14;

/// The slots of a run, and the plans of both queues.
pub fn plans(r: &mut Random, kind: u64) -> (u64, [Plan; 2]) {
    let mut plans = [queue(r), queue(r)];
    let mut slots = r.range(50, 300);
    match kind {
        0 => slots = 1,
        1 => {
            slots = r.range(2, 6);
            plans.iter_mut().for_each(|plan| plan.settings.buffer = r.range(1_000, 6_000));
        }
        2 => slots = r.range(8, 40),
        5 => {
            slots = 65_536;
            for plan in &mut plans {
                (plan.settings.buffer, plan.traffic.sizes) = (BUFFER.1, (1, 300));
            }
        }
        6 => {
            // Tables of whole pages, all of them taken: packets so small that none is early.
            slots = 1_024;
            for plan in &mut plans {
                (plan.eager, plan.traffic.sizes, plan.traffic.ns_per_byte) =
                    (true, (1, 3), 2_000_000);
            }
        }
        7 => plans.iter_mut().for_each(|plan| {
            plan.settings.clock = CLOCK_MAX - r.range(1_000_000, 30_000_000);
        }),
        8 => plans.iter_mut().for_each(|plan| plan.arrivals_left = r.range(100, 900)),
        9 => plans.iter_mut().for_each(|plan| {
            (plan.traffic.ns_per_byte, plan.traffic.lucky) = (r.range(500_000, 900_000), true);
        }),
        10 => plans.iter_mut().for_each(|plan| {
            (plan.settings.buffer, plan.traffic.sizes) =
                (r.range(1_000_000, BUFFER.1), (20_000, 65_535));
        }),
        12 => plans.iter_mut().for_each(|plan| plan.settings.buffer = r.range(1, 4_000)),
        _ => {}
    }
    reserve(r, kind, slots, &mut plans);
    (slots, plans)
}

fn queue(r: &mut Random) -> Plan {
    let any = r.range(1_000, 100_000);
    let settings = Settings {
        target: r.pick(&[1_000, 15_000, 15_000, 15_000, 20_001, 100_000, any]),
        buffer: r.range(20_000, 300_000),
        reserve: 0,
        clock: if r.one_in(2) { r.spread(0, CLOCK_MAX / 2) } else { 0 },
    };
    let sizes = r.pick(&[(40, 1_500), (1_000, 1_500), (64, 9_000), (1, 1_500)]);
    let (ns_per_byte, lucky) = (r.range(300, 5_000), r.one_in(5));
    let traffic = Traffic { ns_per_byte, sizes, lucky };
    Plan { settings, traffic, arrivals_left: 0, polite: false, eager: false, weight: 1 }
}

/// Reserves of many kinds; in kinds 4 and 11 one queue keeps to its own, or both do.
fn reserve(r: &mut Random, kind: u64, slots: u64, plans: &mut [Plan; 2]) {
    let first = r.range(0, slots);
    let any = (first, r.range(0, slots - first));
    let shares = [any, any, (0, 0), (first, slots - first), (slots / 3, slots / 3), (slots, 0)];
    let (first, second) = match kind {
        3 => (first, slots - first),
        4 | 11 => (slots / 4, slots / 4),
        13 => (slots / 2, 0),
        _ => r.pick(&shares),
    };
    (plans[0].settings.reserve, plans[1].settings.reserve) = (first, second);
    match kind {
        4 | 13 => {
            (plans[0].polite, plans[0].traffic.lucky) = (true, false);
            plans[1].weight = 3;
        }
        11 => plans.iter_mut().for_each(|plan| (plan.polite, plan.traffic.lucky) = (true, false)),
        _ => {}
    }
}

impl Plan {
    pub fn next_phase(&self, r: &mut Random, phase: Phase) -> Phase {
        match self.eager {
            true => r.pick(&EAGER),
            false => next_phase(r, phase),
        }
    }
}
