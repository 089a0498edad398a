//! Settings and traffic of the flows of a long run.

use crate::model::numbers::{CLOCK_MAX, RATE};
use crate::model::Settings;
use crate::shared::random::Random;
use crate::shared::traffic::Traffic;

/// What a flow is made of.
pub struct Plan {
    pub settings: Settings,
    pub clock: u64,
    pub traffic: Traffic,
    /// If not 0, how many arrivals are left before the row sums to 2^48.
    pub arrivals_left: u64,
    /// Of 100 calls of the modem, how many this flow gets, beside the others.
    pub weight: u64,
}

/// How many kinds of plan there are: one for each flow of a modem.
pub const KINDS: u64 = 16;

pub fn plan(r: &mut Random, kind: u64) -> Plan {
    let ns_per_byte = r.range(300, 5_000);
    let any = r.range(1_000, 100_000);
    let settings = Settings {
        target: r.pick(&[1_000, 10_000, 10_000, 10_000, 20_001, 100_000, any]),
        buffer: r.range(20_000, 300_000),
        slots: r.range(50, 300),
        peak: 0,
        sustained: 0,
    };
    let sizes = r.pick(&[(40, 1_500), (1_000, 1_500), (64, 9_000), (1, 1_500)]);
    let traffic = Traffic { ns_per_byte, sizes, lucky: false };
    let mut plan = Plan { settings, clock: 0, traffic, arrivals_left: 0, weight: 10 };
    if r.one_in(2) {
        plan.clock = r.spread(0, CLOCK_MAX / 2);
    }
    choose(r, kind, &mut plan);
    set_rates(r, &mut plan);
    plan
}

fn choose(r: &mut Random, kind: u64, plan: &mut Plan) {
    let (set, link) = (&mut plan.settings, &mut plan.traffic);
    match kind {
        0 => set.slots = 1,
        1 => (set.slots, link.sizes) = (r.range(2, 5), (5_000, 30_000)),
        2 => link.ns_per_byte = r.range(700_000, 900_000),
        3 => link.ns_per_byte = r.range(5, 50),
        4 => plan.clock = CLOCK_MAX - r.range(1_000_000, 30_000_000),
        5 => plan.arrivals_left = r.range(100, 600),
        6 => set.buffer = r.range(1, 4_000),
        7 => {
            (set.slots, set.buffer) = (65_536, 16_777_216);
            (link.sizes, plan.weight) = ((1, 300), 1);
        }
        8 => (set.buffer, link.sizes) = (r.range(1_000_000, 16_777_216), (20_000, 65_535)),
        9 => (link.ns_per_byte, link.sizes) = (r.range(20_000, 60_000), (40, 120)), // p above 1
        10 => (set.slots, plan.weight) = (1_024, 40), // tables of whole pages
        11 | 12 => {
            // The default target and a buffer of some delay, as in a coach.
            (set.target, set.buffer, set.slots) = (10_000, r.range(100_000, 200_000), 1_000);
            (link.ns_per_byte, link.sizes) = (r.range(5_000, 20_000), (40, 1_500));
            (link.lucky, plan.weight) = (kind == 11, 30);
        }
        13 => link.ns_per_byte = r.range(100_000, 300_000),
        _ => {}
    }
}

/// The sustained rate is about that of the departures, the peak rate often some times it.
fn set_rates(r: &mut Random, plan: &mut Plan) {
    let rate = (1_000_000_000 / plan.traffic.ns_per_byte).clamp(RATE.0, RATE.1);
    let set = &mut plan.settings;
    set.sustained = (rate * r.range(80, 120) / 100).clamp(RATE.0, RATE.1);
    let more = (rate * r.range(2, 10)).min(RATE.1);
    set.peak = r.pick(&[set.sustained, more, more, more, (rate / 2).max(1)]);
}
