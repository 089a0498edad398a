//! Settings and traffic of the long runs.

use crate::model::CLOCK_MAX;
use crate::shared::random::Random;
pub use crate::shared::traffic::Phase;
use crate::shared::traffic::Traffic;

/// What a run is made of.
pub struct Plan {
    pub target: u64,
    pub buffer: u64,
    pub slots: u64,
    pub profile: u64,
    pub clock: u64,
    pub traffic: Traffic,
    /// How many of 100 packets are ECN-capable.
    pub ecn: u64,
    pub calls: u64,
    /// If not 0, how many arrivals are left before the counts sum to 2^48.
    pub arrivals_left: u64,
}

/// The phases to choose from, some of them more often than others.
pub const PHASES: [Phase; 12] = [
    Phase::Overload,
    Phase::Overload,
    Phase::Overload,
    Phase::Idle,
    Phase::Idle,
    Phase::Burst,
    Phase::Burst,
    Phase::Balanced,
    Phase::Balanced,
    Phase::Draining,
    Phase::Draining,
    Phase::Quiet,
];

/// How many kinds of plan there are.
pub const KINDS: u64 = 20;

pub fn plan(r: &mut Random, kind: u64) -> Plan {
    let any = r.range(1_000, 100_000);
    let mut plan = Plan {
        target: r.pick(&[1_000, 15_000, 15_000, 20_001, 100_000, any]),
        buffer: r.range(60_000, 600_000),
        slots: r.range(50, 500),
        profile: 0,
        clock: 0,
        traffic: Traffic { ns_per_byte: r.range(300, 5_000), sizes: (0, 0), lucky: false },
        ecn: r.pick(&[0, 50, 100]),
        calls: 12_000,
        arrivals_left: 0,
    };
    let link = &mut plan.traffic;
    link.sizes = r.pick(&[(40, 1_500), (1_000, 1_500), (64, 9_000), (1, 1_500)]);
    if r.one_in(2) {
        plan.clock = r.spread(0, CLOCK_MAX / 2);
    }
    match kind {
        0 => plan.slots = 1,
        1 => (plan.slots, link.sizes) = (r.range(2, 5), (5_000, 30_000)),
        2 => link.ns_per_byte = r.range(700_000, 900_000),
        3 => link.ns_per_byte = r.range(5, 50),
        4 => plan.clock = CLOCK_MAX - r.range(1_000_000, 30_000_000),
        5 => plan.arrivals_left = r.range(500, 3_000),
        6 => plan.buffer = r.range(1, 4_000),
        7 => {
            (plan.slots, plan.buffer) = (65_536, 16_777_216);
            (link.sizes, plan.calls) = ((1, 300), 2_000);
        }
        8 => (plan.buffer, link.sizes) = (r.range(1_000_000, 16_777_216), (20_000, 65_535)),
        9 => (plan.ecn, plan.target) = (100, 15_000),
        10 => plan.slots = 1_024, // tables of whole pages
        11 | 12 => {
            // Few slots: the probability rises slowly and is long above 0 and below one tenth.
            (plan.target, plan.slots, link.ns_per_byte) = (5_000, r.range(30, 50), 2_000);
            (link.sizes, plan.ecn, plan.calls) = ((40, 1_500), 80, 20_000);
            link.lucky = kind == 11;
        }
        15.. => calm(r, kind, &mut plan),
        _ => {}
    }
    plan
}

/// Calm queues: some with a short buffer that a burst fills beyond its third, some with a slow link
/// whose delay grows by more than the calm profile's step allows for.
fn calm(r: &mut Random, kind: u64, plan: &mut Plan) {
    plan.profile = 1;
    match kind {
        15 => {
            (plan.buffer, plan.slots, plan.traffic.sizes) =
                (r.range(60_000, 90_000), 200, (64, 9_000))
        }
        16 => {
            (plan.target, plan.buffer, plan.slots) = (15_000, r.range(200_000, 600_000), 2_000);
            (plan.traffic.ns_per_byte, plan.traffic.sizes) =
                (r.range(2_000, 5_000), (1_000, 1_500));
            plan.calls = 20_000;
        }
        17 => {
            (plan.slots, plan.traffic.sizes, plan.target) = (r.range(2, 30), (5_000, 30_000), 1_000)
        }
        18 => plan.buffer = r.range(1, 40_000),
        _ => (plan.buffer, plan.traffic.sizes) = (r.range(60_000, 90_000), (1_000, 65_535)),
    }
}
