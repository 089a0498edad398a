//! Settings, senders and traffic of a long run.

use crate::flows::hash::{flow_of, Key};
use crate::flows::{Settings, FLOWS};
use crate::model::numbers::{BUFFER, CLOCK_MAX};
use crate::shared::random::Random;
use crate::shared::traffic::Traffic;
use crate::single::any_key;

pub struct Plan {
    pub settings: Settings,
    pub traffic: Traffic,
    /// The senders; several may have one flow.
    pub keys: Vec<Key>,
    /// How many of 100 packets are the first sender's, beside the others.
    pub flood: u64,
    /// If not 0, how many arrivals are left before the counts sum to 2^48.
    pub arrivals_left: u64,
    /// Whether more arrives than leaves in nearly all phases.
    pub eager: bool,
}

/// How many kinds of run there are.
pub const KINDS: u64 = 13;

pub fn plan(r: &mut Random, kind: u64) -> Plan {
    let any = r.range(1_000, 100_000);
    let settings = Settings {
        target: r.pick(&[1_000, 15_000, 15_000, 15_000, 20_001, 100_000, any]),
        buffer: r.range(20_000, 300_000),
        slots: r.range(50, 300),
        salt: r.number() as u32,
        clock: if r.one_in(2) { r.spread(0, CLOCK_MAX / 2) } else { 0 },
    };
    let sizes = r.pick(&[(40, 1_500), (1_000, 1_500), (64, 9_000), (1, 1_500)]);
    let traffic = Traffic { ns_per_byte: r.range(300, 5_000), sizes, lucky: r.one_in(5) };
    let keys = (0..r.pick(&[1, 3, 10, 40])).map(|_| any_key(r)).collect();
    let flood = r.pick(&[0, 0, 50, 90]);
    let mut plan = Plan { settings, traffic, keys, flood, arrivals_left: 0, eager: false };
    choose(r, kind, &mut plan);
    plan
}

fn choose(r: &mut Random, kind: u64, plan: &mut Plan) {
    let (set, traffic) = (&mut plan.settings, &mut plan.traffic);
    match kind {
        0 => set.slots = 1,
        1 => (set.slots, set.buffer) = (r.range(2, 6), r.range(1_000, 6_000)),
        2 => {
            // Every flow has a sender, and all are listed at times.
            plan.keys = one_for_each(r, set.salt);
            (plan.flood, plan.eager, set.slots) = (0, true, r.range(300, 900));
            (set.buffer, traffic.sizes) = (900_000, (40, 1_500));
        }
        3 => (set.buffer, traffic.sizes) = (r.range(1_000_000, BUFFER.1), (20_000, 65_535)),
        4 => {
            // Tables of whole pages, all of them taken: packets so small that none is early.
            (set.slots, plan.eager) = (1_024, true);
            (traffic.sizes, traffic.ns_per_byte) = ((1, 3), 2_000_000);
        }
        5 => (set.slots, set.buffer, traffic.sizes) = (65_536, BUFFER.1, (1, 300)),
        6 => set.clock = CLOCK_MAX - r.range(1_000_000, 30_000_000),
        7 => plan.arrivals_left = r.range(100, 900),
        8 => (traffic.ns_per_byte, traffic.lucky) = (r.range(500_000, 900_000), true),
        9 => set.buffer = r.range(1, 4_000),
        10 => {
            // One sender floods, a few small ones go on.
            (plan.flood, set.slots) = (90, 100);
            plan.keys.truncate(6);
        }
        11 => plan.keys.truncate(1),
        _ => {}
    }
}

/// A key for each flow.
fn one_for_each(r: &mut Random, salt: u32) -> Vec<Key> {
    let mut keys = Vec::new();
    for flow in 0..FLOWS {
        let mut key = any_key(r);
        while flow_of(&key, salt) != flow {
            key[r.range(0, 12) as usize] = r.number() as u8;
        }
        keys.push(key);
    }
    keys
}

impl Plan {
    pub fn key(&self, r: &mut Random) -> Key {
        if r.range(0, 99) < self.flood {
            return self.keys[0];
        }
        r.pick(&self.keys)
    }
}
