//! Which refusals apply to a call (29).

use super::formed::well_formed;
use super::hash::{flow_of, Key};
use super::rules::decide;
use super::schedule::choose;
use super::{Common, Record, Settings};
use crate::model::arrival::is_admitted;
use crate::model::formed::verdict_sum;
use crate::model::numbers::*;
use crate::model::refusals::{wrong_head, Refusals, Tables};
use crate::model::store::link_of;
use crate::model::{within, Arriving};

fn wrong_tables(c: &Common, (handles, sizes): Tables) -> bool {
    handles.len() as u64 != c.slots || sizes.len() as u64 != c.slots
}

fn wrong_clock(c: &Common, clock: u64) -> bool {
    clock < c.clock || clock > CLOCK_MAX
}

pub fn fresh_refusals(set: &Settings) -> Refusals {
    let mut applying = Refusals::default();
    applying[1] = !within(set.target, TARGET)
        || !within(set.buffer, BUFFER)
        || !within(set.slots, SLOTS)
        || set.clock > CLOCK_MAX;
    applying
}

/// 9 is asked where the verdict can be: in a sound record and tables.
pub fn arrival_refusals(
    r: &Record,
    tables: Tables,
    clock: u64,
    key: &Key,
    packet: &Arriving,
) -> Refusals {
    let c = &r.common;
    let mut applying = Refusals::default();
    applying[2] = !well_formed(r);
    applying[3] = wrong_tables(c, tables);
    applying[4] = wrong_clock(c, clock);
    applying[7] = !within(u64::from(packet.size), SIZE);
    applying[8] = verdict_sum(&r.queue(0)) == u128::from(COUNTS_MAX);
    applying[9] = !applying[2] && !applying[3] && wrong_freed(r, tables.1, key, packet);
    applying
}

fn wrong_freed(r: &Record, sizes: &[u32], key: &Key, packet: &Arriving) -> bool {
    let c = &r.common;
    let flow = flow_of(key, c.salt as u32);
    is_admitted(decide(r, flow, packet).verdict)
        && c.spare >= 2
        && link_of(sizes[c.freed as usize]) >= c.slots
}

/// 9 reads the chosen flow, and nothing is chosen in a record that is not sound or holds nothing.
pub fn departure_refusals(r: &Record, tables: Tables, clock: u64) -> Refusals {
    let c = &r.common;
    let mut applying = Refusals::default();
    applying[2] = !well_formed(r);
    applying[3] = wrong_tables(c, tables);
    applying[4] = wrong_clock(c, clock);
    applying[6] = c.count == 0;
    applying[9] =
        !applying[2] && !applying[6] && wrong_head(&r.store(), &r.queue(choose(r).flow), tables.1);
    applying
}

pub fn tick_refusals(r: &Record, clock: u64) -> Refusals {
    let c = &r.common;
    let mut applying = Refusals::default();
    applying[2] = !well_formed(r);
    applying[4] = wrong_clock(c, clock);
    applying[5] = u128::from(clock) < u128::from(c.last) + u128::from(TICK_PERIOD);
    applying
}
