//! Names the things that happen at a call, from the state before it and the state after it.

use crate::calm;
use crate::kind::{arriving, Call, Side};
use crate::model::{self, Rule, State};
use crate::shared::area::PAGE;
use crate::shared::coverage::Found;
use crate::shared::kind::What;

const EVENTS: [&str; 25] = [
    "fresh accepted",
    "allowance loses 15,000",
    "allowance stays at 0",
    "allowance filled by rule 8",
    "probability loses 1/64 by rule 5",
    "probability limited to 0",
    "probability limited to 2^32",
    "delay limited to 10,000,000",
    "sample raised to 1",
    "sample limited to 10,000,000",
    "sample becomes the average",
    "sample mixed into the average",
    "tail written below the head",
    "head goes from the last place to 0",
    "queue left empty",
    "last slot taken",
    "queue of one slot",
    "queue of 65,536 slots",
    "tick exactly when due",
    "clock 2^48 accepted",
    "ECN-capable packet dropped early",
    "sum set to 0 by a drop",
    "sum set to 0 by a mark",
    "dropped early though u is not below the probability",
    "marked though u is not below the probability",
];

const SINGLE_EVENTS: [&str; 9] = [
    "allowance below 15,000 becomes 0",
    "measuring other than 0 and 1 left as it is",
    "head of size 0 refused",
    "head above 65,535 refused",
    "head refused: bytes would be below 0",
    "head refused: bytes would be below count",
    "head refused: bytes would be above 65,535 x count",
    "head leaves bytes = count",
    "head leaves bytes = 65,535 x count",
];

/// The names of a list, and which of them were found, by their places.
pub fn named(names: &[&'static str], found: calm::Found) -> Found {
    let mut all: Found = names.iter().map(|&name| (name, false)).collect();
    for (holds, label) in found {
        all[label].1 |= holds;
    }
    all
}

pub fn events(before: &Side, call: &Call, after: &Side) -> Found {
    let (b, a) = (&before.state, &after.state);
    let found = match call.what {
        _ if after.answer >= 100 => Vec::new(),
        What::Fresh(_) => vec![(true, 0)],
        What::Arrival(_) => arrival(before, call, after),
        What::Departure => departure(b, a),
        What::Tick(_) if b.active != 0 => tick(b, a),
        What::Tick(_) => Vec::new(),
    };
    named(&EVENTS, found)
}

fn arrival(before: &Side, call: &Call, after: &Side) -> calm::Found {
    let (b, a, p) = (&before.state, &after.state, call.packet());
    let admitted = a.count > b.count;
    let (marked, dropped) = (after.answer == 1, after.answer == 4);
    let begun = model::begun(b);
    let reset = begun.accumulated > 0 && a.accumulated == 0;
    let forced = u64::from(p.u) >= begun.probability;
    vec![
        (admitted && b.first + b.count >= b.slots, 12),
        (admitted && a.count == a.slots, 15),
        (a.slots == 1, 16),
        (a.slots == 65_536, 17),
        (a.clock == model::CLOCK_MAX, 19),
        (dropped && p.ecn, 20),
        (dropped && reset, 21),
        (marked && reset, 22),
        (dropped && forced, 23),
        (marked && forced, 24),
    ]
}

fn departure(b: &State, a: &State) -> calm::Found {
    let ended = matches!(measured(b, a), Some(3 | 4));
    let time = a.clock.saturating_sub(b.start);
    vec![
        (a.first == 0, 13),
        (a.count == 0, 14),
        (ended && time == 0, 8),
        (ended && time > model::TIME_MAX, 9),
        (ended && b.average == 0, 10),
        (ended && b.average != 0, 11),
    ]
}

fn tick(b: &State, a: &State) -> calm::Found {
    let delay = model::queueing_delay(b);
    let p = b.probability as i64 + model::step_taken(b, delay);
    vec![
        (b.allowance >= 15_000 && a.allowance == b.allowance - 15_000, 1),
        (b.allowance == 0 && a.allowance == 0, 2),
        (b.allowance < 150_000 && a.allowance == 150_000, 3),
        (delay == 0 && b.old_delay == 0 && p >= 64, 4),
        (p < 0, 5),
        (p > model::WHOLE as i64, 6),
        (b.bytes * b.average / 16_384 > model::TIME_MAX, 7),
        (a.clock == b.last + 15_000, 18),
        (a.clock == model::CLOCK_MAX, 19),
    ]
}

pub fn singles(before: &Side, call: &Call, after: &Side) -> Found {
    let (b, a) = (&before.state, &after.state);
    let mut found = Vec::new();
    if after.answer < 100 && !call.is_fresh() {
        found.push((b.allowance > 0 && b.allowance < 15_000 && a.allowance == 0, 0));
        found.push((b.measuring > 1 && a.measuring == b.measuring, 1));
    }
    match (&call.what, after.answer) {
        (What::Departure, 109) => found.extend(wrong_head(before)),
        (What::Departure, 0) => {
            found.push((a.count > 0 && a.bytes == a.count, 7));
            found.push((a.count > 0 && a.bytes == 65_535 * a.count, 8));
        }
        _ => {}
    }
    named(&SINGLE_EVENTS, found)
}

fn wrong_head(before: &Side) -> calm::Found {
    let s = &before.state;
    let size = u64::from(before.sizes[s.first as usize]);
    let plain = (1..=65_535).contains(&size);
    let count = s.count - 1;
    let left = s.bytes.checked_sub(size);
    vec![
        (size == 0, 2),
        (size > 65_535, 3),
        (plain && left.is_none(), 4),
        (plain && left.map_or(false, |bytes| bytes < count), 5),
        (plain && left.map_or(false, |bytes| bytes > 65_535 * count), 6),
    ]
}

/// What became of early packets on both sides of one tenth.
#[rustfmt::skip]
pub fn early(before: &Side, call: &Call, after: &Side) -> Found {
    let at = (model::begun(&before.state).probability, call.packet().ecn, after.answer);
    vec![
        ("marked at probability 429,496,729", at == (429_496_729, true, 1)),
        ("ECN-capable and dropped at probability 429,496,730", at == (429_496_730, true, 4)),
        ("not ECN-capable and dropped at probability 429,496,729", at == (429_496_729, false, 4)),
        ("not ECN-capable and dropped at probability 429,496,730", at == (429_496_730, false, 4)),
    ]
}

/// What the sum of probabilities did where it acts, and where it must not.
#[rustfmt::skip]
pub fn sums(before: &Side, call: &Call, after: &Side) -> Found {
    let (b, packet) = (&model::begun(&before.state), call.packet());
    let (sum, p) = (b.accumulated + b.probability, b.probability);
    let below = u64::from(packet.u) < p;
    let rule = model::deciding_rule(b, &arriving(packet));
    let asked = rule > Rule::SmallQueue;
    let (enqueued, marked, dropped) = (after.answer == 0, after.answer == 1, after.answer == 4);
    let kept = p > 0 && b.accumulated > 0 && after.state.accumulated == b.accumulated;
    let raised = after.state.accumulated > b.accumulated;
    vec![
        ("3,650,722,201: enqueued though u is below the probability", asked && sum == 3_650_722_201 && enqueued && below),
        ("3,650,722,202: early, u is below the probability", asked && sum == 3_650_722_202 && (marked || dropped) && below),
        ("3,650,722,202: enqueued, u is not below it", asked && sum == 3_650_722_202 && enqueued && !below),
        ("36,507,222,015: early, u is below the probability", asked && sum == 36_507_222_015 && (marked || dropped) && below),
        ("36,507,222,015: enqueued, u is not below it", asked && sum == 36_507_222_015 && enqueued && !below),
        ("36,507,222,016: dropped though u is not below it", asked && sum == 36_507_222_016 && dropped && !below),
        ("36,507,222,016: marked though u is not below it", asked && sum == 36_507_222_016 && marked && !below),
        ("the greatest: early", asked && sum == 36_507_222_015 + model::WHOLE && dropped),
        ("8.5 and more at 429,496,729: marked", rule == Rule::HighSum && p == 429_496_729 && marked),
        ("8.5 and more at 429,496,730: dropped, ECN-capable", rule == Rule::HighSum && p == 429_496_730 && packet.ecn && dropped),
        ("0.85 and more at probability 0: enqueued with u 0", asked && sum >= 3_650_722_202 && p == 0 && enqueued && packet.u == 0),
        ("low sum raised", rule == Rule::LowSum && raised && enqueued),
        ("sum raised above 0.85", rule == Rule::Otherwise && raised && enqueued),
        ("as it was by rule 1", rule == Rule::Bytes && kept),
        ("as it was by rule 2", rule == Rule::Slots && kept),
        ("as it was by rule 3", rule == Rule::Allowance && kept),
        ("as it was by rule 4", rule == Rule::ShortDelay && kept),
        ("as it was by rule 5", rule == Rule::SmallQueue && kept),
        ("rules 1 to 5 decide where it would be 8.5 and more", !asked && kept && sum >= 36_507_222_016),
        ("rules 3 to 5 enqueue where u would be early",
            !asked && rule > Rule::Slots && kept && sum >= 3_650_722_202 && enqueued && below),
    ]
}

/// Where the tables are whole pages, guarded memory ends right beside both of their ends: which end an
/// accepted call wrote or read.
pub fn whole_pages(before: &Side, call: &Call, after: &Side) -> Found {
    let (b, a) = (&before.state, &after.state);
    let whole = b.slots * 4 % PAGE as u64 == 0;
    let wrote = whole && a.count > b.count;
    let read = whole && matches!(call.what, What::Departure);
    let tail = (b.first + b.count) % b.slots;
    vec![
        ("first element written", wrote && tail == 0),
        ("last element written", wrote && tail + 1 == b.slots),
        ("first element read", read && b.first == 0),
        ("last element read", read && b.first + 1 == b.slots),
    ]
}

/// What happened to the measurement at an accepted departure; nothing where it was given up.
fn measured(b: &State, a: &State) -> Option<usize> {
    match (b.measuring != 0, a.measuring != 0) {
        (false, false) => Some(0),
        (false, true) => Some(1),
        (true, true) if a.counted > 0 => Some(2),
        (true, false) if counted_now(b, a) < 16_384 => None,
        (true, false) => Some(3),
        (true, true) => Some(4),
    }
}

pub fn measurement(before: &Side, _: &Call, after: &Side) -> Found {
    let at = measured(&before.state, &after.state);
    vec![
        ("none runs and none starts", at == Some(0)),
        ("none runs and one starts", at == Some(1)),
        ("goes on", at == Some(2)),
        ("ends and none starts", at == Some(3)),
        ("ends and another starts", at == Some(4)),
    ]
}

/// The counted bytes with the packet that left.
fn counted_now(b: &State, a: &State) -> u64 {
    b.counted + (b.bytes - a.bytes)
}

/// What became of a measurement where few packets were left. From fresh none is given up: what is
/// counted and what is queued come to 16,384 at least.
pub fn given_up(before: &Side, _: &Call, after: &Side) -> Found {
    let (b, a) = (&before.state, &after.state);
    let few = b.measuring != 0 && a.count < 2;
    let (last, one, goes_on) = (few && a.count == 0, few && a.count == 1, a.counted > 0);
    let counted = counted_now(b, a);
    let given_up = few && measured(b, a).is_none();
    vec![
        ("given up", given_up),
        ("given up at 16,383", given_up && counted == 16_383),
        ("given up with the average 0", given_up && b.average == 0),
        ("given up with an average above 0", given_up && b.average > 0),
        ("given up with measuring other than 0 and 1", given_up && b.measuring > 1),
        ("last packet ends it at 16,384", last && counted == 16_384),
        ("last packet ends it above 16,384", last && counted > 16_384),
        ("one packet left: goes on", one && goes_on),
        ("one packet left: goes on at 16,383", one && goes_on && counted == 16_383),
        ("one packet left: ends at 16,384", one && counted == 16_384),
    ]
}

/// Which ends of ranges a well-formed state and a call stand at.
#[rustfmt::skip]
pub fn ends(before: &Side, call: &Call, _: &Side) -> Found {
    let s = &before.state;
    let runs = s.measuring != 0;
    let size = if let What::Arrival(packet) = call.what { packet.size } else { 0 };
    vec![
        ("target 1,000", s.target == 1_000), ("target 100,000", s.target == 100_000),
        ("buffer 1", s.buffer == 1), ("buffer 16,777,216", s.buffer == 16_777_216),
        ("slots 1", s.slots == 1), ("slots 65,536", s.slots == 65_536),
        ("clock 0", s.clock == 0), ("clock 2^48", s.clock == model::CLOCK_MAX), ("last tick = clock", s.last == s.clock),
        ("probability 0", s.probability == 0), ("probability 2^32", s.probability == model::WHOLE),
        ("old delay 0", s.old_delay == 0), ("old delay 10,000,000", s.old_delay == 10_000_000),
        ("allowance 0", s.allowance == 0), ("allowance 150,000", s.allowance == 150_000),
        ("accumulated 0", s.accumulated == 0), ("accumulated 36,507,222,015", s.accumulated == 36_507_222_015),
        ("average 0", s.average == 0), ("average 10,000,000", s.average == 10_000_000),
        ("first 0", s.first == 0), ("first = slots - 1", s.first == s.slots - 1),
        ("count 0", s.count == 0), ("count = slots", s.count == s.slots),
        ("bytes = count", s.count > 0 && s.bytes == s.count),
        ("bytes = 65,535 x count", s.count > 0 && s.bytes == 65_535 * s.count),
        ("bytes = buffer", s.bytes == s.buffer),
        ("start 0", runs && s.start == 0), ("start = clock", runs && s.start == s.clock),
        ("counted 0", runs && s.counted == 0), ("counted 16,383", runs && s.counted == 16_383),
        ("sum of counts 0", model::verdict_sum(s) == 0), ("sum of counts 2^48", model::verdict_sum(s) == 1 << 48),
        ("size 1", size == 1), ("size 65,535", size == 65_535),
        ("plain", s.profile == 0), ("calm and active", s.profile == 1 && s.active != 0), ("inactive", s.active == 0),
    ]
}
