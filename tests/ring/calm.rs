//! Names the things that happen to the profile and the activity of a queue at a call.

use crate::kind::{Call, Side};
use crate::model::{self, State, CALM, CALM_STEP, TENTH};
use crate::shared::kind::{Arriving, What};

/// What calm queues go through, in long runs as well.
pub const CALM_EVENTS: [&str; 17] = [
    "calm queue made",
    "inactive: enqueued",
    "inactive: dropped, bytes",
    "inactive: departure",
    "inactive: measurement ends",
    "inactive: tick",
    "inactive: tick with an average above 0",
    "turned active: enqueued",
    "turned active: dropped, bytes",
    "turned active with a measurement running",
    "turned active with an average above 0",
    "active: early verdict",
    "active: step cut",
    "active: step below zero",
    "rule 8 met, above a third: stays active",
    "turned inactive",
    "turned inactive with packets queued",
];

/// Edges of the profile, in single calls.
pub const CALM_EDGES: [&str; 27] = [
    "fresh: profile 2 alone out of range",
    "inactive: dropped, slots",
    "inactive: sum above 0 kept",
    "inactive: enqueued with allowance 0, a long old delay and more than 3,000 bytes",
    "inactive: enqueued with 8.5 almost reached",
    "inactive: measurement starts",
    "inactive: measurement given up",
    "inactive: tick changes clock and last tick alone, with delays above 0",
    "3 x bytes = buffer: arrival leaves it inactive",
    "3 x bytes = buffer + 1: arrival turns it active",
    "turned active: dropped, slots",
    "turned active with sum, old delay and average above 0",
    "turned active with allowance below 150,000",
    "turned active with measuring other than 0 and 1",
    "active word other than 0 and 1 left as it is",
    "active word other than 0 and 1 becomes 0",
    "step 85,899,345 taken as it is, probability 429,496,730",
    "step 85,899,882 cut, probability 429,496,730",
    "step above 85,899,345 not cut, probability 429,496,729",
    "step above 85,899,345 not cut, plain, probability 429,496,730",
    "step cut, probability limited to 2^32",
    "step of whole size below zero not cut",
    "3 x bytes = buffer: tick turns it inactive",
    "3 x bytes = buffer + 1: tick leaves it active",
    "tick that leaves probability 1: stays active",
    "tick with 2 x old delay = target: stays active",
    "plain tick that a calm queue would turn inactive at",
];

/// What was found of each list, by its places in them.
pub fn found(before: &Side, call: &Call, after: &Side) -> (Found, Found) {
    let (b, a) = (&before.state, &after.state);
    match &call.what {
        What::Fresh(asked) => {
            let plain = model::Asked { profile: 0, ..*asked };
            let alone = asked.profile == 2 && !model::fresh_refusals(&plain)[1];
            let made = after.answer == 0 && asked.profile == CALM;
            (vec![(made, 0)], vec![(alone && after.answer == 101, 0)])
        }
        _ if after.answer >= 100 => (Vec::new(), Vec::new()),
        What::Arrival(packet) => arrival(b, packet, a, after.answer),
        What::Departure => departure(b, a),
        What::Tick(_) => tick(b, a),
    }
}

/// Whether something happened, and its place in a list.
pub type Found = Vec<(bool, usize)>;

fn arrival(b: &State, packet: &Arriving, a: &State, answer: u32) -> (Found, Found) {
    let (idle, turned) = (a.active == 0, b.active == 0 && a.active != 0);
    let (enqueued, bytes, slots) = (answer == 0, answer == 2, answer == 3);
    let exact = 3 * b.bytes == b.buffer;
    let one_above = 3 * b.bytes == b.buffer + 1;
    let long = 2 * b.old_delay >= b.target;
    let runs = b.measuring != 0;
    let events = vec![
        (idle && enqueued, 1),
        (idle && bytes, 2),
        (turned && enqueued, 7),
        (turned && bytes, 8),
        (turned && runs, 9),
        (turned && b.average > 0, 10),
        (b.profile == CALM && (answer == 1 || answer == 4), 11),
    ];
    let edges = vec![
        (idle && slots, 1),
        (idle && enqueued && b.accumulated > 0 && a.accumulated == b.accumulated, 2),
        (idle && enqueued && b.allowance == 0 && long && b.bytes > 3_000 && packet.u == 0, 3),
        (idle && enqueued && b.accumulated == model::FORCED - 1 && b.allowance == 0, 4),
        (idle && exact && b.bytes > 0, 8),
        (turned && one_above, 9),
        (turned && slots, 10),
        (turned && b.accumulated > 0 && b.old_delay > 0 && b.average > 0, 11),
        (turned && b.allowance < 150_000, 12),
        (turned && b.measuring > 1 && a.measuring == 0, 13),
        (b.active > 1 && a.active == b.active, 14),
    ];
    (events, edges)
}

fn departure(b: &State, a: &State) -> (Found, Found) {
    let idle = b.active == 0;
    let (ran, runs) = (b.measuring != 0, a.measuring != 0);
    let ended = ran && b.counted + (b.bytes - a.bytes) >= model::RATE_THRESHOLD;
    let events = vec![(idle, 3), (idle && ended, 4)];
    let edges = vec![
        (idle && !ran && runs, 5),
        (idle && ran && !ended && !runs, 6),
        (b.active > 1 && a.active == b.active, 14),
    ];
    (events, edges)
}

fn tick(b: &State, a: &State) -> (Found, Found) {
    if b.active == 0 {
        let delayed = model::queueing_delay(b) > b.target && b.old_delay > b.target;
        return (vec![(true, 5), (b.average > 0, 6)], vec![(delayed, 7)]);
    }
    let delay = model::queueing_delay(b);
    let step = model::step(b, delay);
    let (calm, p) = (b.profile == CALM, b.probability);
    let cut = calm && p >= TENTH && step > CALM_STEP;
    let taken = a.probability == (p as i64 + step).clamp(0, model::WHOLE as i64) as u64;
    let short = 2 * delay < b.target;
    let below_half = short && 2 * b.old_delay < b.target;
    let at_half = 2 * b.old_delay == b.target;
    let refilled = below_half && a.probability == 0;
    let (third, turned) = (3 * b.bytes <= b.buffer, a.active == 0);
    let events = vec![
        (cut, 12),
        (calm && step < 0, 13),
        (calm && refilled && !third, 14),
        (turned, 15),
        (turned && b.count > 0, 16),
    ];
    let edges = vec![
        (b.active > 1 && a.active == b.active, 14),
        (b.active > 1 && turned, 15),
        (calm && p == TENTH && step == CALM_STEP && taken, 16),
        (calm && p == TENTH && step == 85_899_882 && a.probability == 515_396_075, 17),
        (calm && p == TENTH - 1 && step > CALM_STEP && taken, 18),
        (!calm && p == TENTH && step > CALM_STEP && taken, 19),
        (cut && a.probability == model::WHOLE && p < model::WHOLE, 20),
        (calm && p >= TENTH && step < -CALM_STEP && taken, 21),
        (turned && 3 * b.bytes == b.buffer && b.bytes > 0, 22),
        (calm && refilled && 3 * b.bytes == b.buffer + 1 && !turned, 23),
        (calm && below_half && third && a.probability == 1 && !turned, 24),
        (calm && third && short && at_half && a.probability == 0 && !turned, 25),
        (!calm && refilled && third && !turned, 26),
    ];
    (events, edges)
}
