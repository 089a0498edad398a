//! What makes the three records well formed (15).

use super::numbers::*;
use super::{within, Queue, Records, Shared};

/// The conditions on the shared record, on each queue, and on both, in the order of `conditions`.
const OF_SHARED: [&str; 4] =
    ["slots in range", "reserves sum to at most the slots", "freed < slots", "used <= slots"];

pub const OF_QUEUE: [&str; 21] = [
    "target in range",
    "buffer in range",
    "last tick <= clock",
    "clock <= 2^48",
    "probability in range",
    "old delay in range",
    "allowance in range",
    "accumulated < 8.5",
    "average in range",
    "head < slots",
    "tail < slots",
    "count <= slots",
    "count <= bytes",
    "bytes <= 65,535 x count",
    "bytes <= buffer",
    "start <= clock",
    "counted < 16,384",
    "start 0 if none runs",
    "counted 0 if none runs",
    "none runs on an empty queue",
    "sum of counts <= 2^48",
];

const OF_BOTH: [&str; 2] = ["common use <= common slots", "counts and spare make used"];

pub const QUEUE_CONDITIONS: usize = OF_QUEUE.len();
pub const CONDITIONS: usize = OF_SHARED.len() + 2 * OF_QUEUE.len() + OF_BOTH.len();

/// The names of all conditions.
pub fn condition_names() -> Vec<String> {
    let mut names: Vec<String> = OF_SHARED.iter().map(|name| name.to_string()).collect();
    for queue in ["intercom", "passengers"] {
        names.extend(OF_QUEUE.iter().map(|name| format!("{queue}: {name}")));
    }
    names.extend(OF_BOTH.iter().map(|name| name.to_string()));
    names
}

pub fn verdict_sum(q: &Queue) -> u128 {
    q.verdicts.iter().map(|&count| u128::from(count)).sum()
}

/// What both reserves leave of the slots, if they fit (13).
pub fn common_slots(s: &Shared) -> Option<u64> {
    s.slots.checked_sub(s.reserve[0])?.checked_sub(s.reserve[1])
}

/// The sum, over both queues, of count - reserve where positive (13).
pub fn common_use(r: &Records) -> u128 {
    let over = |q: usize| r.queues[q].count.saturating_sub(r.shared.reserve[q]);
    u128::from(over(0)) + u128::from(over(1))
}

fn shared_conditions(s: &Shared) -> [bool; 4] {
    [within(s.slots, SLOTS), common_slots(s).is_some(), s.freed < s.slots, s.used <= s.slots]
}

pub fn queue_conditions(q: &Queue, slots: u64) -> [bool; 21] {
    let runs = q.measuring != 0;
    [
        within(q.target, TARGET),
        within(q.buffer, BUFFER),
        q.last <= q.clock,
        q.clock <= CLOCK_MAX,
        q.probability <= WHOLE,
        q.old_delay <= TIME_MAX,
        q.allowance <= FULL_ALLOWANCE,
        q.accumulated < FORCED,
        q.average <= TIME_MAX,
        q.head < slots,
        q.tail < slots,
        q.count <= slots,
        q.count <= q.bytes,
        u128::from(q.bytes) <= u128::from(SIZE.1) * u128::from(q.count),
        q.bytes <= q.buffer,
        q.start <= q.clock,
        q.counted < RATE_THRESHOLD,
        runs || q.start == 0,
        runs || q.counted == 0,
        !runs || q.count > 0,
        verdict_sum(q) <= u128::from(COUNTS_MAX),
    ]
}

/// Common use is compared where there are common slots, or none but no fewer.
fn both_conditions(r: &Records) -> [bool; 2] {
    let [first, second] = r.queues.map(|q| u128::from(q.count));
    [
        common_slots(&r.shared).map_or(true, |common| common_use(r) <= u128::from(common)),
        first + second + u128::from(r.shared.spare) == u128::from(r.shared.used),
    ]
}

/// Whether each condition holds.
pub fn conditions(r: &Records) -> [bool; CONDITIONS] {
    let mut all = [true; CONDITIONS];
    all[..4].copy_from_slice(&shared_conditions(&r.shared));
    for (queue, place) in r.queues.iter().zip([4, 25]) {
        all[place..place + 21].copy_from_slice(&queue_conditions(queue, r.shared.slots));
    }
    all[46..].copy_from_slice(&both_conditions(r));
    all
}

pub fn well_formed(r: &Records) -> bool {
    conditions(r).iter().all(|&holds| holds)
}
