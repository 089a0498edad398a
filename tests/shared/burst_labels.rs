//! What bursts reach, by name.

use super::bursts::{Burst, Bursting, Standing};
use super::coverage::{Coverage, Covered};
use super::groups::owned;
use super::kind::SideOf;

const COUNTS_MAX: u128 = 1 << 48;

/// What bursts reach. Those that may be tested once and then run are called ready here.
pub const LABELS: [&str; 26] = [
    "ready",
    "ready: calm",
    "not well formed",
    "tables that do not fit",
    "one count short of room",
    "just enough room",
    "no calls",
    "64 calls",
    "a flow above 15",
    "lengths that do not fit",
    "unknown kind",
    "refused by 108",
    "ready: enqueued",
    "ready: marked",
    "ready: dropped, bytes",
    "ready: dropped, slots",
    "ready: dropped, early",
    "ready: departed",
    "ready: ticked",
    "ready: refused by 104",
    "ready: refused by 105",
    "ready: refused by 106",
    "ready: refused by 107",
    "ready: refused by 109",
    "ready: turned active",
    "ready: turned inactive",
];

pub const LENGTHS: usize = 9; // and the following: unknown kind, refused by 108, verdicts, departed, ...

/// The labels that the kind must reach; an empty one stands for what cannot be.
pub fn labels<K: Covered>() -> Vec<String> {
    owned(&LABELS.map(|name| if K::NO_BURST.contains(&name) { "" } else { name }))
}

/// Counts what a burst reached, from one side to the other.
pub fn note<K: Bursting>(
    coverage: &mut Coverage<K>,
    (side, after): (&SideOf<K>, &SideOf<K>),
    burst: &Burst<K::To>,
    answers: &[u64],
) {
    let Standing { formed, calm, active, counted, no_flow } = K::standing(side, &burst.to);
    let slots = K::view(&side.state, &burst.to).slots;
    let fit = burst.lent.handles as u64 == slots && burst.lent.sizes as u64 == slots;
    let needed = counted + burst.answers as u128;
    let ready = formed && fit && needed <= COUNTS_MAX;
    let sound = formed && fit;
    let reached = [
        ready,
        ready && calm,
        !formed,
        formed && !fit,
        sound && needed == COUNTS_MAX + 1,
        sound && needed == COUNTS_MAX,
        burst.answers == 0,
        burst.answers == 64,
        no_flow,
    ];
    for label in (0..reached.len()).filter(|&label| reached[label]) {
        coverage.note_burst(label);
    }
    let turned = K::standing(after, &burst.to).active;
    if ready && turned != active {
        coverage.note_burst(if turned { 24 } else { 25 });
    }
    for (call, answer) in burst.calls.chunks(K::NUMBERS).zip(answers) {
        note_call(coverage, ready, K::kind_of(call[5]), (answer & 0xff) as usize);
    }
}

fn note_call<K: Bursting>(coverage: &mut Coverage<K>, ready: bool, kind: Option<u32>, code: usize) {
    let label = match (ready, kind, code) {
        (_, None, _) => 10,
        (_, _, 108) => 11,
        (true, Some(0 | 1), 0..=4) => 12 + code,
        (true, Some(2), 0) => 17,
        (true, Some(3), 0) => 18,
        (true, _, 104..=107) => 19 + code - 104,
        (true, _, 109) => 23,
        _ => return,
    };
    coverage.note_burst(label);
}
