//! What the replays reached: answers, fields and kinds, orders of refusals, ends of a run.

use super::model::{self, BYTES, PROBABILITY, VERDICT};
use super::player::Replay;
use crate::coverage::{owned, Coverage};
use crate::log::types::{Record, ARRIVAL, DEPARTURE, TICK};
use crate::log::whole::{self, Whole};

const ANSWERS: usize = 0;
const ACCEPTED: usize = 1;
const FIELDS: usize = 2;
const BESIDE: usize = 3;
const REFUSALS: usize = 4;
const ORDERS: usize = 5;
const TABLES: usize = 6;
const PROFILES: usize = 7;

const ANSWER_LABELS: [&str; 8] = [
    "accepted",
    "verdict",
    "probability",
    "bytes",
    "refused 3",
    "refused 11",
    "refused 12",
    "refused 13",
];

const ACCEPTED_LABELS: [&str; 21] = [
    "no records",
    "one record",
    "100,000 records",
    "one slot",
    "65,536 slots",
    "65,536 slots, all taken",
    "a buffer of 1",
    "an arrival enqueued",
    "a mark",
    "a drop for bytes",
    "a drop for slots",
    "an early drop",
    "an early drop of an ECN-capable packet",
    "a departure",
    "a tick",
    "a clock of 2^48",
    "probability above 0 at the end",
    "probability 0 after one above 0",
    "bytes at the end",
    "no bytes after some",
    "tables untouched by records",
];

const FIELD_LABELS: [&str; 11] = [
    "verdict of an arrival",
    "verdict of a departure",
    "probability of an arrival",
    "probability of a departure",
    "probability of a tick",
    "bytes of an arrival",
    "bytes of a departure",
    "bytes of a tick",
    "the first record",
    "a record amid others",
    "the last record",
];

const BESIDE_LABELS: [&str; 11] = [
    "verdict and probability: verdict",
    "verdict and bytes: verdict",
    "probability and bytes: probability",
    "verdict, probability and bytes: verdict",
    "refused call with the state's probability and bytes",
    "probability one too high",
    "probability one too low",
    "bytes one too many",
    "bytes one too few",
    "the rules enqueue, the record drops",
    "the rules drop, the record enqueues",
];

const REFUSAL_LABELS: [&str; 6] =
    ["4, arrival", "4, departure", "4, tick", "5, tick", "6, departure", "4 at the first record"];

/// The first four are met one by one: with right tables and with others.
const ORDER_LABELS: [&str; 8] = [
    "a record that disagrees, else 3",
    "13 behind a record that disagrees, and with 3",
    "12 with 13, and with 3",
    "11 with all of them",
    "13 and 3",
    "3 where all else would be accepted",
    "3 in a log without records",
    "a refused log leaves the tables",
];

const TABLE_LABELS: [&str; 8] = [
    "handles one too few",
    "handles one too many",
    "sizes one too few",
    "sizes one too many",
    "both wrong",
    "one too few and one too many",
    "no handles",
    "no sizes",
];

const PROFILE_LABELS: [&str; 6] = [
    "calm: accepted, with an early verdict",
    "calm: accepted, probability 0 after one above 0",
    "calm run, the log says plain: accepted",
    "calm run, the log says plain: disagrees",
    "plain run, the log says calm: accepted",
    "plain run, the log says calm: disagrees",
];

pub fn coverage() -> Coverage {
    Coverage::new(vec![
        ("answer", owned(&ANSWER_LABELS)),
        ("accepted", owned(&ACCEPTED_LABELS)),
        ("field and record", owned(&FIELD_LABELS)),
        ("record beside the rules", owned(&BESIDE_LABELS)),
        ("call that the rules refuse", owned(&REFUSAL_LABELS)),
        ("order", owned(&ORDER_LABELS)),
        ("tables of other lengths", owned(&TABLE_LABELS)),
        ("profile", owned(&PROFILE_LABELS)),
    ])
}

pub fn note(coverage: &mut Coverage, replay: &Replay) {
    let answers = [0, VERDICT, PROBABILITY, BYTES, 103, 111, 112, 113];
    coverage.hits(ANSWERS, &answers.map(|answer| replay.answer == answer));
    note_order(coverage, replay);
    let Ok(whole) = whole::read(replay.log) else { return };
    match replay.answer {
        0 => note_accepted(coverage, replay, &whole),
        103 => note_tables(coverage, replay, &whole),
        _ => {
            note_field(coverage, replay, &whole);
            note_beside(coverage, replay, &whole);
            note_refusal(coverage, replay, &whole);
        }
    }
}

fn note_order(coverage: &mut Coverage, replay: &Replay) {
    let applying = model::refusals(replay.log, replay.tables.0, replay.tables.1);
    let answer = replay.answer;
    let empty = whole::read(replay.log).map_or(false, |whole| whole.records.is_empty());
    coverage.hits(
        ORDERS,
        &[
            false,
            false,
            false,
            false,
            answer == 113 && applying[3],
            answer == 103 && !empty,
            answer == 103 && empty,
            answer > 100 && replay.untouched && replay.tables.0 > 0,
        ],
    );
}

/// One of the first four of `ORDER_LABELS` was met.
pub fn note_faults(coverage: &mut Coverage, label: usize) {
    coverage.hit(ORDERS, label);
}

/// A run in one profile was replayed in the other.
pub fn note_other_profile(coverage: &mut Coverage, run_in: u8, answer: u32) {
    let (calm, accepted) = (run_in == 1, answer == 0);
    let at = [calm && accepted, calm && !accepted, !calm && accepted, !calm && !accepted];
    coverage.hits(PROFILES, &[false, false, at[0], at[1], at[2], at[3]]);
}

fn note_accepted(coverage: &mut Coverage, replay: &Replay, whole: &Whole) {
    let records = &whole.records;
    let any = |holds: &dyn Fn(&Record) -> bool| records.iter().any(holds);
    let verdict = |verdict| any(&|r: &Record| r.kind == ARRIVAL && r.verdict == verdict);
    coverage.hits(
        ACCEPTED,
        &[
            records.is_empty(),
            records.len() == 1,
            records.len() == 100_000,
            whole.settings.slots == 1 && !records.is_empty(),
            whole.settings.slots == 65_536 && !records.is_empty(),
            whole.settings.slots == 65_536 && verdict(3),
            whole.settings.buffer == 1 && !records.is_empty(),
            verdict(0),
            verdict(1),
            verdict(2),
            verdict(3),
            verdict(4),
            any(&|r: &Record| r.kind == ARRIVAL && r.verdict == 4 && r.ecn == 1),
            any(&|r: &Record| r.kind == DEPARTURE),
            any(&|r: &Record| r.kind == TICK),
            any(&|r: &Record| r.clock == 1 << 48),
            replay.found.probability > 0,
            replay.found.probability == 0 && any(&|r: &Record| r.probability > 0),
            replay.found.bytes > 0,
            replay.found.bytes == 0 && any(&|r: &Record| r.bytes > 0),
            replay.untouched && !records.is_empty(),
        ],
    );
    let calm = whole.settings.profile == 1;
    let back = replay.found.probability == 0 && any(&|r: &Record| r.probability > 0);
    let early = verdict(1) || verdict(4);
    coverage.hits(PROFILES, &[calm && early, calm && back, false, false, false, false]);
}

fn note_field(coverage: &mut Coverage, replay: &Replay, whole: &Whole) {
    let number = replay.found.record as usize;
    let kind = whole.records[number].kind;
    let at = |answer, k| replay.answer == answer && kind == k && replay.found.refusal == 0;
    let last = whole.records.len() - 1;
    coverage.hits(
        FIELDS,
        &[
            at(VERDICT, ARRIVAL),
            at(VERDICT, DEPARTURE),
            at(PROBABILITY, ARRIVAL),
            at(PROBABILITY, DEPARTURE),
            at(PROBABILITY, TICK),
            at(BYTES, ARRIVAL),
            at(BYTES, DEPARTURE),
            at(BYTES, TICK),
            number == 0 && last > 0,
            number > 0 && number < last,
            number == last && last > 0,
        ],
    );
}

fn note_beside(coverage: &mut Coverage, replay: &Replay, whole: &Whole) {
    let record = &whole.records[replay.found.record as usize];
    let found = &replay.found;
    let refused = found.refusal > 0;
    let verdict = !refused && u64::from(record.verdict) != found.verdict;
    let probability = record.probability != found.probability;
    let bytes = u64::from(record.bytes) != found.bytes;
    let only_probability = !verdict && !refused && probability && !bytes;
    let only_bytes = !verdict && !refused && !probability && bytes;
    let enters = |verdict: u64| verdict < 2;
    let arrival = !refused && record.kind == ARRIVAL;
    let entered = enters(found.verdict);
    coverage.hits(
        BESIDE,
        &[
            verdict && probability && !bytes,
            verdict && !probability && bytes,
            !verdict && !refused && probability && bytes,
            verdict && probability && bytes,
            refused && !probability && !bytes && found.bytes > 0,
            only_probability && record.probability == found.probability + 1,
            only_probability && record.probability + 1 == found.probability,
            only_bytes && u64::from(record.bytes) == found.bytes + 1,
            only_bytes && u64::from(record.bytes) + 1 == found.bytes,
            arrival && entered && !enters(record.verdict.into()),
            arrival && !entered && enters(record.verdict.into()),
        ],
    );
}

fn note_refusal(coverage: &mut Coverage, replay: &Replay, whole: &Whole) {
    let kind = whole.records[replay.found.record as usize].kind;
    let at = |refusal, k| replay.found.refusal == refusal && kind == k;
    coverage.hits(
        REFUSALS,
        &[
            at(4, ARRIVAL),
            at(4, DEPARTURE),
            at(4, TICK),
            at(5, TICK),
            at(6, DEPARTURE),
            replay.found.refusal == 4 && replay.found.record == 0,
        ],
    );
}

fn note_tables(coverage: &mut Coverage, replay: &Replay, whole: &Whole) {
    let slots = whole.settings.slots as usize;
    let (handles, sizes) = replay.tables;
    coverage.hits(
        TABLES,
        &[
            handles + 1 == slots && sizes == slots,
            handles == slots + 1 && sizes == slots,
            handles == slots && sizes + 1 == slots,
            handles == slots && sizes == slots + 1,
            handles != slots && sizes == handles,
            handles + 1 == slots && sizes == slots + 1,
            handles == 0 && sizes == slots,
            handles == slots && sizes == 0,
        ],
    );
}
