//! What the comparisons reached: answers, what differs, beginnings, whose refusal.

use super::model::{self, Compared};
use crate::coverage::{owned, Coverage};
use crate::log::model::RECORD_FIELDS;
use crate::log::whole::{self, Whole};

/// One comparison that was compared: its inputs and the model's results.
pub struct Comparison<'a> {
    pub first: &'a [u8],
    pub second: &'a [u8],
    pub answer: u32,
    pub found: Compared,
}

const ANSWERS: usize = 0;
const REFUSED: usize = 1;
const SETTINGS: usize = 2;
const NOTES: usize = 3;
const FIELDS: usize = 4;
const RECORDS: usize = 5;
const ENDS: usize = 6;
const SEVERAL: usize = 7;

const ANSWER_LABELS: [&str; 9] = [
    "equal, no records",
    "equal, one record",
    "equal, 100,000 records",
    "equal, no note",
    "settings differ",
    "notes differ",
    "a record differs",
    "first ends",
    "second ends",
];

/// For each pair of refusals, the first log's and the second's; 0: none.
const REFUSALS: [u32; 4] = [0, 111, 112, 113];

const SETTINGS_LABELS: [&str; 5] =
    ["target alone", "buffer alone", "slots alone", "clock alone", "profile alone"];

const NOTE_LABELS: [&str; 7] = [
    "the first byte alone",
    "the last byte alone",
    "a byte amid others alone",
    "one byte more",
    "one byte fewer",
    "no note and a note",
    "both of 4,096 bytes",
];

const RECORD_LABELS: [&str; 6] = [
    "the first of several",
    "the last of several",
    "one amid others",
    "the 100,000th",
    "where the first log is shorter",
    "where the second log is shorter",
];

const END_LABELS: [&str; 11] = [
    "first without records",
    "second without records",
    "one record left of the second",
    "one record left of the first",
    "several left of the second",
    "several left of the first",
    "one record left of 100,000",
    "all of 100,000 left",
    "with a note",
    "without a note",
    "the part stands at an odd place",
];

const SEVERAL_LABELS: [&str; 6] = [
    "settings and notes: settings",
    "settings and records: settings",
    "settings and counts: settings",
    "notes and records: notes",
    "notes and counts: notes",
    "two records: the first of them",
];

pub fn coverage() -> Coverage {
    let name = |refusal: u32| if refusal == 0 { 0 } else { refusal - 100 };
    let pair = |i: u32| (REFUSALS[i as usize / 4], REFUSALS[i as usize % 4]);
    let refused = (1..16).map(pair).map(|(a, b)| format!("{} and {}", name(a), name(b)));
    let used: Vec<&str> = RECORD_FIELDS.into_iter().filter(|name| *name != "unused").collect();
    Coverage::new(vec![
        ("answer", owned(&ANSWER_LABELS)),
        ("refusals, 0 for none", refused.collect()),
        ("settings that differ", owned(&SETTINGS_LABELS)),
        ("notes that differ", owned(&NOTE_LABELS)),
        ("record that differs in one field", owned(&used)),
        ("record that differs", owned(&RECORD_LABELS)),
        ("proper beginning", owned(&END_LABELS)),
        ("several differences", owned(&SEVERAL_LABELS)),
    ])
}

pub fn note(coverage: &mut Coverage, c: &Comparison) {
    let (a, b) = (whole::read(c.first), whole::read(c.second));
    let index = |log: &Result<Whole, u32>| {
        let refusal = log.as_ref().err().copied().unwrap_or(0);
        REFUSALS.iter().position(|&number| number == refusal).unwrap_or(0)
    };
    let pair = 4 * index(&a) + index(&b);
    let (Ok(a), Ok(b)) = (a, b) else { return coverage.hit(REFUSED, pair - 1) };
    note_answer(coverage, c, &a);
    note_several(coverage, c, &a, &b);
    match c.answer {
        model::SETTINGS => note_settings(coverage, &a, &b),
        model::NOTES => note_notes(coverage, &a, &b),
        model::RECORDS => note_record(coverage, c, &a, &b),
        model::EQUAL => {}
        _ => note_end(coverage, c, &a, &b),
    }
}

fn note_answer(coverage: &mut Coverage, c: &Comparison, a: &Whole) {
    let equal = c.answer == model::EQUAL;
    coverage.hits(
        ANSWERS,
        &[
            equal && a.records.is_empty(),
            equal && a.records.len() == 1,
            equal && a.records.len() == 100_000,
            equal && a.note.is_empty(),
            c.answer == model::SETTINGS,
            c.answer == model::NOTES,
            c.answer == model::RECORDS,
            c.answer == model::FIRST_ENDS,
            c.answer == model::SECOND_ENDS,
        ],
    );
}

fn note_settings(coverage: &mut Coverage, a: &Whole, b: &Whole) {
    let (a, b) = (&a.settings, &b.settings);
    let differ = [
        a.target != b.target,
        a.buffer != b.buffer,
        a.slots != b.slots,
        a.clock != b.clock,
        a.profile != b.profile,
    ];
    coverage.hit_alone(SETTINGS, &differ);
}

fn note_notes(coverage: &mut Coverage, a: &Whole, b: &Whole) {
    let (a, b) = (&a.note, &b.note);
    let differing: Vec<usize> = (0..a.len().min(b.len())).filter(|&i| a[i] != b[i]).collect();
    let one = a.len() == b.len() && differing.len() == 1;
    let at = differing.first().copied().unwrap_or(0);
    let begins = differing.is_empty();
    coverage.hits(
        NOTES,
        &[
            one && at == 0,
            one && at + 1 == a.len(),
            one && at > 0 && at + 1 < a.len(),
            begins && a.len() == b.len() + 1,
            begins && a.len() + 1 == b.len(),
            a.is_empty() != b.is_empty(),
            a.len() == 4_096 && b.len() == 4_096,
        ],
    );
}

fn note_record(coverage: &mut Coverage, c: &Comparison, a: &Whole, b: &Whole) {
    let number = c.found.record as usize;
    let (r, s) = (&a.records[number], &b.records[number]);
    let differ = [
        r.kind != s.kind,
        r.ecn != s.ecn,
        r.handle != s.handle,
        r.clock != s.clock,
        r.size != s.size,
        r.u != s.u,
        r.verdict != s.verdict,
        r.bytes != s.bytes,
        r.probability != s.probability,
    ];
    coverage.hit_alone(FIELDS, &differ);
    let (ours, theirs) = (a.records.len(), b.records.len());
    coverage.hits(
        RECORDS,
        &[
            number == 0 && ours > 1,
            number + 1 == ours && ours == theirs && number > 0,
            number > 0 && number + 1 < ours.min(theirs),
            number == 99_999,
            ours < theirs,
            ours > theirs,
        ],
    );
}

fn note_end(coverage: &mut Coverage, c: &Comparison, a: &Whole, b: &Whole) {
    let (ours, theirs) = (a.records.len(), b.records.len());
    let longest = ours.max(theirs);
    coverage.hits(
        ENDS,
        &[
            ours == 0,
            theirs == 0,
            ours + 1 == theirs,
            theirs + 1 == ours,
            ours + 1 < theirs,
            theirs + 1 < ours,
            longest == 100_000 && ours.min(theirs) == 99_999,
            longest == 100_000 && ours.min(theirs) == 0,
            !a.note.is_empty(),
            a.note.is_empty(),
            c.found.part.from % 2 == 1,
        ],
    );
}

fn note_several(coverage: &mut Coverage, c: &Comparison, a: &Whole, b: &Whole) {
    let shared = a.records.len().min(b.records.len());
    let differing = (0..shared).filter(|&i| a.records[i] != b.records[i]).take(2).count();
    let counts = a.records.len() != b.records.len();
    let (settings, notes) = (c.answer == model::SETTINGS, c.answer == model::NOTES);
    coverage.hits(
        SEVERAL,
        &[
            settings && a.note != b.note,
            settings && differing > 0,
            settings && counts,
            notes && differing > 0,
            notes && counts,
            c.answer == model::RECORDS && differing > 1,
        ],
    );
}
