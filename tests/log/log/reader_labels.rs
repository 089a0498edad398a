//! What the reads reached: answers and their order, places, ends of every range.

use super::model::{self, TRAILER_FAULTS};
use super::range_labels;
use super::types::{Part, State};
use crate::coverage::{owned, Coverage};

const READS: usize = 0;
const PLACES: usize = 1;
const TRAILERS: usize = 2;
const TRAILER_ENDS: usize = 3;
pub const SETTINGS_EDGES: usize = 4;
pub const RECORD_EDGES: usize = 5;
const OTHERS: usize = 6;

const READ_LABELS: [&str; 13] = [
    "accepted",
    "end",
    "refused 11",
    "refused 12",
    "refused 13",
    "refused 11, not 12",
    "refused 11 and 12",
    "refused 11, with a place from the count on",
    "refused 12, with a place from the count on",
    "refused 12, the record reached at fault",
    "end though a record is at fault",
    "accepted though another record is at fault",
    "refused 12 in a log without records",
];

const PLACE_LABELS: [&str; 12] = [
    "the first record",
    "the last record",
    "the 100,000th record",
    "the count: end",
    "the count and one: end",
    "2^32 and a record's number: end",
    "2^64 - 1: end",
    "a place whose offset wraps to the records: end",
    "place 0 of an empty log: end",
    "a refusal with place 0",
    "a refusal with place 2^64 - 1",
    "a record at an odd address",
];

const TRAILER_END_LABELS: [&str; 14] = [
    "offset 31 refused, all else right",
    "offset 32 accepted",
    "offset 4,128 accepted",
    "offset 4,129 refused, all else right",
    "count 0 accepted",
    "count 100,000 accepted",
    "count 100,001 refused, all else right",
    "record size 39 refused, all else right",
    "record size 41 refused, all else right",
    "a letter changed refused, all else right",
    "47 bytes refused",
    "count whose length wraps in 32 bits refused",
    "offset whose length wraps in 32 bits refused",
    "no bytes refused",
];

const OTHER_LABELS: [&str; 7] = [
    "settings read",
    "settings refused 11",
    "settings refused 12",
    "no note",
    "a note of 4,096",
    "note refused 11",
    "note refused 12",
];

pub fn coverage() -> Coverage {
    Coverage::new(vec![
        ("read", owned(&READ_LABELS)),
        ("place", owned(&PLACE_LABELS)),
        ("trailer, one fault alone", owned(&TRAILER_FAULTS)),
        ("trailer at both sides of an end", owned(&TRAILER_END_LABELS)),
        ("settings at both sides of an end", range_labels::of_settings()),
        ("record at both sides of an end", range_labels::of_records()),
        ("settings and note", owned(&OTHER_LABELS)),
    ])
}

/// Counts one read of a record and its answer.
pub fn note_read(coverage: &mut Coverage, log: &[u8], place: u64, answer: u32) {
    let applying = model::open_refusals(log);
    let count = u64::from(model::trailer_of(log).count);
    let opened = answer == 0 || answer == model::END || answer == 113;
    let past = place >= count;
    let fault = |place| model::record_faults(&model::record_at(log, place)).contains(&true);
    let reached = !applying[11] && !past && fault(place);
    let other = opened && count < 10 && (0..count).any(fault);
    coverage.hits(
        READS,
        &[
            answer == 0,
            answer == model::END,
            answer == 111,
            answer == 112,
            answer == 113,
            applying[11] && !applying[12] && log.len() >= 48,
            applying[11] && applying[12],
            answer == 111 && past,
            answer == 112 && past,
            answer == 112 && reached,
            answer == model::END && other,
            answer == 0 && other,
            answer == 112 && count == 0,
        ],
    );
    note_place(coverage, model::trailer_of(log), place, answer);
}

fn note_place(coverage: &mut Coverage, trailer: State, place: u64, answer: u32) {
    let count = u64::from(trailer.count);
    let (done, end, refused) = (answer == 0, answer == model::END, answer > 100);
    let wrapped = place.wrapping_mul(40) < 40 * count;
    coverage.hits(
        PLACES,
        &[
            done && place == 0,
            done && place + 1 == count,
            done && place == 99_999,
            end && count > 0 && place == count,
            end && place == count + 1,
            end && place >> 32 == 1 && place % (1 << 32) < count,
            end && place == u64::MAX,
            end && wrapped && place > 1 << 58,
            end && place == 0,
            refused && place == 0,
            refused && place == u64::MAX,
            done && trailer.offset % 2 == 1,
        ],
    );
}

/// Counts one read of the settings and one of the note.
pub fn note_others(coverage: &mut Coverage, log: &[u8], answer: u32, note: (u32, Part)) {
    coverage.hits(
        OTHERS,
        &[
            answer == 0,
            answer == 111,
            answer == 112,
            note.0 == 0 && note.1.length == 0,
            note.0 == 0 && note.1.length == 4_096,
            note.0 == 111,
            note.0 == 112,
        ],
    );
    coverage.hit_alone(TRAILERS, &model::trailer_faults(log));
    note_ends(coverage, log, answer);
}

fn note_ends(coverage: &mut Coverage, log: &[u8], answer: u32) {
    let faults = model::trailer_faults(log);
    let alone = |fault: usize| faults[fault] && faults.iter().filter(|&&f| f).count() == 1;
    let state = model::trailer_of(log);
    let State { offset, count } = state;
    let size = if log.len() < 48 { 0 } else { log[log.len() - 8] };
    let needed = model::length(state);
    let wraps = faults[6] && needed % (1 << 32) == log.len() as u64;
    let opened = answer != 111;
    coverage.hits(
        TRAILER_ENDS,
        &[
            alone(1) && offset == 31,
            opened && offset == 32,
            opened && offset == 4_128,
            alone(2) && offset == 4_129,
            opened && count == 0,
            opened && count == 100_000,
            alone(3) && count == 100_001,
            alone(4) && size == 39,
            alone(4) && size == 41,
            alone(5),
            log.len() == 47,
            faults[3] && !faults[2] && wraps,
            faults[2] && !faults[3] && wraps,
            log.is_empty(),
        ],
    );
}
