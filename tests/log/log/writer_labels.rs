//! What the writer's calls reached: answers and their order, states, ends of every range.

use super::model;
use super::range_labels;
use super::types::{Record, Settings, State};
use crate::coverage::{owned, Coverage};

const BEGUN: usize = 0;
const ADDED: usize = 1;
const STATES: usize = 2;
pub const SETTINGS_EDGES: usize = 3;
pub const RECORD_EDGES: usize = 4;

const BEGIN_LABELS: [&str; 11] = [
    "accepted, no note",
    "accepted, a note of 4,096",
    "accepted, not a byte to spare",
    "accepted, bytes to spare",
    "refused 12",
    "refused 12 and 14",
    "refused 14, a note of 4,097 with room",
    "refused 14, one byte short",
    "refused 14, no bytes",
    "refused 14, 47 bytes and no note",
    "accepted, 48 bytes and no note",
];

const ADD_LABELS: [&str; 13] = [
    "accepted, the first record",
    "accepted, the 100,000th record",
    "accepted, not a byte to spare",
    "refused 11",
    "refused 13",
    "refused 14, 100,000 are there, with room",
    "refused 14, one byte short",
    "refused 14, no byte beyond the trailer",
    "refused 11 and 13",
    "refused 11 and 14",
    "refused 13 and 14",
    "refused 11, 13 and 14",
    "refused 11 by a refused begin's state",
];

const STATE_LABELS: [&str; 13] = [
    "offset 31 refused with room",
    "offset 32 accepted",
    "offset 4,128 accepted",
    "offset 4,129 refused with room",
    "offset 2^32 - 1 refused",
    "count 100,000 not refused by 11",
    "count 100,001 refused with room",
    "count 2^32 - 1 refused",
    "trailer one byte beyond the end refused",
    "trailer at the very end not refused by 11",
    "no bytes refused",
    "count whose length wraps in 32 bits refused",
    "offset whose length wraps in 32 bits refused",
];

pub fn coverage() -> Coverage {
    Coverage::new(vec![
        ("begin", owned(&BEGIN_LABELS)),
        ("add", owned(&ADD_LABELS)),
        ("state given to add", owned(&STATE_LABELS)),
        ("settings at both sides of an end", range_labels::of_settings()),
        ("record at both sides of an end", range_labels::of_records()),
    ])
}

/// Counts one begin with a note of this length in this room.
pub fn note_begin(c: &mut Coverage, settings: &Settings, note: usize, room: usize, answer: u32) {
    let applying = model::begin_refusals(settings, note, room);
    let (done, exact) = (answer == 0, room == note + 48);
    let no_room = answer == 114 && note <= 4_096;
    c.hits(
        BEGUN,
        &[
            done && note == 0,
            done && note == 4_096,
            done && exact,
            done && !exact,
            answer == 112,
            applying[12] && applying[14],
            answer == 114 && note == 4_097 && room >= 4_145,
            no_room && room + 1 == note + 48,
            no_room && room == 0,
            no_room && room == 47 && note == 0,
            done && room == 48,
        ],
    );
}

/// Counts one add to this state in this room.
pub fn note_add(c: &mut Coverage, state: State, record: &Record, room: usize, answer: u32) {
    let applying = model::add_refusals(state, record, room);
    let (wrong, fault, full) = (applying[11], applying[13], applying[14]);
    let left = (room as u64).saturating_sub(model::length(state));
    let done = answer == 0;
    c.hits(
        ADDED,
        &[
            done && state.count == 0,
            done && state.count == 99_999,
            done && left == 40,
            answer == 111,
            answer == 113,
            answer == 114 && state.count == 100_000 && left >= 40,
            answer == 114 && state.count < 100_000 && left == 39,
            answer == 114 && left == 0,
            wrong && fault && !full,
            wrong && full && !fault,
            fault && full && !wrong,
            wrong && fault && full,
            answer == 111 && state == State::default(),
        ],
    );
    note_state(c, state, room as u64, answer);
}

fn note_state(c: &mut Coverage, state: State, room: u64, answer: u32) {
    let State { offset, count } = state;
    let (needed, refused) = (model::length(state), answer == 111);
    let wraps = needed >= 1 << 32 && needed % (1 << 32) <= room;
    let ranged = model::OFFSET.0 <= offset && offset <= model::OFFSET.1;
    let (few, fits) = (count <= 100_000, needed <= room);
    c.hits(
        STATES,
        &[
            refused && offset == 31 && few && fits,
            answer == 0 && offset == 32,
            answer == 0 && offset == 4_128,
            refused && offset == 4_129 && few && fits,
            refused && offset == u32::MAX,
            answer > 111 && count == 100_000,
            refused && ranged && count == 100_001 && fits,
            refused && count == u32::MAX,
            refused && ranged && few && needed == room + 1,
            !refused && needed == room,
            refused && room == 0,
            refused && ranged && wraps,
            refused && few && wraps,
        ],
    );
}
