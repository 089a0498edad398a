//! The library alone: its queue runs, its writer records every accepted call, and its replay
//! accepts the log, whatever the tables hold.

use super::lender::Lender;
use super::model::{asked, Replayed};
use super::runs::{self, Run};
use crate::failure::{expect, Failure};
use crate::log::lender::Lender as Writer;
use crate::log::types::{Record, Settings, ARRIVAL, DEPARTURE};
use crate::own::Own;
use crate::shared::random::Random;

/// The places of probability and bytes among the words of the queue's state.
const PROBABILITY: usize = 5;
const BYTES: usize = 14;

/// A queue of the library, with tables of any content.
fn made(r: &mut Random, s: &Settings) -> Own {
    let a = asked(s);
    let mut table = || (0..s.slots).map(|_| r.number() as u32).collect();
    Own::fresh([a.target, a.buffer, a.slots, a.profile, a.clock], table(), table())
}

/// Makes the call; where it is accepted, the record of it.
fn record_of(queue: &mut Own, call: &Record) -> Option<Record> {
    let (answer, verdict) = if call.kind == ARRIVAL {
        let answer = queue.arrival(call.clock, (call.handle, call.size, call.ecn == 1, call.u));
        (answer, answer)
    } else if call.kind == DEPARTURE {
        let (answer, [handle, _]) = queue.departure(call.clock, [0; 2]);
        (answer, handle)
    } else {
        (queue.tick(call.clock), 0)
    };
    let (probability, bytes) = (queue.record[PROBABILITY], queue.record[BYTES] as u32);
    (answer < 100).then_some(Record { verdict, probability, bytes, ..*call })
}

/// A run of this kind; some of its calls are made twice, and refused ones are not recorded.
pub fn run(
    r: &mut Random,
    kind: u64,
    lender: &mut Lender,
    writer: &mut Writer,
) -> Result<(), Failure> {
    let Run { settings, records } = runs::run(r, kind, 2_000);
    let mut queue = made(r, &settings);
    writer.lend(&vec![0; 48 + 40 * 2 * records.len()]);
    let mut state = writer.begin(&settings, b"").1;
    for call in &records {
        for _ in 0..r.pick(&[1, 1, 1, 2]) {
            if let Some(record) = record_of(&mut queue, call) {
                let (answer, next) = writer.add(state, &record);
                expect("the answer of add", answer, 0)?;
                state = next;
            }
        }
    }
    let length = 48 + 40 * state.count as usize;
    lender.lend(&writer.lent()[..length]);
    let table: Vec<u32> = (0..settings.slots).map(|_| r.number() as u32).collect();
    let found = Replayed {
        record: u64::from(state.count),
        probability: queue.record[PROBABILITY],
        bytes: queue.record[BYTES],
        ..Replayed::default()
    };
    expect("the replay of the library's own log", lender.replay(&table, &table), (0, found))
}
