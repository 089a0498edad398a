//! A plain model of the replay, written from docs/LOG.md and ticket Q-10 alone. The rules of the
//! queue are those of the queue's own model.

use crate::log::model::{lowest, Refusals};
use crate::log::types::{Record, Settings, ARRIVAL, DEPARTURE};
use crate::log::whole;
use crate::model::{self as queue, Arriving, Asked, State};
use crate::shared::area::Plain;

/// What a replay found, in the order of the C header.
#[repr(C)]
#[derive(Clone, Copy, PartialEq, Eq, Default, Debug)]
pub struct Replayed {
    pub record: u64,
    pub refusal: u64,
    pub verdict: u64,
    pub probability: u64,
    pub bytes: u64,
}

impl Plain for Replayed {}

pub const VERDICT: u32 = 1;
pub const PROBABILITY: u32 = 2;
pub const BYTES: u32 = 3;

/// The refusals of a replay: those of the log read whole, then 3. The slots are looked at where
/// the settings are right.
pub fn refusals(log: &[u8], handles: usize, sizes: usize) -> Refusals {
    let mut applying = whole::refusals(log);
    if !applying[11] && !applying[12] {
        let slots = crate::log::model::settings(log).1.slots as usize;
        applying[3] = handles != slots || sizes != slots;
    }
    applying
}

/// Of 11, 12 and 13 the lowest, and only then 3.
fn refusal(mut applying: Refusals) -> u32 {
    let tables = applying[3];
    applying[3] = false;
    match lowest(&applying) {
        0 if tables => 103,
        answer => answer,
    }
}

/// The fresh call that settings stand for.
pub fn asked(s: &Settings) -> Asked {
    Asked {
        target: s.target,
        buffer: u64::from(s.buffer),
        slots: u64::from(s.slots),
        profile: u64::from(s.profile),
        clock: s.clock,
    }
}

/// The queue that the rules run on.
pub struct Queue<'a> {
    pub state: State,
    pub handles: &'a mut [u32],
    pub sizes: &'a mut [u32],
}

impl Queue<'_> {
    pub fn new<'a>(s: &Settings, handles: &'a mut [u32], sizes: &'a mut [u32]) -> Queue<'a> {
        let (_, state) = queue::fresh(&asked(s));
        Queue { state, handles, sizes }
    }

    /// The recorded call by the rules: its verdict, or the number of the refusal.
    pub fn call(&mut self, r: &Record) -> Result<u32, u32> {
        let state = &mut self.state;
        if r.kind == ARRIVAL {
            let packet = Arriving { handle: r.handle, size: r.size, ecn: r.ecn == 1, u: r.u };
            let verdict = queue::arrival(state, self.handles, self.sizes, r.clock, &packet)?;
            Ok(verdict as u32)
        } else if r.kind == DEPARTURE {
            let (handle, _) = queue::departure(state, self.handles, self.sizes, r.clock)?;
            Ok(handle)
        } else {
            queue::tick(state, r.clock)?;
            Ok(0)
        }
    }
}

/// The first field in which a record is not what the rules gave; 0 where all agree.
fn disagreement(r: &Record, verdict: Result<u32, u32>, state: &State) -> u32 {
    if verdict != Ok(r.verdict) {
        VERDICT
    } else if state.probability != r.probability {
        PROBABILITY
    } else if state.bytes != u64::from(r.bytes) {
        BYTES
    } else {
        0
    }
}

/// Runs the rules over a log: the answer and what was found. The tables hold what they wrote.
pub fn replay(log: &[u8], handles: &mut [u32], sizes: &mut [u32]) -> (u32, Replayed) {
    let answer = refusal(refusals(log, handles.len(), sizes.len()));
    let Ok(whole) = whole::read(log) else { return (answer, Replayed::default()) };
    if answer != 0 {
        return (answer, Replayed::default());
    }
    let mut queue = Queue::new(&whole.settings, handles, sizes);
    for (number, record) in whole.records.iter().enumerate() {
        let verdict = queue.call(record);
        let field = disagreement(record, verdict, &queue.state);
        if field != 0 {
            return (field, found(number, verdict, &queue.state));
        }
    }
    (0, found(whole.records.len(), Ok(0), &queue.state))
}

fn found(number: usize, verdict: Result<u32, u32>, state: &State) -> Replayed {
    Replayed {
        record: number as u64,
        refusal: u64::from(verdict.err().unwrap_or(0)),
        verdict: u64::from(verdict.unwrap_or(0)),
        probability: state.probability,
        bytes: state.bytes,
    }
}
