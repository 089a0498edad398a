//! The script program by the model: what `./obikuteru fq` must print.

use crate::flows::hash::Key;
use crate::flows::{Record, Settings};
use crate::kind::{fresh_call, Call, Flows, Side, NOBODY};
use crate::shared::kind::{Arriving, Lent, What};
use crate::shared::script::{self, answer_word, number};

/// The most slots of a script's record.
const SLOTS: u64 = 4_096;

/// Answers the script on standard input.
pub fn run() {
    let mut side = None;
    script::run(|line| answer(line, &mut side));
}

/// The answer to a line, or none if it is bad. The first line makes the record, and no other may.
fn answer(line: &[u8], side: &mut Option<Side>) -> Option<String> {
    let call = call(line)?;
    if call.is_fresh() != side.is_none() {
        return None;
    }
    let side = side.get_or_insert_with(|| {
        let table = vec![0; SLOTS as usize];
        Side::new(Record::zero(), table.clone(), table)
    });
    // Tables of the slots are lent, which are 0 after a refused fresh.
    let lent = Lent::both(side.state.common.slots as usize);
    side.call_model::<Flows>(&Call { lent, ..call });
    let packet = side.packet;
    let word = answer_word(call.place(), side.answer);
    let (word, flow) = match (&call.what, side.answer) {
        (What::Fresh(_), 0) => ("ok".to_string(), None),
        (What::Arrival(_), 0..=4) => (format!("{word} {}", side.flow), Some(side.flow)),
        (What::Departure, 0) => {
            (format!("departed {} {}", packet.flow, packet.handle), Some(packet.flow))
        }
        _ => (word, None),
    };
    let (r, most) = (&side.state, side.state.flows.iter().map(|f| f.probability).max());
    let (probability, bytes) = match flow.map(|flow| &r.flows[flow as usize]) {
        Some(flow) => (flow.probability, flow.bytes),
        None => (most.unwrap_or(0), r.common.bytes),
    };
    Some(format!("{word} {probability} {bytes}"))
}

/// A line of one of the four forms: fields one space apart.
fn call(line: &[u8]) -> Option<Call> {
    let line = std::str::from_utf8(line).ok()?;
    let words: Vec<&str> = line.split(' ').collect();
    let narrow = |word: &str| number(word).and_then(|field| u32::try_from(field).ok());
    match words[..] {
        ["c", target, buffer, slots, salt] => {
            let (target, buffer) = (u64::from(narrow(target)?), u64::from(narrow(buffer)?));
            let slots = number(slots).filter(|&slots| slots <= SLOTS)?;
            Some(fresh_call(Settings { target, buffer, slots, salt: narrow(salt)?, clock: 0 }))
        }
        ["a", clock, key, handle, size, ecn, u] => {
            let ecn = number(ecn).filter(|&ecn| ecn <= 1)? == 1;
            let packet =
                Arriving { handle: narrow(handle)?, size: narrow(size)?, ecn, u: narrow(u)? };
            Some(Call::arrival(key_of(key)?, Lent::both(0), number(clock)?, packet))
        }
        ["d", clock] => Some(Call::departure(NOBODY, Lent::both(0), number(clock)?)),
        ["t", clock] => Some(Call::tick(NOBODY, number(clock)?, 0)),
        _ => None,
    }
}

/// 13 bytes as 26 hexadecimal digits of either case.
fn key_of(word: &str) -> Option<Key> {
    let digits = word.len() == 26 && word.bytes().all(|byte| byte.is_ascii_hexdigit());
    let mut key = [0; 13];
    for (place, byte) in key.iter_mut().enumerate() {
        *byte = u8::from_str_radix(digits.then(|| &word[2 * place..2 * place + 2])?, 16).ok()?;
    }
    Some(key)
}
