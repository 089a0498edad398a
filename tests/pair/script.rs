//! The script program by the model: what `./obikuteru pair` must print.

use crate::kind::{fresh_call, Call, Side, Two};
use crate::model::{Records, Settings};
use crate::shared::kind::{Arriving, Lent, What};
use crate::shared::script::{self, answer_word, number};

/// The most slots of a script's pair.
const SLOTS: u64 = 4_096;

/// Answers the script on standard input.
pub fn run() {
    let mut side = None;
    script::run(|line| answer(line, &mut side));
}

/// The answer to a line, or none if it is bad. The first line makes the pair, and no other may.
fn answer(line: &[u8], side: &mut Option<Side>) -> Option<String> {
    let call = call(line)?;
    if call.is_fresh() != side.is_none() {
        return None;
    }
    let side = side.get_or_insert_with(|| {
        let table = vec![0; SLOTS as usize];
        Side::new(Records::default(), table.clone(), table)
    });
    // Tables of the slots are lent, which are 0 after a refused fresh.
    let lent = Lent::both(side.state.shared.slots as usize);
    side.call_model::<Two>(&Call { lent, ..call });
    let q = side.state.queues[call.to];
    let word = match (&call.what, side.answer) {
        (What::Fresh(_), 0) => "ok".to_string(),
        (What::Departure, 0) => format!("departed {}", side.packet.handle),
        _ => answer_word(call.place(), side.answer),
    };
    Some(format!("{word} {} {}", q.probability, q.bytes))
}

/// A line of one of the four forms: fields one space apart.
fn call(line: &[u8]) -> Option<Call> {
    let line = std::str::from_utf8(line).ok()?;
    let mut words = line.split(' ');
    let name = words.next()?;
    let fields: Vec<u64> = words.map(number).collect::<Option<_>>()?;
    let none = Lent::both(0);
    match (name, &fields[..]) {
        ("c", &[slots, t0, b0, r0, t1, b1, r1]) => {
            let narrow = fields.iter().all(|&field| field <= u64::from(u32::MAX));
            let settings = |target, buffer, reserve| Settings { target, buffer, reserve, clock: 0 };
            let pair = [settings(t0, b0, r0), settings(t1, b1, r1)];
            (narrow && slots <= SLOTS).then(|| fresh_call(slots, pair))
        }
        ("a", &[queue, clock, handle, size, ecn, u]) => {
            let narrow = [handle, size, u].map(|field| u32::try_from(field).ok());
            let [Some(handle), Some(size), Some(u)] = narrow else { return None };
            let packet = Arriving { handle, size, ecn: ecn == 1, u };
            (queue <= 1 && ecn <= 1).then(|| Call::arrival(queue as usize, none, clock, packet))
        }
        ("d", &[queue, clock]) if queue <= 1 => Some(Call::departure(queue as usize, none, clock)),
        ("t", &[queue, clock]) if queue <= 1 => Some(Call::tick(queue as usize, clock, 0)),
        _ => None,
    }
}
