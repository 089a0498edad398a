//! Two queues in one pair of tables as a kind. A call is for queue 0 or 1; fresh is for both.

use crate::library::*;
use crate::model::arrival::arrival;
use crate::model::departure::departure;
use crate::model::formed::well_formed;
use crate::model::fresh::fresh;
use crate::model::refusals::*;
use crate::model::tick::tick;
use crate::model::{self, Records, Settings};
use crate::shared::kind::{self, widened, Kind, Packet, Refusals, View, What};
use crate::shared::lend::Memory;
pub use crate::states::{arriving, view_of};
use crate::words::*;

pub struct Two;

pub type Side = kind::Side<Records>;
/// Fresh has the slots and the settings of both queues.
pub type Call = kind::Call<usize, (u64, [Settings; 2])>;

/// The queues by name.
pub const QUEUES: [&str; 2] = ["intercom", "passengers"];

pub fn fresh_call(slots: u64, settings: [Settings; 2]) -> Call {
    Call::fresh(0, (slots, settings), 0)
}

impl Kind for Two {
    const PARTS: &'static [usize] = &[6, 21, 21];
    const SIZES_ARE_READ: bool = false;
    const TICK_PERIOD: u64 = model::numbers::TICK_PERIOD;

    type State = Records;
    type To = usize;
    type Settings = (u64, [Settings; 2]);
    type Words = [u64; 48];

    fn words(r: &Records) -> [u64; 48] {
        let mut all = [0; 48];
        all[..6].copy_from_slice(&shared_words(&r.shared));
        all[6..27].copy_from_slice(&queue_words(&r.queues[0]));
        all[27..].copy_from_slice(&queue_words(&r.queues[1]));
        all
    }

    fn state_of(words: &[u64; 48]) -> Records {
        let (mut shared, mut queues) = ([0; 6], [[0; 21]; 2]);
        shared.copy_from_slice(&words[..6]);
        queues[0].copy_from_slice(&words[6..27]);
        queues[1].copy_from_slice(&words[27..]);
        Records { shared: shared_of(&shared), queues: queues.map(|queue| queue_of(&queue)) }
    }

    fn fields() -> Vec<String> {
        let mut all: Vec<String> = SHARED_FIELDS.iter().map(|name| name.to_string()).collect();
        for queue in QUEUES {
            all.extend(QUEUE_FIELDS.iter().map(|name| format!("{queue} {name}")));
        }
        all
    }

    fn view(r: &Records, to: &usize) -> View {
        view_of(&r.queues[*to], r.shared.slots)
    }

    fn places(r: &Records) -> Vec<u64> {
        let ends = r.queues.iter().flat_map(|q| [q.head, q.tail]);
        ends.chain([r.shared.freed, r.shared.used]).collect()
    }

    fn model(side: &mut Side, call: &Call) -> Result<u32, u32> {
        let (queue, clock) = (call.to, call.clock);
        let (r, (handles, sizes)) = side.lend(call.lent);
        match call.what {
            What::Fresh((slots, settings)) => {
                let (answer, made) = fresh(slots, settings);
                *r = made;
                answer.map(|()| 0)
            }
            What::Arrival(p) => {
                let verdict = arrival(r, queue, (handles, sizes), clock, &arriving(&p))?;
                Ok(verdict as u32)
            }
            What::Departure => {
                let (handle, size) = departure(r, queue, (&*handles, sizes), clock)?;
                side.packet = Packet { flow: 0, handle, size };
                Ok(0)
            }
            What::Tick(_) => tick(r, queue, clock).map(|()| 0),
        }
    }

    fn model_formed(r: &Records, _: &usize) -> bool {
        well_formed(r)
    }

    fn applying(before: &Side, call: &Call) -> Refusals {
        let (r, queue, clock) = (&before.state, call.to, call.clock);
        let tables = before.tables(call.lent);
        widened(match call.what {
            What::Fresh((slots, settings)) => fresh_refusals(slots, &settings),
            What::Arrival(p) => arrival_refusals(r, queue, tables, clock, &arriving(&p)),
            What::Departure => departure_refusals(r, queue, tables, clock),
            What::Tick(_) => tick_refusals(r, queue, clock),
        })
    }

    #[rustfmt::skip]
    fn library(m: &Memory, call: &Call) -> u32 {
        let ([shared, first, second, _], queue, clock) = (m.parts, call.to == 1, call.clock);
        let (own, other) = if queue { (second, first) } else { (first, second) };
        let (h, hl, s, sl) = (m.handles, m.handles_len, m.sizes, m.sizes_len);
        unsafe {
            match call.what {
                What::Fresh((slots, [a, b])) => obikuteru_pair_fresh(shared, first, second, slots,
                    a.target, a.buffer, a.reserve, a.clock, b.target, b.buffer, b.reserve, b.clock),
                What::Arrival(p) => obikuteru_pair_arrival_of(
                    shared, own, other, queue, h, hl, s, sl, clock, p.handle, p.size, p.ecn, p.u),
                What::Departure => obikuteru_pair_departure_of(shared, own, other, queue, h, hl, s, sl, clock, m.packet),
                What::Tick(_) => obikuteru_pair_tick_of(shared, own, other, queue, clock),
            }
        }
    }

    fn formed(m: &Memory, _: &usize) -> bool {
        unsafe { obikuteru_pair_well_formed(m.parts[0], m.parts[1], m.parts[2]) }
    }

    #[rustfmt::skip]
    fn burst(m: &Memory, _: &usize, calls: &[u32], answers: &mut [u64]) -> u32 {
        let ([shared, first, second, _], c, cl) = (m.parts, calls.as_ptr(), calls.len());
        let (a, al) = (answers.as_mut_ptr(), answers.len());
        let (h, hl, s, sl) = (m.handles, m.handles_len, m.sizes, m.sizes_len);
        unsafe { obikuteru_pair_calls(shared, first, second, h, hl, s, sl, c, cl, a, al) }
    }

    /// The other queue's record, and at a tick the shared one.
    fn only_read(call: &Call) -> &'static [usize] {
        match (&call.what, call.to) {
            (What::Fresh(_), _) => &[],
            (What::Tick(_), 0) => &[0, 2],
            (What::Tick(_), _) => &[0, 1],
            (_, 0) => &[2],
            _ => &[1],
        }
    }
}
