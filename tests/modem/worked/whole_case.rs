//! The page's whole case: flow 3, call by call, each with the state after it.

use super::{Failure, Worked};
use crate::kind::{packet, side, Call};
use crate::model::{Settings, State};
use crate::shared::kind::Lent;
use crate::shared::pair::Pair;

/// Probability, accumulated, old delay, activity, allowance and bytes after a call.
type After = (u64, u64, u64, u64, u64, u64);

#[derive(Clone, Copy)]
enum Step {
    /// So many arrivals of 1,500 bytes with u 0, from this clock, all with this answer.
    Arrive(u32, u64, u32),
    /// A tick at this clock with these credits.
    Tick(u64, u32),
    /// A departure at this clock, and the handle that leaves.
    Depart(u64, u32),
}

const STEPS: [(Step, After); 10] = [
    (Step::Arrive(7, 0, 0), (0, 0, 0, 0, 0, 10_500)),
    (Step::Arrive(1, 0, 0), (0, 0, 0, 1, 0, 12_000)),
    (Step::Arrive(5, 0, 0), (0, 0, 0, 1, 0, 19_500)),
    (Step::Tick(16_000, 2_000), (96_563_362, 0, 1_850_000, 1, 0, 19_500)),
    (Step::Tick(32_000, 0), (1_760_863_188, 0, 1_950_000, 1, 0, 19_500)),
    (Step::Arrive(1, 33_000, 0), (1_760_863_188, 2_579_389_435, 1_950_000, 1, 0, 21_000)),
    (Step::Arrive(1, 33_000, 4), (1_760_863_188, 0, 1_950_000, 2, 142_000, 21_000)),
    (Step::Arrive(1, 33_000, 0), (1_760_863_188, 0, 1_950_000, 2, 142_000, 22_500)),
    (Step::Tick(48_000, 0), (0, 0, 2_250_000, 2, 126_000, 22_500)),
    (Step::Depart(50_000, 101), (0, 0, 2_250_000, 2, 126_000, 21_000)),
];

const SETTINGS: Settings =
    Settings { target: 10_000, buffer: 30_000, slots: 64, peak: 20_000, sustained: 10_000 };

pub fn run(worked: &mut Worked) -> Result<(), Failure> {
    worked.name = "the whole case";
    let start = side(State::default(), [[9; 5]; 16], vec![0; 64], vec![0; 64]);
    let mut steps = Vec::new();
    let mut handle = 100;
    for (step, after) in STEPS {
        match step {
            Step::Arrive(packets, clock, answer) => {
                for last in (0..packets).rev() {
                    handle += 1;
                    let packet = packet(handle, 1_500, 0);
                    let call = Call::arrival(3, Lent::both(64), clock, packet);
                    steps.push((call, answer, (0, 0), (last == 0).then_some(after)));
                }
            }
            Step::Tick(clock, credits) => {
                steps.push((Call::tick(3, clock, credits), 0, (0, 0), Some(after)));
            }
            Step::Depart(clock, handle) => {
                let call = Call::departure(3, Lent::both(64), clock);
                steps.push((call, 0, (handle, 1_500), Some(after)));
            }
        }
    }
    let mut end = start.clone();
    {
        let mut pair = Pair::new(&start, worked.lender);
        pair.call(&Call::fresh(3, SETTINGS, 0))?;
        for (call, answer, packet, after) in steps {
            pair.call(&call)?;
            let found = &pair.library;
            let same = found.answer == answer && (found.packet.handle, found.packet.size) == packet;
            if !same || after.map_or(false, |after| after != seen(&found.state)) {
                let state = seen(&found.state);
                return Err(Failure::Broken(format!("the whole case: {call:?}: {state:?}")));
            }
            worked.checks += 1;
            end.copy_from(found);
        }
    }
    let mut rows = [[9; 5]; 16];
    rows[3] = [15, 0, 0, 0, 1];
    worked.expect("the counts are the page's: it", u64::from(end.state.counts == rows), 1)
}

fn seen(s: &State) -> After {
    (s.probability, s.accumulated, s.old_delay, s.activity, s.allowance, s.bytes)
}
