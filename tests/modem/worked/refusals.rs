//! W26 to W28: refusals.

use super::{other_rows, with_delay, Failure, Worked, FLOW};
use crate::kind::{packet, Call};
use crate::model::{Settings, State};
use crate::shared::kind::Lent;

const LIMIT: u64 = 1 << 48;

/// W28: target, peak, sustained, and the refusal (0: accepted).
const FRESH: [(u64, u64, u64, u64); 5] = [
    (10_000, 1, 1_250_000_000, 0),
    (10_000, 0, 1_250_000_000, 1),
    (10_000, 1, 1_250_000_001, 1),
    (0, 1, 1_250_000_000, 1),
    (10_000, 1_250_000_000, 1, 0),
];

pub fn run(worked: &mut Worked) -> Result<(), Failure> {
    ticks(worked)?;
    counts(worked)?;
    fresh(worked)
}

fn ticks(worked: &mut Worked) -> Result<(), Failure> {
    worked.name = "W26";
    let sound = State { clock: 0, last: 0, ..with_delay(10_000, 0, 0) };
    let zero = State::default();
    let cases = [
        (sound, 15, 15_999, 105),
        (sound, 15, 16_000, 0),
        (zero, 16, 15_999, 110),
        (zero, 15, 15_999, 102),
        (sound, 16, 16_000, 110),
        (sound, u32::MAX, 16_000, 110),
    ];
    for (state, flow, clock, figure) in cases {
        let rows = [[0; 5]; 16];
        let after = worked.call_with(state, rows, Call::tick(flow, clock, 0))?;
        worked.expect("the answer", u64::from(after.answer), figure)?;
    }
    Ok(())
}

fn counts(worked: &mut Worked) -> Result<(), Failure> {
    worked.name = "W27";
    let packet = packet(7, 100, 0);
    for (sum, arrival, tick) in [(LIMIT - 1, 0, 0), (LIMIT, 108, 0), (LIMIT + 1, 102, 102)] {
        let state = with_delay(10_000, 0, 0);
        let lent = Lent::both(state.settings.slots as usize);
        let mut counts = other_rows();
        counts[FLOW as usize] = [sum - 10, 1, 2, 3, 4];
        let call = Call::arrival(FLOW, lent, 1_000_000, packet);
        let after = worked.call_with(state, counts, call)?;
        worked.expect("the answer to an arrival", u64::from(after.answer), arrival)?;
        let after = worked.call_with(state, counts, Call::tick(FLOW, 1_000_000, 0))?;
        worked.expect("the answer to a tick", u64::from(after.answer), tick)?;
    }
    Ok(())
}

fn fresh(worked: &mut Worked) -> Result<(), Failure> {
    worked.name = "W28";
    for (target, peak, sustained, refusal) in FRESH {
        let settings = Settings { target, buffer: 30_000, slots: 64, peak, sustained };
        for (flow, figure) in [(15, refusal), (16, 10)] {
            let before = with_delay(10_000, 5, 5);
            let after = worked.call_with(before, [[7; 5]; 16], Call::fresh(flow, settings, 0))?;
            let answer = if figure == 0 { 0 } else { 100 + figure };
            worked.expect("the answer", u64::from(after.answer), answer)?;
            let cleared = if figure == 0 { 0 } else { 7 };
            worked.expect("a count of row 15", after.state.counts[15][4], cleared)?;
            worked.expect("a count of row 14", after.state.counts[14][4], 7)?;
            worked.expect(
                "the target",
                after.state.settings.target,
                if figure == 0 { target } else { 0 },
            )?;
        }
    }
    Ok(())
}
