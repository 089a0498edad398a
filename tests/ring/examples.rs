//! The figures of the document, run on both sides. The figures themselves are checked as well, so
//! a misreading that model and library share would show here.

use crate::kind::{Call, Ring, Side};
use crate::model::{State, WHOLE};
use crate::shared::kind::{Arriving, Lent};
use crate::shared::lend::Lender;
use crate::shared::pair;
use crate::shared::pair::Pair;

type Failure = pair::Failure<Ring>;

const SLOTS: usize = 8;

/// Probability and the two delays before a tick, and the probability after it.
const TICKS: [(u64, u64, u64, u64); 9] = [
    (0, 16_000, 15_000, 2_883),
    (4_294, 16_000, 15_000, 7_177),
    (4_295, 16_000, 15_000, 15_829),
    (429_496_729, 16_000, 15_000, 432_449_519),
    (429_496_730, 16_000, 15_000, 435_402_310),
    (2_882, 14_000, 15_000, 0),
    (1_000_000, 0, 0, 736_650),
    (WHOLE, 10_000_000, 0, WHOLE),
    (5_000_000, 14_000, 15_000, 5_000_000 - 738_197),
];

/// Probability, old delay, bytes and u of an arrival that is not ECN-capable, with a starting sum
/// of 2^32, and whether it is dropped early.
const ARRIVALS: [(u64, u64, u64, u32, bool); 9] = [
    (5, 7_500, 3_001, 4, true),
    (5, 7_500, 3_001, 5, false),
    (0, 7_500, 3_001, 0, false),
    (WHOLE, 7_500, 3_001, u32::MAX, true),
    (858_993_459, 7_499, 3_001, 0, false),
    (858_993_459, 7_500, 3_001, 0, true),
    (858_993_460, 7_499, 3_001, 0, true),
    (858_993_459, 7_500, 3_000, 0, false),
    (858_993_460, 7_499, 3_000, 0, false),
];

/// Probability of an early arrival, whether it is ECN-capable, and the verdict.
const MARKS: [(u64, bool, u64); 6] = [
    (429_496_729, true, 1),
    (429_496_730, true, 4),
    (429_496_729, false, 4),
    (429_496_730, false, 4),
    (1, true, 1),
    (WHOLE, true, 4),
];

/// Accumulated probability, probability, u and ECN of an arrival that rules 1 to 5 leave open; the
/// verdict, and the accumulated probability after it.
const SUMS: [(u64, u64, u32, bool, u64, u64); 12] = [
    (WHOLE, 5, 4, false, 4, 0),
    (WHOLE, 5, 5, false, 0, 4_294_967_301),
    (3_650_722_196, 5, 0, false, 0, 3_650_722_201),
    (3_650_722_197, 5, 0, false, 4, 0),
    (3_650_722_197, 5, 0, true, 1, 0),
    (3_650_722_197, 5, 5, false, 0, 3_650_722_202),
    (36_507_222_010, 5, 5, false, 0, 36_507_222_015),
    (36_507_222_011, 5, 5, false, 4, 0),
    (36_507_222_011, 5, u32::MAX, true, 1, 0),
    (36_507_222_015, 0, 0, false, 0, 36_507_222_015),
    (36_507_222_015, WHOLE, u32::MAX, true, 4, 0),
    (0, 858_993_460, 0, false, 0, 858_993_460),
];

/// Profile, probability and the two delays before a tick, and the probability after it: the calm
/// profile's step is at most 85,899,345 where the probability is at least 429,496,730.
const CAPS: [(u64, u64, u64, u64, u64); 8] = [
    (1, 429_496_730, 25_000, 10_000, 515_396_075), // step 85,899,345
    (1, 429_496_730, 25_001, 10_001, 515_396_075), // step 85,899,882
    (0, 429_496_730, 25_001, 10_001, 515_396_612),
    (1, 429_496_729, 45_000, 10_000, 531_502_202), // step 102,005,473
    (0, 429_496_729, 45_000, 10_000, 531_502_202),
    (1, 429_496_730, 10_000_000, 0, 515_396_075),
    (1, WHOLE - 85_899_346, 10_000_000, 0, WHOLE - 1),
    (1, WHOLE - 85_899_345, 10_000_000, 0, WHOLE),
];

/// Buffer of a calm, inactive queue with 16,384 bytes, and whether an arrival turns it active; also
/// whether a tick that meets rule 8 leaves it active.
const THIRDS: [(u64, bool); 4] =
    [(49_151, true), (49_152, false), (49_153, false), (16_777_216, false)];

fn state() -> State {
    State {
        target: 15_000,
        buffer: 1_000_000,
        slots: SLOTS as u64,
        clock: 1_000_000,
        count: 2,
        bytes: 16_384,
        accumulated: WHOLE,
        active: 1,
        ..State::default()
    }
}

fn one(lender: &mut Lender, state: State, call: Call) -> Result<Side, Failure> {
    let start = Side::new(state, vec![1; SLOTS], vec![8_192; SLOTS]);
    let mut pair = Pair::new(&start, lender);
    pair.call(&call)?;
    Ok(pair.library)
}

fn expect(what: &str, found: u64, figure: u64) -> Result<(), Failure> {
    if found == figure {
        return Ok(());
    }
    Err(Failure::Broken(format!("{what} is {found}, and the document says {figure}")))
}

/// All of them; gives how many lines of the tables were met.
pub fn run(lender: &mut Lender) -> Result<u64, Failure> {
    let tick = Call::tick((), 1_015_000, 0);
    for (probability, delay, old_delay, figure) in TICKS {
        let before = State { probability, old_delay, average: delay, ..state() };
        let after = one(lender, before, tick)?;
        expect("the probability after a tick", after.state.probability, figure)?;
        expect("the delay", after.state.old_delay, delay)?;
    }
    let before = State { bytes: 32_768, average: 1_750, ..state() };
    expect("the delay", one(lender, before, tick)?.state.old_delay, 3_500)?;
    let before = State { allowance: 15_000, probability: 1_000_000, ..state() };
    expect("the allowance", one(lender, before, tick)?.state.allowance, 0)?;
    for (profile, probability, delay, old_delay, figure) in CAPS {
        let before = State { profile, probability, old_delay, average: delay, ..state() };
        let after = one(lender, before, tick)?;
        expect("the probability after a tick", after.state.probability, figure)?;
    }
    arrivals(lender)?;
    average(lender)?;
    last_packet(lender)?;
    thirds(lender)?;
    let arrivals = ARRIVALS.len() + MARKS.len() + SUMS.len();
    Ok((arrivals + TICKS.len() + CAPS.len() + THIRDS.len() + HEADS.len()) as u64)
}

/// An inactive queue turns active above a third of its buffer and begins anew; an active one turns
/// inactive at a tick that meets rule 8 with no more than that queued.
fn thirds(lender: &mut Lender) -> Result<(), Failure> {
    let lent = Lent::both(SLOTS);
    let packet = Arriving { handle: 7, size: 1_000, ecn: false, u: 0 };
    for (buffer, above) in THIRDS {
        let kept = (6_000, 7_000, 0, 5);
        let inactive = State { profile: 1, active: 0, buffer, accumulated: 5, ..state() };
        let running = State { measuring: 1, start: 9, counted: 8, ..inactive };
        let before = State { average: kept.0, old_delay: kept.1, allowance: kept.2, ..running };
        let after = one(lender, before, Call::arrival((), lent, 1_000_000, packet))?;
        let s = after.state;
        expect("the verdict", u64::from(after.answer), 0)?;
        expect("the activity", s.active, u64::from(above))?;
        let figures = if above { (0, 0, 150_000, 0) } else { kept };
        expect("the average", s.average, figures.0)?;
        expect("the old delay", s.old_delay, figures.1)?;
        expect("the allowance", s.allowance, figures.2)?;
        expect("the accumulated probability", s.accumulated, figures.3)?;
        expect("the measurement", s.measuring, u64::from(!above))?;
        let before = State { profile: 1, buffer, average: 7_499, old_delay: 7_499, ..state() };
        let after = one(lender, before, Call::tick((), 1_015_000, 0))?;
        expect("the activity", after.state.active, u64::from(above))?;
        expect("the allowance", after.state.allowance, 150_000)?;
    }
    Ok(())
}

fn arrivals(lender: &mut Lender) -> Result<(), Failure> {
    let lent = Lent::both(SLOTS);
    for (probability, old_delay, bytes, u, early) in ARRIVALS {
        let before = State { probability, old_delay, bytes, ..state() };
        let packet = Arriving { handle: 7, size: 1_000, ecn: false, u };
        let after = one(lender, before, Call::arrival((), lent, 1_000_000, packet))?;
        let figure = if early { 4 } else { 0 };
        expect("the verdict", u64::from(after.answer), figure)?;
    }
    for (probability, ecn, figure) in MARKS {
        let before = State { probability, old_delay: 7_500, bytes: 3_001, ..state() };
        let packet = Arriving { handle: 7, size: 1_000, ecn, u: 0 };
        let after = one(lender, before, Call::arrival((), lent, 1_000_000, packet))?;
        expect("the verdict", u64::from(after.answer), figure)?;
    }
    for (accumulated, probability, u, ecn, figure, sum) in SUMS {
        let before = State { accumulated, probability, old_delay: 7_500, bytes: 3_001, ..state() };
        let packet = Arriving { handle: 7, size: 1_000, ecn, u };
        let after = one(lender, before, Call::arrival((), lent, 1_000_000, packet))?;
        expect("the verdict", u64::from(after.answer), figure)?;
        expect("the accumulated probability", after.state.accumulated, sum)?;
    }
    Ok(())
}

/// An average of 2,000 and a sample of 1,000 make 1,750.
fn average(lender: &mut Lender) -> Result<(), Failure> {
    let lent = Lent::both(SLOTS);
    let running = State { measuring: 1, start: 1_000_000, counted: 8_192, ..state() };
    let before = State { average: 2_000, ..running };
    let after = one(lender, before, Call::departure((), lent, 1_001_000))?;
    expect("the average", after.state.average, 1_750)
}

/// Packets queued and counted bytes before a head of 8,192 bytes leaves; then the average, which
/// was 2,000, and the counted bytes.
const HEADS: [(u64, u64, u64, u64); 4] =
    [(1, 8_191, 2_000, 0), (1, 8_192, 1_750, 0), (2, 8_191, 2_000, 16_383), (2, 8_192, 1_750, 0)];

/// A measurement that the last packet does not bring to its end is given up.
fn last_packet(lender: &mut Lender) -> Result<(), Failure> {
    let lent = Lent::both(SLOTS);
    for (count, counted, average, left) in HEADS {
        let queue = State { count, bytes: 8_192 * count, average: 2_000, ..state() };
        let before = State { measuring: 1, start: 1_000_000, counted, ..queue };
        let after = one(lender, before, Call::departure((), lent, 1_001_000))?.state;
        expect("the average", after.average, average)?;
        expect("the counted bytes", after.counted, left)?;
        expect("the measurement", after.measuring, u64::from(left > 0))?;
        expect("its start", after.start, if left > 0 { 1_000_000 } else { 0 })?;
    }
    Ok(())
}
