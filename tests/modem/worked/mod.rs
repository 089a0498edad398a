//! The page's worked numbers, W1 to W28, its table of bands and its whole case, run on both sides.
//! The numbers themselves are checked as well, so a misreading that model and library share would
//! show here.

mod activity;
mod arrivals;
mod delays;
mod refusals;
mod steps;
mod whole_case;

use crate::kind::{self, Call, Modem, Side};
use crate::model::{Counts, Settings, State};
use crate::shared::lend::Lender;
use crate::shared::pair;
use crate::shared::pair::Pair;

type Failure = pair::Failure<Modem>;

/// The slots of the records here, but where a number asks for others.
const SLOTS: u64 = 256;

/// The flow of the calls here, but where a number asks for another.
const FLOW: u32 = 9;

/// Runs single calls and checks what the page says of them.
pub struct Worked<'a> {
    lender: &'a mut Lender,
    /// The number on the page.
    name: &'static str,
    checks: u64,
}

impl Worked<'_> {
    /// One call on both sides, with other rows that no call may touch.
    fn call(&mut self, state: State, call: Call) -> Result<Side, Failure> {
        self.call_with(state, other_rows(), call)
    }

    fn call_with(&mut self, state: State, counts: Counts, call: Call) -> Result<Side, Failure> {
        let length = SLOTS as usize;
        let start = kind::side(state, counts, vec![1; length], vec![1_500; length]);
        let mut pair = Pair::new(&start, self.lender);
        pair.call(&call)?;
        Ok(pair.library)
    }

    fn expect(&mut self, what: &str, found: u64, figure: u64) -> Result<(), Failure> {
        self.checks += 1;
        if found == figure {
            return Ok(());
        }
        let name = self.name;
        Err(Failure::Broken(format!("{name}: {what} is {found}, and the page says {figure}")))
    }
}

/// A row of zeros for the flow; the others could not be counts.
fn other_rows() -> Counts {
    let mut counts = [[u64::MAX; 5]; 16];
    counts[FLOW as usize] = [0; 5];
    counts
}

/// A record whose delay at a tick without credits is its bytes.
fn with_delay(target: u64, delay: u64, old_delay: u64) -> State {
    let (buffer, rate) = (16_777_216, 1_000_000);
    State {
        settings: Settings { target, buffer, slots: SLOTS, peak: rate, sustained: rate },
        clock: 1_000_000,
        last: 984_000,
        old_delay,
        count: delay.div_ceil(65_535),
        bytes: delay,
        ..State::default()
    }
}

/// All of them; gives the number of checks.
pub fn run(lender: &mut Lender) -> Result<u64, Failure> {
    let mut worked = Worked { lender, name: "", checks: 0 };
    delays::run(&mut worked)?;
    steps::run(&mut worked)?;
    activity::run(&mut worked)?;
    arrivals::run(&mut worked)?;
    refusals::run(&mut worked)?;
    whole_case::run(&mut worked)?;
    Ok(worked.checks)
}
