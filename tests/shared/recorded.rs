//! The calls of a long run once more, as bursts.

use super::bursts::{compare, numbers, word, Burst, Bursting};
use super::kind::{CallOf, Lent, SideOf};
use super::lend::Lender;
use super::pair::Failure;

/// The calls of a long run, as a burst from where the first of them began.
pub struct Record<K: Bursting> {
    start: SideOf<K>,
    burst: Option<Burst<K::To>>,
    answers: Vec<u64>,
}

/// The most calls of such a burst.
const MOST: usize = 96;

impl<K: Bursting> Record<K> {
    pub fn new(start: &SideOf<K>) -> Self {
        Record { start: start.clone(), burst: None, answers: Vec::new() }
    }

    /// Whether a burst of calls for this queue can have the call: others are refused and change nothing,
    /// but for fresh.
    pub fn fits(call: &CallOf<K>, to: &K::To, slots: u64) -> bool {
        let lent = call.lent.handles as u64 == slots && call.lent.sizes as u64 == slots;
        let known = K::EACH_TO || call.to == *to;
        known && !call.is_fresh() && (lent || !call.has_tables())
    }

    pub fn is_full(&self) -> bool {
        self.answers.len() == MOST
    }

    /// Adds a call that was made from one side to the other.
    pub fn add(&mut self, call: &CallOf<K>, before: &SideOf<K>, after: &SideOf<K>) {
        let slots = K::view(&before.state, &call.to).slots as usize;
        if self.burst.is_none() {
            self.start.copy_from(before);
        }
        let new = || Burst { to: call.to, lent: Lent::both(slots), calls: Vec::new(), answers: 0 };
        let burst = self.burst.get_or_insert_with(new);
        burst.calls.extend(numbers::<K>(call));
        burst.answers += 1;
        self.answers.push(word::<K>(after));
    }

    /// Runs what was recorded as one burst, which must leave this side; gives how many calls it had.
    pub fn run(&mut self, after: &SideOf<K>, lender: &mut Lender) -> Result<u64, Failure<K>> {
        let Some(burst) = self.burst.take() else { return Ok(0) };
        compare(&self.start, &burst, (0, &self.answers, after), lender)?;
        self.answers.clear();
        Ok(burst.answers as u64)
    }
}
