//! Single calls on random records: accepted ones, and ones to which chosen refusals apply.

use super::coverage::{Coverage, Covered};
use super::kind::{Arriving, Call, CallOf, Lent, Refusals, SideOf, View};
use super::lend::Lender;
use super::numbers::{tick_clock, wanted, wrong_clock, CLOCK_MAX};
use super::pair::{Failure, Pair};
use super::random::Random;

/// A kind of call but fresh.
#[derive(Clone, Copy, PartialEq)]
pub enum Do {
    Arrival = 1,
    Departure,
    Tick,
}

/// Arrivals and departures more often than ticks.
pub const FEW_TICKS: &[Do] = &[Do::Arrival, Do::Arrival, Do::Departure, Do::Departure, Do::Tick];

/// How the random records and calls of a kind are made.
pub trait Drawn: Covered {
    /// The kinds of call to choose from.
    const CALLS: &'static [Do] = FEW_TICKS;

    /// A record with tables, and a call to which the wanted refusals apply where they can.
    fn case(r: &mut Random) -> (SideOf<Self>, CallOf<Self>);
    /// Whom a later call is for.
    fn next_to(r: &mut Random, first: &Self::To) -> Self::To;
    fn packet(r: &mut Random, side: &SideOf<Self>, to: &Self::To, wrong: bool) -> Arriving;
    fn credits(_: &mut Random, _: &Self::State) -> u32 {
        1
    }
    /// A clock at which something of this record ends.
    fn end(_: &mut Random, _: &Self::State) -> Option<u64> {
        None
    }
    /// Calls of fresh with every setting at its ends and past them, each with calls after it.
    fn fresh_calls(
        run: &mut dyn FnMut(&SideOf<Self>, &[CallOf<Self>]) -> Result<(), Failure<Self>>,
    ) -> Result<(), Failure<Self>>;
}

/// Some of the refusals that the call can get.
pub fn some_refusals<K: Covered>(r: &mut Random, what: Do) -> Refusals {
    wanted(r, K::APPLY[what as usize])
}

/// A call after the first one.
pub fn next<K: Drawn>(r: &mut Random, first: &CallOf<K>, side: &SideOf<K>) -> CallOf<K> {
    let what = r.pick(K::CALLS);
    let wanted = if r.one_in(3) { some_refusals::<K>(r, what) } else { Refusals::default() };
    let to = K::next_to(r, &first.to);
    call::<K>(r, what, to, side, &wanted)
}

/// A call to which the wanted ones of refusals 3, 4, 5 and 7 apply where they can.
pub fn call<K: Drawn>(
    r: &mut Random,
    what: Do,
    to: K::To,
    side: &SideOf<K>,
    wanted: &Refusals,
) -> CallOf<K> {
    let q = K::view(&side.state, &to);
    let clock = match wanted[4] {
        true => wrong_clock(r, q.clock, wanted[5]),
        false => right_clock::<K>(r, &q, &side.state),
    };
    let lent = Lent::random(r, side.handles.len(), q.slots, wanted[3]);
    match what {
        Do::Arrival => Call::arrival(to, lent, clock, K::packet(r, side, &to, wanted[7])),
        Do::Departure => Call::departure(to, lent, clock),
        Do::Tick => {
            let due = q.last.saturating_add(K::TICK_PERIOD);
            let clock = match wanted[4] {
                true => clock,
                false => tick_clock(r, due, q.clock, clock, wanted[5]),
            };
            Call::tick(to, clock, K::credits(r, &side.state))
        }
    }
}

/// A clock that is allowed, if the record allows one.
fn right_clock<K: Drawn>(r: &mut Random, q: &View, state: &K::State) -> u64 {
    let same = q.clock;
    let any = r.range(same, CLOCK_MAX);
    let later = same.saturating_add(r.spread(0, 20_000_000));
    let mut list = vec![same, same, same.saturating_add(1), later, later];
    list.extend(K::end(r, state));
    list.extend([any, CLOCK_MAX]);
    r.pick(&list).max(same).min(CLOCK_MAX)
}

/// A packet for a queue with this probability and room for so many bytes; a wrong one has no size
/// that is allowed.
pub fn packet(r: &mut Random, room: u64, probability: u64, wrong: bool) -> Arriving {
    let (any, room) = (r.spread(1, 65_535), room.min(65_535));
    let size = if wrong {
        r.pick(&[0, 0, 65_536, 65_537, u64::from(u32::MAX), 1 << 31])
    } else {
        r.pick(&[1, 65_535, any, any, any, room, room + 1, room.saturating_sub(1)]).clamp(1, 65_535)
    };
    let (handle, u) = (r.number() as u32, r.number() >> 32);
    let p = probability;
    let list = [p.wrapping_sub(1), p, p.wrapping_add(1), 0, u64::from(u32::MAX), u];
    let u = r.pick(&list).min(u64::from(u32::MAX)) as u32;
    Arriving { handle: r.pick(&[0, u32::MAX, handle]), size: size as u32, ecn: r.one_in(2), u }
}

/// Two tables of any content, a little longer than the slots.
pub fn filled(r: &mut Random, slots: u64) -> (Vec<u32>, Vec<u32>) {
    let length = slots as usize + r.pick(&[1, 1, 2, 5]);
    let mut fill = || -> Vec<u32> { (0..length).map(|_| r.number() as u32).collect() };
    (fill(), fill())
}

/// A size that the next of so many packets with so many bytes can have, as often as not one of the list.
pub fn size_of_next(r: &mut Random, bytes: u64, others: u64, list: &[u64]) -> u64 {
    let least = bytes.saturating_sub(65_535 * others).max(1);
    let most = (bytes - others).min(65_535);
    let any = r.range(least, most);
    r.pick(&[&[least, most, any, any], list].concat()).clamp(least, most)
}

impl<K: Drawn> Pair<'_, K> {
    /// Runs one call on both sides, and counts what it reached.
    pub fn noted(
        &mut self,
        call: &CallOf<K>,
        coverage: &mut Coverage<K>,
    ) -> Result<(), Failure<K>> {
        self.call(call)?;
        coverage.note(&self.before, call, &self.library);
        Ok(())
    }
}

/// A random record and a few calls in succession; a record that is refused is left at once.
pub fn several<K: Drawn>(
    r: &mut Random,
    lender: &mut Lender,
    coverage: &mut Coverage<K>,
) -> Result<(), Failure<K>> {
    let (side, first) = K::case(r);
    let mut pair = Pair::new(&side, lender);
    let mut call = first;
    for _ in 0..1 + r.range(0, 4) {
        pair.noted(&call, coverage)?;
        if pair.library.answer == 102 {
            break;
        }
        call = next::<K>(r, &first, &pair.model);
    }
    Ok(())
}

/// Every call of fresh, with the calls after it.
pub fn fresh_calls<K: Drawn>(
    lender: &mut Lender,
    coverage: &mut Coverage<K>,
) -> Result<(), Failure<K>> {
    K::fresh_calls(&mut |side, calls| {
        let mut pair = Pair::new(side, lender);
        calls.iter().try_for_each(|call| pair.noted(call, coverage))
    })
}
