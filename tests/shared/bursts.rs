//! Bursts: a list of calls in one entry, against the same calls one by one.

use super::burst_labels::{note, LENGTHS};
use super::coverage::Coverage;
use super::kind::{Call, CallOf, Kind, Lent, Refusals, SideOf, What};
use super::lend::Lender;
use super::numbers::{split, CLOCK_MAX};
use super::pair::{Failure, Pair};
use super::random::Random;
use super::report::fields;
use super::single::{call, some_refusals, Do, Drawn};
use super::stop;

/// What the lists of a kind's bursts are made of.
pub trait Bursting: Drawn {
    /// The kinds of call to choose from.
    const IN_BURSTS: &'static [Do] = Self::CALLS;
    /// Numbers that name no kind of call.
    const UNKNOWN: &'static [u32];
    /// How many numbers a call has.
    const NUMBERS: usize = 6;
    /// Whether each call says whom it is for; otherwise the burst does.
    const EACH_TO: bool = true;

    fn burst_case(r: &mut Random) -> (SideOf<Self>, CallOf<Self>) {
        Self::case(r)
    }
    /// The verdict counts that a call of this queue adds to, if there are any.
    fn counts<'a>(state: &'a mut Self::State, to: &Self::To) -> Option<&'a mut [u64; 5]>;
    fn steady_credits(_: &mut Random) -> u32 {
        1
    }
    /// The number that a kind of call (0 to 3) has, and the numbers after it.
    fn numbered(_: &Self::To, kind: u32) -> Vec<u32> {
        vec![kind]
    }
    /// The kind of call (0 to 3) that a number names.
    fn kind_of(number: u32) -> Option<u32> {
        (number < 4).then_some(number)
    }
    fn standing(side: &SideOf<Self>, to: &Self::To) -> Standing;
}

/// A list of calls as numbers, and how many answers are asked for.
#[derive(Debug)]
pub struct Burst<T> {
    /// Whom all calls are for, where a call does not say so itself.
    pub to: T,
    pub lent: Lent,
    pub calls: Vec<u32>,
    pub answers: usize,
}

/// How a burst finds a side.
pub struct Standing {
    pub formed: bool,
    pub calm: bool,
    pub active: bool,
    /// Arrivals counted, by the queue that has most.
    pub counted: u128,
    /// Whether the burst is for a flow that there is not.
    pub no_flow: bool,
}

/// What stands in the answers before a burst: it shows that nothing was written.
pub const UNANSWERED: u64 = 0xA5A5_5A5A_A5A5_5A5A;

/// The answer to an unknown kind, and to lengths that do not fit.
const REFUSED: u32 = 120;

/// Bursts of random lengths on random records.
pub fn run<K: Bursting>(
    r: &mut Random,
    count: u64,
    lender: &mut Lender,
    coverage: &mut Coverage<K>,
) -> Result<(), Failure<K>> {
    for _ in 0..count {
        let any = r.range(1, 40);
        let length = r.pick(&[0, 1, 2, 8, 31, 32, 33, 64, any, any]) as usize;
        let (side, first, mut burst) = start::<K>(r, length);
        let (answers, after) = one_by_one(r, &side, first, &mut burst, lender)?;
        coverage.calls += burst.answers as u64;
        note(coverage, (&side, &after), &burst, &answers);
        compare(&side, &burst, (0, &answers, &after), lender)?;
        if r.one_in(4) {
            misfit::<K>(r, &mut burst);
            coverage.note_burst(LENGTHS);
            let unanswered = vec![UNANSWERED; burst.answers];
            compare(&side, &burst, (REFUSED, &unanswered, &side), lender)?;
        }
    }
    Ok(())
}

/// A side and its first call, sometimes with counts that have just room for so many arrivals or just do
/// not; and an empty burst.
fn start<K: Bursting>(r: &mut Random, length: usize) -> (SideOf<K>, CallOf<K>, Burst<K::To>) {
    let (mut side, first) = K::burst_case(r);
    if let Some(counts) = K::counts(&mut side.state, &first.to) {
        if r.one_in(5) {
            let n = length as u64;
            let room = r.pick(&[n, n, n.saturating_sub(1), n + 1, n / 2]);
            *counts = split(r, CLOCK_MAX - room);
        }
    }
    let slots = K::view(&side.state, &first.to).slots;
    let lent = match first.has_tables() {
        true => first.lent,
        false => Lent::random(r, side.handles.len(), slots, false),
    };
    (side, first, Burst { to: first.to, lent, calls: Vec::new(), answers: length })
}

/// The next call: one for which refusals may have been chosen, or one of steady traffic.
fn next<K: Bursting>(
    r: &mut Random,
    side: &SideOf<K>,
    burst: &Burst<K::To>,
    wild: bool,
) -> CallOf<K> {
    let (what, lent) = (r.pick(K::IN_BURSTS), burst.lent);
    let to = if K::EACH_TO { K::next_to(r, &burst.to) } else { burst.to };
    if wild || r.one_in(20) {
        let wanted = if r.one_in(3) { some_refusals::<K>(r, what) } else { Refusals::default() };
        return Call { lent, ..call::<K>(r, what, to, side, &wanted) };
    }
    let q = K::view(&side.state, &to);
    let clock = q.clock.saturating_add(r.spread(0, 2_000)).min(CLOCK_MAX).max(q.clock);
    match what {
        Do::Arrival => Call::arrival(to, lent, clock, K::packet(r, side, &to, false)),
        Do::Departure => Call::departure(to, lent, clock),
        Do::Tick => {
            let due = clock.max(q.last.saturating_add(K::TICK_PERIOD));
            Call::tick(to, due, K::steady_credits(r))
        }
    }
}

/// The numbers of a call, in the order of the C header; what its kind does not use is not 0.
pub fn numbers<K: Bursting>(call: &CallOf<K>) -> Vec<u32> {
    let ([handle, size, u], kind) = match call.what {
        What::Arrival(p) => ([p.handle, p.size, p.u], u32::from(p.ecn)),
        What::Departure => ([7, 65_537, u32::MAX], 2),
        What::Tick(credits) => ([u32::MAX, credits, 2], 3),
        What::Fresh(_) => unreachable!(),
    };
    let mut all = vec![call.clock as u32, (call.clock >> 32) as u32, handle, size, u];
    all.extend(K::numbered(&call.to, kind));
    all
}

/// Runs calls by the model and by the single entries, which must agree, and puts them into the burst.
/// Gives the words of their answers, and what is left.
fn one_by_one<K: Bursting>(
    r: &mut Random,
    side: &SideOf<K>,
    first: CallOf<K>,
    burst: &mut Burst<K::To>,
    lender: &mut Lender,
) -> Result<(Vec<u64>, SideOf<K>), Failure<K>> {
    let mut pair = Pair::<K>::new(side, lender);
    let mut answers = Vec::new();
    let wild = r.one_in(3);
    let mut call = first;
    for _ in 0..burst.answers {
        if r.one_in(20) {
            burst.calls.extend((0..5).map(|_| r.number() as u32));
            burst.calls.push(r.pick(K::UNKNOWN));
            burst.calls.extend((6..K::NUMBERS).map(|_| r.number() as u32));
            answers.push(u64::from(REFUSED));
            continue;
        }
        pair.call(&call)?;
        burst.calls.extend(numbers::<K>(&call));
        answers.push(word::<K>(&pair.library));
        call = next::<K>(r, &pair.model, burst, wild);
    }
    Ok((answers, pair.library.clone()))
}

/// An answer as a word: code, then flow, size and handle of the packet that left.
pub fn word<K: Kind>(side: &SideOf<K>) -> u64 {
    let p = side.packet;
    let low = u64::from(side.answer) | u64::from(p.flow) << 8;
    low | u64::from(p.size) << 16 | u64::from(p.handle) << 32
}

/// Changes the burst so that its lengths do not fit.
fn misfit<K: Bursting>(r: &mut Random, burst: &mut Burst<K::To>) {
    match r.range(0, 3) {
        0 => burst.calls.extend(vec![0; K::NUMBERS]),
        1 => burst.calls.push(0),
        2 if !burst.calls.is_empty() => burst.calls.truncate(burst.calls.len() - 1),
        _ => burst.answers += 1,
    }
}

/// One call and every number of numbers but its own, and two calls for one answer: all are refused, and
/// nothing is written.
pub fn lengths<K: Bursting>(lender: &mut Lender) -> Result<(), Failure<K>> {
    let (side, [_, arrival, ..]) = K::sample();
    let two = [numbers::<K>(&arrival), numbers::<K>(&arrival)].concat();
    for length in (0..=two.len()).filter(|&length| length != K::NUMBERS) {
        let calls = two[..length].to_vec();
        let burst = Burst { to: arrival.to, lent: arrival.lent, calls, answers: 1 };
        compare::<K>(&side, &burst, (REFUSED, &[UNANSWERED], &side), lender)?;
    }
    Ok(())
}

/// Prints a burst at which the library stops the program.
fn print_before<K: Bursting>(side: &SideOf<K>, burst: &Burst<K::To>) {
    println!("burst: {burst:?}");
    println!("before: {:?}", fields::<K>(&side.state));
}

/// Runs the burst from this side: its answer, its answers and what it leaves are the expected ones.
pub fn compare<K: Bursting>(
    side: &SideOf<K>,
    burst: &Burst<K::To>,
    (answer, answers, after): (u32, &[u64], &SideOf<K>),
    lender: &mut Lender,
) -> Result<(), Failure<K>> {
    let mut given = side.clone();
    let run = || lender.burst::<K>(&mut given, burst);
    let (said, words_said) = stop::watched(print_before::<K>, side, burst, run);
    if said != answer {
        return Err(broken(side, burst, format!("it answers {said}, not {answer}")));
    }
    if let Some(i) = (0..answers.len()).find(|&i| words_said[i] != answers[i]) {
        let (is, should) = (words_said[i], answers[i]);
        return Err(broken(side, burst, format!("call {i} is answered {is:#x}, not {should:#x}")));
    }
    if given.state != after.state {
        let (is, should) = (fields::<K>(&given.state), fields::<K>(&after.state));
        let differs = is.into_iter().zip(should).find(|(is, should)| is != should);
        return Err(broken(
            side,
            burst,
            format!("a word that it leaves and that it should: {differs:?}"),
        ));
    }
    if given.handles != after.handles || given.sizes != after.sizes {
        return Err(broken(side, burst, "it leaves other tables".to_string()));
    }
    Ok(())
}

fn broken<K: Bursting>(side: &SideOf<K>, burst: &Burst<K::To>, sentence: String) -> Failure<K> {
    Failure::Broken(format!(
        "a burst differs from its calls one by one: {sentence}; {:?}, {burst:?}",
        fields::<K>(&side.state)
    ))
}
