//! A kind of queue: its records, its calls, its model and the library's entries; and one side of a
//! comparison.

use super::lend::Memory;
pub use super::numbers::Lent;
use std::fmt::Debug;
use std::ops::Range;
use std::panic::{catch_unwind, AssertUnwindSafe};

/// The arguments of an arrival, without its clock.
#[derive(Clone, Copy, Debug)]
pub struct Arriving {
    pub handle: u32,
    pub size: u32,
    pub ecn: bool,
    pub u: u32,
}

/// What a departure hands back; the flow is 0 where the kind has none.
#[derive(Clone, Copy, PartialEq, Eq, Default, Debug)]
pub struct Packet {
    pub flow: u32,
    pub handle: u32,
    pub size: u32,
}

#[derive(Clone, Copy, Debug)]
pub enum What<S> {
    Fresh(S),
    Arrival(Arriving),
    Departure,
    /// The credits are not used where the kind has none.
    Tick(u32),
}

/// A call with all its arguments; `to` says whom it is for.
#[derive(Clone, Copy, Debug)]
pub struct Call<T, S> {
    pub to: T,
    pub clock: u64,
    pub lent: Lent,
    pub what: What<S>,
}

pub type CallOf<K> = Call<<K as Kind>::To, <K as Kind>::Settings>;
pub type SideOf<K> = Side<<K as Kind>::State>;

/// The kinds of call by name, in the order of `Call::place`.
pub const CALLS: [&str; 4] = ["fresh", "arrival", "departure", "tick"];

impl<T, S> Call<T, S> {
    pub fn fresh(to: T, settings: S, clock: u64) -> Self {
        Call { to, clock, lent: Lent::both(0), what: What::Fresh(settings) }
    }

    pub fn arrival(to: T, lent: Lent, clock: u64, packet: Arriving) -> Self {
        Call { to, clock, lent, what: What::Arrival(packet) }
    }

    pub fn departure(to: T, lent: Lent, clock: u64) -> Self {
        Call { to, clock, lent, what: What::Departure }
    }

    pub fn tick(to: T, clock: u64, credits: u32) -> Self {
        Call { to, clock, lent: Lent::both(0), what: What::Tick(credits) }
    }

    pub fn is_fresh(&self) -> bool {
        self.place() == 0
    }

    pub fn has_tables(&self) -> bool {
        matches!(self.what, What::Arrival(_) | What::Departure)
    }

    /// The number of the kind of call.
    pub fn place(&self) -> usize {
        match self.what {
            What::Fresh(_) => 0,
            What::Arrival(_) => 1,
            What::Departure => 2,
            What::Tick(_) => 3,
        }
    }

    /// The packet of an arrival.
    pub fn packet(&self) -> &Arriving {
        match &self.what {
            What::Arrival(packet) => packet,
            _ => unreachable!(),
        }
    }
}

/// What the harness reads of the queue that a call is for.
#[derive(Clone, Copy, Default)]
pub struct View {
    pub slots: u64,
    pub buffer: u64,
    pub clock: u64,
    pub last: u64,
    pub count: u64,
    pub bytes: u64,
    pub probability: u64,
    pub target: u64,
    pub old_delay: u64,
    pub allowance: u64,
    pub accumulated: u64,
    pub verdicts: [u64; 5],
}

/// The refusals that apply to a call, or that are wanted, by their numbers.
pub type Refusals = [bool; 11];

/// Refusals of a model that has none above 9.
pub fn widened(few: [bool; 10]) -> Refusals {
    let mut all = [false; 11];
    all[..10].copy_from_slice(&few);
    all
}

pub trait Kind: Sized + 'static {
    /// The parts of the record, each a pointer of the C header: their lengths in words.
    const PARTS: &'static [usize];
    /// Whether a departure hands back the flow as well.
    const FLOW_LEAVES: bool = false;
    /// Whether a departure only reads the sizes.
    const SIZES_ARE_READ: bool;
    const TICK_PERIOD: u64;

    type State: Copy + PartialEq + Debug;
    /// Whom a call is for.
    type To: Copy + PartialEq + Debug;
    type Settings: Copy + Debug;
    type Words: AsRef<[u64]> + AsMut<[u64]>;

    /// The record as the words of its parts, in the order of the C header.
    fn words(state: &Self::State) -> Self::Words;
    fn state_of(words: &Self::Words) -> Self::State;
    /// The names of the words.
    fn fields() -> Vec<String>;
    fn view(state: &Self::State, to: &Self::To) -> View;
    /// Places of the tables that a report shows.
    fn places(state: &Self::State) -> Vec<u64>;

    fn model(side: &mut SideOf<Self>, call: &CallOf<Self>) -> Result<u32, u32>;
    fn model_formed(state: &Self::State, to: &Self::To) -> bool;
    fn applying(before: &SideOf<Self>, call: &CallOf<Self>) -> Refusals;

    fn library(memory: &Memory, call: &CallOf<Self>) -> u32;
    fn formed(memory: &Memory, to: &Self::To) -> bool;
    fn burst(memory: &Memory, to: &Self::To, calls: &[u32], answers: &mut [u64]) -> u32;

    /// What is lent by a pointer of its own of whom the call is for.
    fn argument(_: &Self::To) -> &[u8] {
        &[]
    }
    /// The flow that the library finds for it.
    fn flow(_argument: *const u8, _: &Self::State) -> u32 {
        0
    }
    /// The parts that a call only reads.
    fn only_read(_: &CallOf<Self>) -> &'static [usize] {
        &[]
    }
    /// The words of a part that a call may touch, if memory ends after them or begins before them.
    fn open(part: usize, _: &Self::To, _at_end: bool) -> Range<usize> {
        0..Self::PARTS[part]
    }
}

/// One side of the comparison: a record, two tables, and what the last call gave.
#[derive(Clone, PartialEq)]
pub struct Side<S> {
    pub state: S,
    pub handles: Vec<u32>,
    pub sizes: Vec<u32>,
    /// Whether the record before the last call was well formed.
    pub well_formed: bool,
    /// The flow of an arrival's sender, where the kind has senders.
    pub flow: u32,
    pub answer: u32,
    pub packet: Packet,
}

/// The answer that stands for a panic of the model.
pub const STOPPED: u32 = u32::MAX;

/// Both tables, as far as they are lent.
pub type Tables<'a> = (&'a mut [u32], &'a mut [u32]);

impl<S: Copy> Side<S> {
    pub fn new(state: S, handles: Vec<u32>, sizes: Vec<u32>) -> Self {
        let packet = Packet::default();
        Side { state, handles, sizes, well_formed: false, flow: 0, answer: 0, packet }
    }

    /// Copies the other side without new memory where the lengths are equal.
    pub fn copy_from(&mut self, other: &Self) {
        self.state = other.state;
        self.handles.clone_from(&other.handles);
        self.sizes.clone_from(&other.sizes);
        (self.well_formed, self.flow) = (other.well_formed, other.flow);
        (self.answer, self.packet) = (other.answer, other.packet);
    }

    /// The record, and the tables as far as they are lent.
    pub fn lend(&mut self, lent: Lent) -> (&mut S, Tables<'_>) {
        let tables = (&mut self.handles[..lent.handles], &mut self.sizes[..lent.sizes]);
        (&mut self.state, tables)
    }

    /// The tables as far as they are lent, to be read.
    pub fn tables(&self, lent: Lent) -> (&[u32], &[u32]) {
        (&self.handles[..lent.handles], &self.sizes[..lent.sizes])
    }

    /// Runs the call by the model. A panic is an answer of its own.
    pub fn call_model<K: Kind<State = S>>(&mut self, call: &CallOf<K>) {
        (self.packet, self.flow, self.answer) = (Packet::default(), 0, STOPPED);
        let side = &mut *self;
        let run = catch_unwind(AssertUnwindSafe(|| {
            side.well_formed = K::model_formed(&side.state, &call.to);
            K::model(side, call)
        }));
        self.answer = match run {
            Ok(Ok(answer)) => answer,
            Ok(Err(refusal)) => 100 + refusal,
            Err(_) => STOPPED,
        };
    }
}

/// The names of a record's words, and its change to words and back.
#[macro_export]
macro_rules! words {
    ($state:ty, $count:literal, $names:ident, $words:ident, $state_of:ident:
        $($($field:ident).+ $([$place:literal])?),* $(,)?) => {
        pub const $names: [&str; $count] =
            [$(stringify!($($field).+ $([$place])?)),*];

        pub fn $words(s: &$state) -> [u64; $count] {
            [$(s.$($field).+ $([$place])?),*]
        }

        pub fn $state_of(words: &[u64; $count]) -> $state {
            let mut s = <$state>::default();
            [$(s.$($field).+ $([$place])?),*] = *words;
            s
        }
    };
}
