//! Model and library side by side: each call runs on both, and everything is compared.

use super::bursts::Bursting;
use super::kind::{CallOf, Kind, SideOf};
use super::lend::Lender;
use super::recorded::Record;
use super::report;
use super::stop;
use crate::NAME;

/// A call on which model and library differ, with all its inputs.
pub struct Difference<K: Kind> {
    pub before: SideOf<K>,
    pub call: CallOf<K>,
    pub model: SideOf<K>,
    pub library: SideOf<K>,
}

/// Why a comparison ended before its time.
pub enum Failure<K: Kind> {
    Difference(Box<Difference<K>>),
    /// A sentence on a rule of the long runs that the library breaks.
    Broken(String),
}

pub struct Pair<'a, K: Kind> {
    pub before: SideOf<K>,
    pub model: SideOf<K>,
    pub library: SideOf<K>,
    lender: &'a mut Lender,
}

impl<'a, K: Kind> Pair<'a, K> {
    pub fn new(start: &SideOf<K>, lender: &'a mut Lender) -> Self {
        let (before, model, library) = (start.clone(), start.clone(), start.clone());
        Pair { before, model, library, lender }
    }

    /// Runs one call on both sides and compares answer, record, tables and packet.
    pub fn call(&mut self, call: &CallOf<K>) -> Result<(), Failure<K>> {
        self.before.copy_from(&self.model);
        self.model.call_model::<K>(call);
        let (lender, library) = (&mut *self.lender, &mut self.library);
        stop::watched(report::print_before::<K>, &self.before, call, || {
            lender.call::<K>(library, call)
        });
        if self.model == self.library {
            return Ok(());
        }
        Err(Failure::Difference(Box::new(Difference {
            before: self.before.clone(),
            call: *call,
            model: self.model.clone(),
            library: self.library.clone(),
        })))
    }

    /// Runs calls that led to the library's side once more, as one burst; gives how many they were.
    pub fn burst(&mut self, record: &mut Record<K>) -> Result<u64, Failure<K>>
    where
        K: Bursting,
    {
        record.run(&self.library, self.lender)
    }

    /// Changes both sides by hand.
    pub fn change(&mut self, change: impl Fn(&mut SideOf<K>)) {
        change(&mut self.model);
        change(&mut self.library);
    }
}

impl<K: Kind> Failure<K> {
    /// Prints the failure, and for a difference whether the one call alone gives it again.
    pub fn print(&self, place: &str) {
        match self {
            Failure::Broken(sentence) => println!("{NAME}: broken rule in {place}: {sentence}"),
            Failure::Difference(difference) => {
                println!("{NAME}: difference in {place}");
                report::print(difference);
                println!("{}", difference.again());
            }
        }
    }
}

impl<K: Kind> Difference<K> {
    /// Runs the one call again, alone, in memory of its own.
    fn again(&self) -> &'static str {
        let mut lender = Lender::own();
        let mut pair = Pair::<K>::new(&self.before, &mut lender);
        match pair.call(&self.call) {
            Err(Failure::Difference(d)) if d.library == self.library => {
                "This one call, run alone, gives the same difference."
            }
            Err(_) => "This one call, run alone, gives another difference.",
            Ok(()) => "This one call, run alone, gives no difference.",
        }
    }
}
