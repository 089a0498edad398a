//! The program of a comparison: single calls, long runs and the papers' figures, on the fixed seed, on
//! new seeds, or in guarded memory.

use super::bursts::{self, Bursting};
use super::coverage::Coverage;
use super::lend::Lender;
use super::pair::Failure;
use super::random::Random;
use super::rounds;
use super::runs::{self, Running};
use super::single;
use super::stop;
use crate::NAME;
use std::process::exit;

/// Random records of a batch of single calls.
const STARTS: u64 = 1_000;

/// How much of a kind of queue is compared.
pub struct Round<K: Running> {
    pub seed: u64,
    pub batches: u64,
    pub runs: u64,
    /// Batches and runs in guarded memory.
    pub guarded: (u64, u64),
    /// The papers' figures: what they are called, and their run, which gives how many were checked.
    pub figures: (&'static str, fn(&mut Lender) -> Result<u64, Failure<K>>),
}

/// What the single calls and the long runs reached, and how many figures were met.
struct Reached<K: Running> {
    single: Coverage<K>,
    runs: Coverage<K>,
    figures: u64,
}

impl<K: Running> Reached<K> {
    fn new() -> Self {
        Reached { single: Coverage::new(false), runs: Coverage::new(true), figures: 0 }
    }

    fn calls(&self) -> u64 {
        self.single.calls + self.runs.calls
    }

    fn print(&self, all: bool, figures: &str) {
        println!("single calls: {}", self.single.calls);
        self.single.print(false, all);
        println!("calls of long runs: {}", self.runs.calls);
        self.runs.print(true, all);
        println!("checks of {figures}: {}", self.figures);
    }

    /// Says what was not reached; whether there is nothing of it.
    fn all(&self) -> bool {
        let single = self.single.missing(false);
        let runs = self.runs.missing(true);
        for (name, missing) in [("single calls", &single), ("long runs", &runs)] {
            for label in missing {
                println!("{NAME}: the {name} did not reach this: {label}");
            }
        }
        single.is_empty() && runs.is_empty()
    }

    /// Ends the program with 2 if anything was not reached.
    fn require_all(&self) {
        if !self.all() {
            exit(2);
        }
    }
}

/// Runs one part of a round, and ends the program with 1 if it fails.
fn require<K: Running>(place: &str, run: impl FnOnce() -> Result<(), Failure<K>>) {
    stop::set_place(place);
    if let Err(failure) = run() {
        failure.print(place);
        exit(1);
    }
}

/// The random numbers of one part of a round.
fn part(seed: u64, part: u64) -> Random {
    let mut mixed = Random::new(seed ^ part.wrapping_mul(0x2545_f491_4f6c_dd1d));
    Random::new(mixed.number())
}

impl<K: Running> Round<K> {
    /// All parts of one round with the memory of the given lender.
    fn run(
        &self,
        seed: u64,
        (batches, runs): (u64, u64),
        lender: &mut Lender,
        reached: &mut Reached<K>,
    ) {
        let place = format!("fresh calls (seed {seed})");
        require(&place, || single::fresh_calls(lender, &mut reached.single));
        require(&place, || bursts::lengths::<K>(lender));
        for batch in 0..batches {
            let place = format!("single calls, batch {batch} of seed {seed}");
            let mut r = part(seed, 2 * batch);
            require(&place, || batch_of(&mut r, lender, &mut reached.single));
        }
        for run in 0..runs {
            let place = format!("{} of seed {seed}", runs::name::<K>(run));
            let mut r = part(seed, 2 * run + 1);
            require(&place, || runs::run(&mut r, run, lender, &mut reached.runs));
        }
        let (figures, check) = self.figures;
        require(figures, || {
            reached.figures = check(lender)?;
            Ok(())
        });
    }

    fn once(&self, seed: u64, all: bool) {
        let mut reached = Reached::new();
        self.run(seed, (self.batches, self.runs), &mut Lender::own(), &mut reached);
        reached.print(all, self.figures.0);
        reached.require_all();
        println!("{NAME}: {} calls, no difference", reached.calls());
    }

    /// New seeds may miss in a short time what is rare: that is said, and is no failure.
    fn soak(&self, seconds: u64) {
        let mut reached = Reached::new();
        rounds::soak(seconds, |seed| {
            self.run(seed, (self.batches, self.runs), &mut Lender::own(), &mut reached)
        });
        reached.print(false, self.figures.0);
        reached.all();
        println!("{NAME}: soak of {seconds} seconds, {} calls, no difference", reached.calls());
    }

    fn guard(&self) {
        let mut calls = 0;
        for at_end in [true, false] {
            let place = if at_end { "before" } else { "after" };
            println!("memory right {place} a guarded page, tables of whole pages between two");
            let mut reached = Reached::new();
            self.run(self.seed, self.guarded, &mut Lender::guarded(at_end), &mut reached);
            reached.require_all();
            calls += reached.calls();
        }
        println!("{NAME}: guard, {calls} calls, no difference");
    }

    /// The whole program.
    pub fn main(&self) {
        stop::install();
        rounds::by_words(|words| match *words {
            [] => self.once(self.seed, false),
            ["counts"] => self.once(self.seed, true),
            ["seed", seed] => self.once(number(seed), false),
            ["soak", seconds] => self.soak(number(seconds)),
            ["guard"] => self.guard(),
            _ => misunderstood(),
        });
    }
}

/// Random records, each with a few calls in succession, then a few bursts.
fn batch_of<K: Bursting>(
    r: &mut Random,
    lender: &mut Lender,
    coverage: &mut Coverage<K>,
) -> Result<(), Failure<K>> {
    for _ in 0..STARTS {
        single::several(r, lender, coverage)?;
    }
    bursts::run(r, STARTS / 20, lender, coverage)
}

fn misunderstood() -> ! {
    println!("{NAME}: usage: {NAME} [counts | seed N | soak SECONDS | guard]");
    exit(3);
}

fn number(word: &str) -> u64 {
    word.parse().unwrap_or_else(|_| misunderstood())
}
