//! Compares the library's log, replay and comparison with models written from the papers alone.
//!
//!   log               the fixed seed; the same calls each time
//!   log counts        the same, and prints how often each thing was reached
//!   log seed N        one round with the seed N
//!   log part NAME     one part of the round with the fixed seed: writer, reader, replay, compare
//!   log soak SECONDS  rounds with new seeds until the time is over
//!   log page FILE     the worked log of docs/LOG.md
//!
//! All memory stands right before a page that nobody may touch, and then right after one.
//! It ends with 1 at the first difference, with 2 if calls but a soak's did not reach everything, and
//! with 3 if it was not understood.

mod compare;
mod coverage;
mod failure;
mod log;
#[allow(dead_code)]
#[path = "../ring/model.rs"]
mod model;
#[path = "../ring/own.rs"]
mod own;
#[allow(dead_code)]
#[path = "../ring/plans.rs"]
mod plans;
mod replay;
#[path = "../shared/basics.rs"]
mod shared;
mod watch;

use coverage::Coverage;
use failure::Failure;
use shared::random::Random;
use shared::{rounds, stop};
use std::panic::{catch_unwind, AssertUnwindSafe};
use std::process::exit;

/// What this program calls itself.
const NAME: &str = "log";
const SEED: u64 = 8_033;

/// One part of a round: its name, what it must reach, and its calls in memory before or after a
/// guarded page.
struct Part {
    name: &'static str,
    coverage: fn() -> Coverage,
    round: fn(&mut Random, bool, &mut Coverage) -> Result<(), Failure>,
}

const PARTS: [Part; 4] = [
    Part { name: "writer", coverage: log::writer_labels::coverage, round: log::writer::round },
    Part { name: "reader", coverage: log::reader_labels::coverage, round: log::reader::round },
    Part { name: "replay", coverage: replay::labels::coverage, round: replay::player::round },
    Part { name: "compare", coverage: compare::labels::coverage, round: compare::comparer::round },
];

/// Runs a part, and ends the program with 1 if it fails.
fn require(place: &str, run: impl FnOnce() -> Result<(), Failure>) {
    stop::set_place(place);
    let failure = match catch_unwind(AssertUnwindSafe(run)) {
        Ok(Ok(())) => return,
        Ok(Err(Failure(lines))) => lines,
        Err(_) => "the model stopped".to_string(),
    };
    println!("log: difference in {place}");
    println!("{failure}");
    exit(1);
}

/// One part of a round, in memory before and after a guarded page.
fn run(number: usize, seed: u64, reached: &mut Coverage) {
    let part = &PARTS[number];
    for at_end in [true, false] {
        let side = if at_end { "before" } else { "after" };
        let place = format!("{}, memory {side} a guarded page (seed {seed})", part.name);
        let mut mixed = Random::new(seed ^ (2 * number as u64 + u64::from(at_end)) << 48);
        let mut r = Random::new(mixed.number());
        require(&place, || (part.round)(&mut r, at_end, reached));
    }
}

fn round(seed: u64, reached: &mut [Coverage]) {
    for (number, reached) in reached.iter_mut().enumerate() {
        run(number, seed, reached);
    }
}

fn print(reached: &[Coverage], all: bool) {
    for (part, coverage) in PARTS.iter().zip(reached) {
        println!("{}: {} calls", part.name, coverage.calls);
        coverage.print(all);
    }
}

/// Says what was not reached; whether there is nothing of it.
fn all_reached(reached: &[Coverage]) -> bool {
    let missing: Vec<String> = reached.iter().flat_map(Coverage::missing).collect();
    for label in &missing {
        println!("log: not reached: {label}");
    }
    missing.is_empty()
}

/// Ends the program with 2 if anything was not reached.
fn require_all(reached: &[Coverage]) {
    if !all_reached(reached) {
        exit(2);
    }
}

fn begin() -> Vec<Coverage> {
    PARTS.iter().map(|part| (part.coverage)()).collect()
}

fn calls(reached: &[Coverage]) -> u64 {
    reached.iter().map(|coverage| coverage.calls).sum()
}

fn one_round(seed: u64, all: bool) {
    let mut reached = begin();
    round(seed, &mut reached);
    print(&reached, all);
    require_all(&reached);
    println!("log: {} calls, no difference", calls(&reached));
}

fn one_part(name: &str) {
    let number = PARTS.iter().position(|part| part.name == name);
    let number = number.unwrap_or_else(|| misunderstood());
    let mut reached = (PARTS[number].coverage)();
    run(number, SEED, &mut reached);
    println!("log: {} calls of {name}, no difference", reached.calls);
}

/// New seeds may miss in a short time what is rare: that is said, and is no failure.
fn soak(seconds: u64) {
    let mut reached = begin();
    rounds::soak(seconds, |seed| round(seed, &mut reached));
    print(&reached, false);
    all_reached(&reached);
    println!("log: soak of {seconds} seconds, {} calls, no difference", calls(&reached));
}

fn page(file: &str) {
    let text = std::fs::read_to_string(file).unwrap_or_else(|_| misunderstood());
    require("the page's worked log", || log::page::check(&text));
    println!("log: the page's worked log is the writer's, byte by byte");
}

fn misunderstood() -> ! {
    println!("log: usage: log [counts | seed N | part NAME | soak SECONDS | page FILE]");
    exit(3);
}

fn number(word: &str) -> u64 {
    word.parse().unwrap_or_else(|_| misunderstood())
}

fn main() {
    stop::install();
    rounds::by_words(|words| match *words {
        [] => one_round(SEED, false),
        ["counts"] => one_round(SEED, true),
        ["seed", seed] => one_round(number(seed), false),
        ["part", name] => one_part(name),
        ["soak", seconds] => soak(number(seconds)),
        ["page", file] => page(file),
        _ => misunderstood(),
    });
}
