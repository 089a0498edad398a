//! Compares the library's number of ticks to recover with what the model's queue needs, from every
//! start, at many targets and in both profiles.
//!
//! A start is any probability with any old delay. Ticks on an empty queue are followed for all
//! starts at once, as intervals of probabilities, until 0 is all that is left: so many ticks the
//! worst start needs. That start is then found, and run alone.
//!
//! It ends with 1 where the library's number is below the worst, or above 1.1 times it and 8.

#[allow(dead_code)]
#[path = "../ring/model.rs"]
mod model;
#[allow(dead_code)]
#[path = "../shared/random.rs"]
mod random;
mod starts;

use model::{State, CALM, FULL_ALLOWANCE, PLAIN, TARGET, TICK_PERIOD, TIME_MAX, WHOLE};
use random::Random;
use starts::{Settings, Starts};
use std::process::exit;

/// Targets a prime number apart, both ends of the range, and those that the pages speak of.
const STRIDE: usize = 17;
const NAMED: [u64; 5] = [1_001, 15_000, 20_000, 99_999, 100_000];
/// Random starts that are run at each target.
const OTHERS: usize = 20;
/// The old delay of the worst start.
const OLD: u64 = 1;

extern "C" {
    fn obikuteru_ticks_to_recover(target: u64) -> u64;
}

fn library(target: u64) -> u64 {
    unsafe { obikuteru_ticks_to_recover(target) }
}

/// An empty queue with this probability and old delay, after so many punctual ticks.
fn run(settings: Settings, (probability, old_delay): (u64, u64), ticks: u64) -> State {
    let mut state = starts::empty(settings, probability, old_delay);
    for _ in 0..ticks {
        let clock = state.last + TICK_PERIOD;
        model::tick(&mut state, clock).expect("a punctual tick is accepted");
    }
    state
}

/// What the first tick leaves of every start: with an old delay of 1 every probability up to some,
/// and with no other more. With 0 rule 5 takes a 64th, and a longer one takes more.
fn first_left(settings: Settings) -> Result<Starts, String> {
    let left = Starts::all().ticked(settings, OLD);
    let more = |old| Starts::all().ticked(settings, old).most() > left.most();
    if !left.has_all_below() || [0, 2, settings.target, TIME_MAX].into_iter().any(more) {
        return Err(format!("the first tick leaves most with another old delay than {OLD}"));
    }
    Ok(left)
}

/// How many ticks the worst start needs, and that start.
fn worst(settings: Settings) -> Result<(u64, (u64, u64)), String> {
    let mut left = vec![Starts::all(), first_left(settings)?];
    while left[left.len() - 1].most() > 0 {
        left.push(left[left.len() - 1].ticked(settings, 0));
    }
    let ticks = left.len() - 1;
    let mut probability = left[ticks - 1].most();
    for n in (0..ticks - 1).rev() {
        probability = left[n].before(settings, if n == 0 { OLD } else { 0 }, probability);
    }
    Ok((ticks as u64, (probability, OLD)))
}

/// Whether probability and allowance are as demand 3 has them.
fn recovered(state: &State) -> bool {
    state.probability == 0 && state.allowance == FULL_ALLOWANCE
}

/// What is wrong with these settings, or the ticks that the worst start needs.
fn compare(settings: Settings, random: &mut Random) -> Result<u64, String> {
    let ticks = library(settings.target);
    let (needed, start) = worst(settings)?;
    if run(settings, start, needed - 1).probability == 0
        || !recovered(&run(settings, start, needed))
    {
        return Err(format!("the start {start:?} does not need {needed} ticks"));
    }
    if ticks < needed {
        return Err(format!("{ticks} ticks, and {needed} are needed from {start:?}"));
    }
    if 10 * ticks > 11 * needed + 80 {
        return Err(format!("{ticks} ticks, where {needed} suffice"));
    }
    for _ in 0..OTHERS {
        let other = (random.spread(0, WHOLE), random.spread(0, TIME_MAX));
        if !recovered(&run(settings, other, ticks)) {
            return Err(format!("{ticks} ticks do not suffice from {other:?}"));
        }
    }
    Ok(needed)
}

fn main() {
    let mut random = Random::new(8_033);
    let outside = [0, TARGET.0 - 1, TARGET.1 + 1, 1 << 32, u64::MAX];
    if let Some(target) = outside.into_iter().find(|&target| library(target) != 0) {
        eprintln!("recovery: the target {target} is out of range, and has a number.");
        exit(1);
    }
    let (mut targets, mut least, mut most) = (0, u64::MAX, 0);
    for target in (TARGET.0..=TARGET.1).step_by(STRIDE).chain(NAMED) {
        let [needed, calm] = [PLAIN, CALM].map(|profile| {
            compare(Settings { target, profile }, &mut random).unwrap_or_else(|what| {
                eprintln!("recovery: target {target}, profile {profile}: {what}.");
                exit(1);
            })
        });
        if needed != calm {
            eprintln!("recovery: target {target}: {needed} ticks are needed, and {calm} if calm.");
            exit(1);
        }
        let slack = library(target) - needed;
        (targets, least, most) = (targets + 1, slack.min(least), slack.max(most));
        if NAMED.contains(&target) || target == TARGET.0 {
            println!("recovery: target {target}: {} ticks, {needed} needed", needed + slack);
        }
    }
    println!(
        "recovery: {targets} targets, {least} to {most} ticks above what the worst start needs"
    );
}
