//! Rounds on new seeds, and the words of the command line.

use super::random::Random;
use crate::NAME;
use std::time::{Duration, Instant, SystemTime, UNIX_EPOCH};

extern "C" {
    fn isatty(descriptor: i32) -> i32;
}

/// On a terminal, how far this program's soak is; a soak of all kinds runs one after the other.
fn tell(begin: Instant, seconds: u64) {
    // Safety: it reads nothing but what stands behind the descriptor of standard error.
    if unsafe { isatty(2) } != 0 {
        eprintln!("{NAME}: {} of {seconds} seconds", begin.elapsed().as_secs());
    }
}

/// Whole rounds, each on a new seed, until the time is over.
pub fn soak(seconds: u64, mut round: impl FnMut(u64)) {
    let begin = Instant::now();
    let end = begin + Duration::from_secs(seconds);
    let now = SystemTime::now().duration_since(UNIX_EPOCH).unwrap_or_default();
    let mut seeds = Random::new(now.as_nanos() as u64);
    while Instant::now() < end {
        let seed = seeds.number() >> 16;
        println!("seed {seed}");
        round(seed);
        tell(begin, seconds);
    }
}

/// Runs the program by the words of its command line.
pub fn by_words(run: impl FnOnce(&[&str])) {
    let arguments: Vec<String> = std::env::args().skip(1).collect();
    let words: Vec<&str> = arguments.iter().map(String::as_str).collect();
    run(&words);
}
