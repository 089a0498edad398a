//! Compares the library's pair of queues with a model of its rules, call by call.
//!
//!   pair               the fixed seed; the same calls each time
//!   pair counts        the same, and prints how often each thing was reached
//!   pair seed N        one round with the seed N
//!   pair soak SECONDS  rounds with new seeds until the time is over
//!   pair guard         calls with memory that stands beside or between guarded pages
//!   pair script        answers the script on standard input by the model
//!
//! It ends with 1 at the first difference, with 2 if calls but a soak's did not reach everything, and
//! with 3 if it was not understood.

mod aims;
mod alone;
mod broken;
mod broken_queue;
mod coverage;
mod damage;
mod edges;
mod kind;
mod layout;
mod library;
mod links;
mod model;
#[path = "../ring/own.rs"]
mod own;
mod plans;
mod runs;
mod script;
#[path = "../shared/mod.rs"]
mod shared;
mod single;
mod states;
mod words;
mod worked;

use shared::program::Round;

/// What this program calls itself where it speaks of a difference.
const NAME: &str = "pair";

fn main() {
    if std::env::args().skip(1).eq(["script"]) {
        return script::run();
    }
    let round = Round::<kind::Two> {
        seed: 80_337,
        batches: 500,
        runs: 4 * plans::KINDS,
        guarded: (60, plans::KINDS),
        figures: ("the page's worked cases", worked::run),
    };
    round.main();
}
