//! Compares the library with a model of the rules, call by call.
//!
//!   ring               the fixed seed; the same calls each time
//!   ring counts        the same, and prints how often each thing was reached
//!   ring seed N        one round with the seed N
//!   ring soak SECONDS  rounds with new seeds until the time is over
//!   ring guard         calls with memory that stands beside or between guarded pages
//!
//! It ends with 1 at the first difference, with 2 if calls but a soak's did not reach everything, and
//! with 3 if it was not understood.

mod broken;
mod calm;
mod coverage;
mod events;
mod examples;
mod kind;
mod library;
mod model;
mod plans;
mod runs;
#[path = "../shared/mod.rs"]
mod shared;
mod single;
mod states;

use shared::program::Round;

/// What this program calls itself.
const NAME: &str = "ring";

fn main() {
    let round = Round::<kind::Ring> {
        seed: 8_033,
        batches: 400,
        runs: 5 * plans::KINDS,
        guarded: (20, 2 * plans::KINDS),
        figures: ("the figures of the document", examples::run),
    };
    round.main();
}
