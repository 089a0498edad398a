//! Compares the library's modem with a model of its rules, call by call.
//!
//!   modem               the fixed seed; the same calls each time
//!   modem counts        the same, and prints how often each thing was reached
//!   modem seed N        one round with the seed N
//!   modem soak SECONDS  rounds with new seeds until the time is over
//!   modem guard         calls with memory that stands beside or between guarded pages
//!
//! It ends with 1 at the first difference, with 2 if calls but a soak's did not reach everything, and
//! with 3 if it was not understood.

mod aims;
mod broken;
mod coverage;
mod edges;
mod kind;
mod library;
mod model;
mod plans;
mod runs;
mod shadow;
#[path = "../shared/mod.rs"]
mod shared;
mod single;
mod states;
mod worked;

use shared::program::Round;

/// What this program calls itself.
const NAME: &str = "modem";

fn main() {
    let round = Round::<kind::Modem> {
        seed: 8_034,
        batches: 500,
        runs: 16,
        guarded: (60, 4),
        figures: ("the page's worked numbers", worked::run),
    };
    round.main();
}
