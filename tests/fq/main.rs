//! Compares the library's 64 flows with a model of their rules, call by call.
//!
//!   fq               the fixed seed; the same calls each time
//!   fq counts        the same, and prints how often each thing was reached
//!   fq seed N        one round with the seed N
//!   fq soak SECONDS  rounds with new seeds until the time is over
//!   fq guard         calls with memory that stands beside or between guarded pages
//!   fq script        answers the script on standard input by the model
//!
//! It ends with 1 at the first difference, with 2 if calls but a soak's did not reach everything, and
//! with 3 if it was not understood.
//!
//! The rules of one queue, the store and what makes random queues are the pair's: `model` and the
//! modules from its folder.

#[path = "../pair/aims.rs"]
mod aims;
mod broken;
#[path = "../pair/broken_queue.rs"]
mod broken_queue;
mod coverage;
mod damage;
mod edges;
mod flows;
mod kind;
#[allow(dead_code)]
#[path = "../pair/layout.rs"]
mod layout;
mod library;
#[path = "../pair/links.rs"]
mod links;
#[allow(dead_code)]
#[path = "../pair/model/mod.rs"]
mod model;
mod plans;
mod records;
mod runs;
mod script;
mod shadow;
#[path = "../shared/mod.rs"]
mod shared;
mod single;
#[allow(dead_code)]
#[path = "../pair/states.rs"]
mod states;
mod worked;

use shared::program::Round;

/// What this program calls itself where it speaks of a difference.
const NAME: &str = "fq";

fn main() {
    if std::env::args().skip(1).eq(["script"]) {
        return script::run();
    }
    let round = Round::<kind::Flows> {
        seed: 80_337,
        batches: 120,
        runs: 2 * plans::KINDS,
        guarded: (50, plans::KINDS),
        figures: ("the page's worked cases", worked::run),
    };
    round.main();
}
