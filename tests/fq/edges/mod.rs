//! Names what happens at a call, with both sides of the edges of the rules. Each list pairs a name
//! with whether it happened; the coverage counts them by their places.

pub mod ends;
pub mod lists;
pub mod refused;
#[path = "../../pair/edges/rules.rs"]
pub mod rules;
pub mod store;
pub mod totals;
