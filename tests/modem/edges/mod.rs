//! Names what happens at a call, with both sides of every edge of the rules. Each list pairs a name
//! with whether it happened; the coverage counts them by their places.

pub mod arrival;
pub mod departure;
pub mod ends;
pub mod tick;
