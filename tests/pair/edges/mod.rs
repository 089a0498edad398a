//! Names what happens at a call, with both sides of the edges of the rules. Each list pairs a name
//! with whether it happened; the coverage counts them by their places.

pub mod ends;
pub mod refused;
pub mod rules;
pub mod store;
