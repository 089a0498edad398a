//! The replay of a log.

mod changes;
mod figures;
pub mod labels;
mod lender;
mod model;
mod own;
pub mod player;
pub mod runs;
