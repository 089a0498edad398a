//! The harness: what the comparisons of all kinds of queue share. A kind says by the traits of `kind`,
//! `coverage`, `single`, `bursts` and `runs` what its records, calls and rules are.

#![allow(dead_code)]

pub mod area;
pub mod burst_labels;
pub mod bursts;
pub mod chains;
pub mod coverage;
pub mod flow;
pub mod groups;
pub mod kind;
pub mod lend;
pub mod lists;
pub mod numbers;
pub mod pair;
pub mod program;
pub mod random;
pub mod recorded;
pub mod report;
pub mod rounds;
pub mod runs;
pub mod script;
pub mod shadow;
pub mod single;
pub mod stop;
pub mod traffic;
