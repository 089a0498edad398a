//! What the comparison of logs shares with those of the kinds of queue.

pub mod area;
#[allow(dead_code)]
pub mod groups;
pub mod random;
pub mod rounds;
pub mod stop;
#[allow(dead_code)]
pub mod traffic;
