//! The comparison of two logs.

pub mod comparer;
pub mod labels;
mod lender;
mod model;
