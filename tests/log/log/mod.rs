//! Writer and reader of the log.

pub mod damage;
pub mod edges;
pub mod lender;
pub mod makers;
pub mod model;
pub mod page;
mod range_labels;
pub mod reader;
pub mod reader_labels;
pub mod types;
pub mod whole;
pub mod writer;
pub mod writer_labels;
