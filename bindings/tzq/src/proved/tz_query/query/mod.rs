// Generated from crates/tz_query/src/query/mod.rt by bindings/erase: its contracts are cut. Change that file instead.
//! Queries, a line each, and their answers.

pub(crate) mod answers;
mod fault_names;
mod kept_segment;
pub(crate) mod meeting_answers;
mod output;
pub(crate) mod program;
pub(crate) mod read_query;
mod search_answers;
mod streams;
mod suffixes;
mod time_answers;

pub use answers::{answer, answer_tzif};
pub use program::tool;
pub use streams::{RunFault, run};
