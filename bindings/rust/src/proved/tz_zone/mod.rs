// Generated from crates/tz_zone/src/lib.rt by bindings/erase: its contracts are cut. Change that file instead.
//! Time zones: transitions, leap seconds and an extra rule, and the clock that they make.

mod clock;
pub mod inner;

mod leap;
pub(crate) mod parse;
mod table;
pub mod timezone;

pub use crate::proved::tz_zone::parse::tz_string_writer::TzString;
