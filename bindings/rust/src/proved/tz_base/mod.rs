// Generated from crates/tz_base/src/lib.rt by bindings/erase: its contracts are cut. Change that file instead.
//! What the crates above share: the constants, the error types, the proleptic Gregorian calendar
//! both ways, the fields of date times and how they are printed, text without an allocation,
//! instants as totals of nanoseconds, and the order of numbers.

pub mod calendar;
pub mod constants;
pub mod error;
pub mod fields;

pub mod order;
pub mod print;
pub mod text_buffer;
