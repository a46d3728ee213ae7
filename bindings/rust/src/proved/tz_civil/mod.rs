// Generated from crates/tz_civil/src/lib.rt by bindings/erase: its contracts are cut. Change that file instead.
//! Dates of the proleptic Gregorian calendar, steps from one to another, week dates, and when a
//! date begins in a time zone.

pub mod calendar;
mod date;
mod day_starts;
pub mod inner;

pub use date::{Date, WeekDate};
#[cfg(feature = "inner")]
pub use day_starts::start_of_day;
