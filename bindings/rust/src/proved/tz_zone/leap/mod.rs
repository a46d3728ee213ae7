// Generated from crates/tz_zone/src/leap/mod.rt by bindings/erase: its contracts are cut. Change that file instead.
//! Leap seconds: their table, leap time, and the way back from it.

pub(crate) mod leap_time;
pub(crate) mod table_checks;

pub use table_checks::LeapSecond;
