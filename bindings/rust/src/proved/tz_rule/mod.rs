// Generated from crates/tz_rule/src/lib.rt by bindings/erase: its contracts are cut. Change that file instead.
//! Local time types, and the rules by which they change from year to year.

pub mod inner;

pub mod timezone;
