// Generated from crates/tz_query/src/lib.rt by bindings/erase: its contracts are cut. Change that file instead.
//! Lines of queries about date times, and the program that answers them.

pub mod query;
