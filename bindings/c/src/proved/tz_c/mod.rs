// Generated from crates/tz_c/src/lib.rt by bindings/erase: its contracts are cut. Change that file instead.
//! The library of C programs: exports that state the contracts of `tz` again. The header is
//! bindings/c/tz.h.

pub(crate) mod codes;
pub(crate) mod columns;
pub(crate) mod date_time_data;
pub(crate) mod date_times;
pub(crate) mod dates;

pub(crate) mod formats;

pub(crate) mod rule_data;
pub(crate) mod searches;
pub(crate) mod texts;
pub(crate) mod zone_data;
pub(crate) mod zones;
