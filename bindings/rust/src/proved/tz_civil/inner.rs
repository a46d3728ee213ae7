// Generated from crates/tz_civil/src/inner.rt by bindings/erase: its contracts are cut. Change that file instead.
//! For the crates above, and no part of the public surface: the parts of a date, and when a day
//! begins in a zone of plain data.

#[cfg(feature = "inner")]
pub use crate::proved::tz_civil::date::parts_of;
#[cfg(feature = "inner")]
pub use crate::proved::tz_civil::day_starts::{Shown, first_of_day};
