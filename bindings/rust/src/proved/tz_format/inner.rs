// Generated from crates/tz_format/src/inner.rt by bindings/erase: its contracts are cut. Change that file instead.
//! For the crates above, and no part of the public surface: lines, and what patterns print there.

#[cfg(feature = "inner")]
pub use crate::proved::tz_format::formatted::{push_date_time, push_utc_date_time};
#[cfg(feature = "inner")]
pub use crate::proved::tz_format::line::Line;
