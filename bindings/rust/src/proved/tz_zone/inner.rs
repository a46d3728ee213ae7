// Generated from crates/tz_zone/src/inner.rt by bindings/erase: its contracts are cut. Change that file instead.
//! For the crates above and their tests, and no part of the public surface: the clock of a zone
//! over a view of its transitions, leap times, what is read of a zone, and its data, which no
//! public call of `TimeZoneRef` returns.

pub use crate::proved::tz_zone::clock::window_types::{WindowTypes, window_types};
#[cfg(feature = "inner")]
pub use crate::proved::tz_zone::clock::{Span, Stage, clock_segment_at};
pub use crate::proved::tz_zone::clock::{first_stage, span_from};
#[cfg(feature = "inner")]
pub use crate::proved::tz_zone::leap::leap_time::{effect, unix_time_to_unix_leap_time};
pub use crate::proved::tz_zone::parse::after_byte;
#[cfg(feature = "inner")]
pub use crate::proved::tz_zone::parse::tz_file::{FileSizes, file_sizes};
#[cfg(feature = "inner")]
pub use crate::proved::tz_zone::parse::tz_string::parse_posix_tz;
pub use crate::proved::tz_zone::table::TransitionView;
#[cfg(all(feature = "std", feature = "inner"))]
pub use crate::proved::tz_zone::timezone::files::{open_fault, read_to_end};
pub use crate::proved::tz_zone::timezone::zone_data::ZoneData;
