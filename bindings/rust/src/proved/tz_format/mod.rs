// Generated from crates/tz_format/src/lib.rt by bindings/erase: its contracts are cut. Change that file instead.
//! Date times printed and read by patterns, and local times as people write them.

mod conversion;
mod formatted;
pub mod inner;

mod lenient;
mod line;
mod moment;
mod pattern;
mod print;
mod read;
mod weeks;

pub use crate::proved::tz_format::formatted::{FormattedDateTime, FormattedUtcDateTime};
pub use crate::proved::tz_format::lenient::{LenientDateTime, LenientDateTimeError};
pub use crate::proved::tz_format::pattern::{Pattern, PatternError, UtcPattern};
pub use crate::proved::tz_format::read::{ReadDateTime, ReadPatternError};
