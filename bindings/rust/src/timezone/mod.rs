//! Time zones: [`TimeZoneRef`], which borrows its parts, and with the feature `alloc` `TimeZone`, which owns them.
//!
//! A zone has transitions, [local time types](LocalTimeType), leap seconds and a [rule](TransitionRule) for the time after the last transition, as in RFC
//! 9636. Each is checked when the zone is made. A [`Change`] and a [`Segment`] are what a zone's clock does.

mod columns;
#[cfg(feature = "alloc")]
mod settings;
#[cfg(feature = "alloc")]
mod zone;

pub use crate::proved::tz_zone::timezone::{
    AlternateTime, Change, ChangesAfter, ChangesBefore, Julian0WithLeap, Julian1WithoutLeap,
    LeapSecond, LocalTimeType, MonthWeekDay, RuleDay, Segment, TimeZoneRef, Transition,
    TransitionRule, is_zone_name,
};
#[cfg(feature = "alloc")]
pub use settings::TimeZoneSettings;
#[cfg(feature = "std")]
pub use settings::read_file_up_to;
#[cfg(feature = "alloc")]
pub use zone::TimeZone;
