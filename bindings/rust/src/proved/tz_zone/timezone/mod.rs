// Generated from crates/tz_zone/src/timezone/mod.rt by bindings/erase: its contracts are cut. Change that file instead.
//! Transitions, leap seconds and time zones.

mod changes;
pub(crate) mod files;
pub(crate) mod settings;
mod zone;
pub(crate) mod zone_checks;
pub(crate) mod zone_data;
mod zone_names;
mod zone_ref;

pub use crate::proved::tz_rule::timezone::{
    AlternateTime, Julian0WithLeap, Julian1WithoutLeap, LocalTimeType, MonthWeekDay, RuleDay,
    TransitionRule,
};
pub use crate::proved::tz_zone::clock::{Change, Segment};
pub use crate::proved::tz_zone::leap::LeapSecond;
pub use crate::proved::tz_zone::table::Transition;
pub use changes::{ChangesAfter, ChangesBefore};
#[cfg(feature = "std")]
pub use files::read_file_up_to;
#[cfg(all(feature = "std", feature = "inner"))]
pub use files::{read_file, read_up_to};
#[cfg(feature = "std")]
pub use settings::DEFAULT_DIRECTORIES;
#[cfg(feature = "alloc")]
pub use settings::TimeZoneSettings;
#[cfg(feature = "alloc")]
pub use zone::TimeZone;
pub use zone_names::is_zone_name;
pub use zone_ref::TimeZoneRef;
