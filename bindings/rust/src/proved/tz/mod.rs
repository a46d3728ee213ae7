// Generated from crates/tz/src/lib.rt by bindings/erase: its contracts are cut. Change that file instead.
//! Unix time to the local date and time of a time zone, and back. This is a port of the Rust crate
//! tz-rs 0.7.3 in which every answer is proved.
//!
//! # Four tasks
//!
//! Make a zone, from the machine's files by a name, from a TZ string, or from the bytes of a TZif
//! file:
//!
//! ```text
//! let zone = TimeZone::from_posix_tz(alloc, reader, "Europe/Paris")?;
//! let zone = TimeZone::from_posix_tz(alloc, reader, "CET-1CEST,M3.5.0,M10.5.0/3")?;
//! let zone = TimeZone::from_tz_data(alloc, bytes)?;
//! ```
//!
//! See what clocks show at a Unix time:
//!
//! ```text
//! let date_time = DateTime::from_timespec(946_684_800, 0, zone.as_ref())?;
//! ```
//!
//! Find the instant that a local time means, by a choice for gaps and folds
//! ([`Disambiguation`](datetime::Disambiguation)), or everything that it can mean:
//!
//! ```text
//! let date_time = DateTime::from_local(local, Disambiguation::Compatible, zone.as_ref())?;
//! let found = DateTime::find(alloc, 2000, 10, 29, 2, 30, 0, 0, zone.as_ref())?;
//! ```
//!
//! See when clocks change next:
//!
//! ```text
//! let change = zone.following(946_684_800);
//! ```
//!
//! # Types
//!
//! | type | what it is | how to make one |
//! |---|---|---|
//! | [`TimeZone`] | a zone that owns its tables | `local`, `named`, `from_posix_tz`, `from_tz_data`, `fixed`, `utc`, `new` |
//! | [`TimeZoneRef`] | a borrowed zone, which other calls take | [`TimeZone::as_ref`]; without allocating, `new` and `utc` |
//! | [`TimeZoneSettings`] | directories of zone files, and a function that reads a file | `new` |
//! | [`DateTime`] | what clocks show at an instant, with their local time type | `from_timespec`, `from_local`, `project`, `now`, `new` |
//! | [`UtcDateTime`] | a date time of UTC, or one without a zone where a call takes a local time | `new`, `from_timespec`, `now`, `parse` of a text |
//! | [`ParsedDateTime`] | the local time and the offset of a text | [`ParsedDateTime::parse`] |
//! | [`Disambiguation`](datetime::Disambiguation) | which instant is meant in a gap or a fold | one of its variants |
//! | [`FoundDateTimeKind`](datetime::FoundDateTimeKind) | an instant at which clocks show a local time, or a jump over it | `DateTime::find` |
//! | [`FoundDateTimeList`](datetime::FoundDateTimeList) | all of these, in a vector | [`DateTime::find`], `find_local` |
//! | [`FoundDateTimeListRefMut`](datetime::FoundDateTimeListRefMut) | the first of these in a buffer, and their count | `find_n`, `find_n_local` |
//! | [`Meaning`](datetime::Meaning) | whether a local time has one instant, two or none | [`DateTime::meaning`], `meaning_local` |
//! | [`Segment`] | a span of time with one local time type | [`TimeZoneRef::segment_at`] |
//! | [`Change`] | an instant at which the type changes | `TimeZoneRef::following`, `preceding`, `changes_after`, `changes_before` |
//! | [`LocalTimeType`] | an offset from UTC, a daylight flag and a name | `new`, `with_ut_offset`, `utc` |
//! | [`Transition`](timezone::Transition) | a time from which on a type holds | `new` |
//! | [`LeapSecond`](timezone::LeapSecond) | a time from which on leap time is ahead by a correction | `new` |
//! | [`TransitionRule`](timezone::TransitionRule) | the local time after the last transition | `Fixed`, or `Alternate` of an `AlternateTime` |
//! | [`AlternateTime`](timezone::AlternateTime) | standard and daylight saving time, and when each begins | `new` |
//! | [`RuleDay`](timezone::RuleDay) | a day of each year | a variant, of the type with the same name: `MonthWeekDay::new` |
//! | [`TzString`] | the text of a rule | [`TzString::from_rule`] |
//!
//! Errors are in [`error`]: a call returns [`TzError`], or [`Error`] if it reads files. Numbers of
//! the calendar are in [`constants`], and laws for proofs in [`laws`].
//!
//! # Gaps and folds
//!
//! A zone's clock is ahead of UTC by the offset of its [`LocalTimeType`]. When the offset grows,
//! clocks are set forward and skip the local times of a gap. When it shrinks, they are set back and
//! show the local times of a fold twice. [`DateTime::find`] returns an entry for each instant at
//! which clocks show a local time and for each jump over it. Lookup and search use the same clock:
//! before the last transition it has the type of the last transition that has been reached, or the
//! zone's first type if none has, and from there on that of the zone's rule. The times of
//! transitions count the leap seconds of a zone that has them; Unix times and durations never do.
//!
//! # What is proved
//!
//! Each function meets its contract for all arguments, terminates, and has no undefined behaviour.
//! The contract is written at the function. It says which value is returned and when the call
//! fails, by definitions in `specs/` that follow RFC 8536 and POSIX.
//!
//! A call that allocates has an allocator among its arguments, or uses that of its value, and
//! returns [`TzError::Memory`], or an error that holds it, if it is out of memory. The other calls
//! do not allocate; what they are passed may, as the writer to which a date time is printed.

mod columns;
pub mod datetime;
pub mod inner;

pub(crate) mod parse;
mod utc_text;

pub use crate::proved::tz::datetime::{DateTime, UtcDateTime};
#[cfg(feature = "inner")]
pub use crate::proved::tz::error::{Error, TzError};
pub use crate::proved::tz::parse::{DateTimePart, ParseDateTimeError, ParsedDateTime};
pub use crate::proved::tz::timezone::LocalTimeType;
#[cfg(feature = "inner")]
pub use crate::proved::tz::timezone::{Change, ChangesAfter, ChangesBefore, Segment, TimeZoneRef};
#[cfg(all(feature = "alloc", feature = "inner"))]
pub use crate::proved::tz::timezone::{TimeZone, TimeZoneSettings};
#[cfg(feature = "inner")]
pub use crate::proved::tz_base::{constants, error};
pub use crate::proved::tz_zone::{TzString, timezone};
