//! Unix time to local date and time and back, for every year of an `i32`: exact searches, changes of clocks, dates, and patterns to print by.
//!
//! ```
//! use tz::datetime::{Disambiguation, Meaning};
//! use tz::timezone::{AlternateTime, MonthWeekDay, RuleDay, TransitionRule};
//! use tz::{DateTime, LocalTimeType, TimeZoneRef};
//!
//! # fn main() -> Result<(), tz::TzError> {
//! // With the feature `std` also `TimeZone::named("Europe/Paris")?`; the crate tz-zones has zones as constants.
//! let types = [LocalTimeType::new(3600, false, Some(b"CET"))?, LocalTimeType::new(7200, true, Some(b"CEST"))?];
//! let last_sunday = |month| MonthWeekDay::new(month, 5, 0).map(RuleDay::MonthWeekDay);
//! let summer = AlternateTime::new(types[0], types[1], last_sunday(3)?, 7200, last_sunday(10)?, 10_800)?;
//! let rule = Some(TransitionRule::Alternate(summer));
//! let zone = TimeZoneRef::new(&[], &types, &[], &rule)?;
//!
//! // What clocks show at an instant.
//! let shown = DateTime::from_timespec(954_032_400, 0, zone)?;
//! assert_eq!(shown.to_string(), "2000-03-26T03:00:00.000000000+02:00");
//!
//! // When clocks show a local time: at 3:00 they are set back to 2:00, so half past two comes twice.
//! let (first, last) = match DateTime::meaning(2000, 10, 29, 2, 30, 0, 0, zone)? {
//!     Meaning::Twice { first, last } => (first, last),
//!     _ => unreachable!(),
//! };
//! assert_eq!(last.unix_time() - first.unix_time(), 3600);
//! let chosen = DateTime::find_one(2000, 10, 29, 2, 30, 0, 0, Disambiguation::Later, zone)?;
//! assert_eq!(chosen, Some(last));
//!
//! // When clocks change next.
//! let change = zone.following(954_032_400).unwrap();
//! assert_eq!(change.unix_time(), 972_781_200);
//! # Ok(())
//! # }
//! ```
//!
//! # Which call
//!
//! | to | call |
//! |---|---|
//! | get a zone by its name, or from a file's bytes | `TimeZone::named`, `TimeZone::from_tz_data` |
//! | get what clocks show at an instant | [`DateTime::from_timespec`], [`UtcDateTime::from_timespec`] |
//! | get the offset alone | [`TimeZoneRef::find_local_time_type`] |
//! | choose one instant of a local time | [`DateTime::from_local`], [`DateTime::find_one`] |
//! | know whether a local time comes once, twice or never | [`DateTime::meaning`] |
//! | get all instants of a local time | `DateTime::find`, or without an allocation [`DateTime::find_n`] |
//! | get the next or the last change of the clock | [`TimeZoneRef::following`], [`TimeZoneRef::preceding`] |
//! | get a span of time in which the clock does not change | [`TimeZoneRef::segment_at`] |
//! | convert many values | [`TimeZoneRef::offsets_at`], [`TimeZoneRef::instants_of`] |
//! | go from one date to another, or to the start of a day | [`Date`], [`TimeZoneRef::start_of_day`] |
//! | print by a pattern, or read by one | [`DateTime::format`], with [`pattern!`]; [`Pattern::read`](format::Pattern::read) |
//! | read RFC 3339 | [`ParsedDateTime::parse`] |
//!
//! An instant is a Unix time, an `i64` of seconds since 1970-01-01T00:00:00Z. A [`DateTime`] is what clocks show at an instant, with its offset and without
//! its zone. A [`UtcDateTime`] is that of UTC, and also stands for a local time without a zone.
//!
//! # Features
//!
//! - without any: all calls of the table but `TimeZone::named`, `TimeZone::from_tz_data` and `DateTime::find`. They need no allocator
//! - `alloc`: also `TimeZone`, which owns its parts, with `from_tz_data`; `TimeZoneSettings` with a reader of your own; and `DateTime::find`
//! - `std`, the default: also the system's zone files (`TimeZone::named`, `local`) and clock, and `std::time::SystemTime`
//!
//! Zones can stand in constants: making them, lookups, changes and starts of days are `const fn`, as are dates but [`Date::parse`]. Searches, columns and
//! reading of texts are not.
//!
//! All types are `Send` and `Sync`, and hold neither locks nor caches. There is no global state.
//!
//! # Errors and panics
//!
//! Bytes of a file, TZ strings, texts and numbers may come from anyone: a call that cannot answer returns an error. These panic, and their docs say so:
//!
//! - `+` and `-` of a duration (as std's), and conversions into a `SystemTime`, out of range
//! - out of memory `TimeZone::utc`, `TimeZone::fixed`, and copies of a `TimeZone` or of the list that `DateTime::find` returns
//!
//! Out of memory the program aborts when an error is boxed, or when a list of one date time becomes a vector (`into_inner`, `into_iter`). Other calls
//! that allocate return [`TzError::Memory`].
//!
//! # What is proved
//!
//! Searches find each instant and each jump, once and in order, and lookups return what the standards say: these are theorems about the source from which
//! most of this crate is generated. The repository's README says what they rest on.
#![forbid(unsafe_code)]
#![deny(missing_docs)]
#![cfg_attr(not(feature = "std"), no_std)]
#![cfg_attr(docsrs, feature(doc_cfg), doc(auto_cfg(hide(feature = "inner"))))]

// The proofs are for 64 bits. docs/WIDTHS.md argues that 32 do as well.
#[cfg(not(any(target_pointer_width = "64", target_pointer_width = "32")))]
compile_error!("a `usize` must have 64 bits, or 32: docs/WIDTHS.md says why");

#[cfg(feature = "alloc")]
extern crate alloc;
#[cfg(test)]
extern crate std;

pub mod calendar;
pub mod datetime;
pub mod error;
pub mod format;
pub mod timezone;

#[cfg(doctest)]
mod guide;
#[cfg(doctest)]
mod refused;

// The program and the C library are made over the crate's inner calls. These have conditions that only proofs check, and may change at any time.
#[cfg(not(feature = "inner"))]
#[cfg_attr(not(feature = "std"), allow(dead_code))]
mod proved;
// No user sees these types, and docs of what the crate does not have name laws.
#[cfg(feature = "inner")]
#[doc(hidden)]
#[cfg_attr(not(feature = "std"), allow(dead_code))]
#[allow(
    clippy::len_without_is_empty,
    clippy::must_use_candidate,
    clippy::new_without_default,
    rustdoc::broken_intra_doc_links
)]
pub mod proved;
#[cfg(not(feature = "inner"))]
#[cfg_attr(not(feature = "alloc"), allow(dead_code))]
mod shim;
#[cfg(feature = "inner")]
#[doc(hidden)]
#[allow(clippy::must_use_candidate, clippy::new_without_default)]
pub mod shim;

pub use datetime::{DateTime, UtcDateTime};
pub use error::{Error, TzError};
pub use proved::tz::{DateTimePart, ParseDateTimeError, ParsedDateTime, TzString};
pub use proved::tz_base::constants;
pub use proved::tz_civil::{Date, WeekDate};
pub use timezone::{Change, ChangesAfter, ChangesBefore, LocalTimeType, Segment, TimeZoneRef};
#[cfg(feature = "alloc")]
pub use timezone::{TimeZone, TimeZoneSettings};
