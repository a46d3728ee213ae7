//! The zones of the tz database as constants: `europe::PARIS` is the zone of the name
//! `Europe/Paris`, and [`named`] finds it by that name. Neither reads a file, allocates or locks.
//!
//! ```
//! use tz::DateTime;
//! use tz_zones::{america, europe};
//!
//! let shown = DateTime::from_timespec(1_743_296_400, 0, europe::PARIS)?;
//! assert_eq!((shown.month(), shown.month_day(), shown.hour()), (3, 30, 3));
//! let there = shown.project(america::argentina::USHUAIA)?;
//! assert_eq!((there.month_day(), there.hour()), (29, 22));
//! # Ok::<(), tz::TzError>(())
//! ```
//!
//! # Names of constants
//!
//! Each part of a name but the last is a module in lower case, and the last part is a constant in
//! upper case; names without a region, such as `UTC` and `EST5EDT`, are at the root. A `-` or `+`
//! before a digit is `MINUS` or `PLUS` between underscores, and any other `-` an underscore:
//!
//! | name | constant |
//! |---|---|
//! | `America/Port-au-Prince` | [`america::PORT_AU_PRINCE`] |
//! | `America/North_Dakota/Center` | [`america::north_dakota::CENTER`] |
//! | `Etc/GMT+12` | [`etc::GMT_PLUS_12`] |
//! | `Etc/GMT-0` | [`etc::GMT_MINUS_0`] |
//! | `GB-Eire` | [`GB_EIRE`] |
//!
//! Names with one zone (links) are constants, too. Their docs name the canonical one, as the tz
//! database has it: [`asia::CALCUTTA`] is the same as [`asia::KOLKATA`].
//!
//! # What a constant is
//!
//! The table and the rule of the zone's file. The tail of the table is left out as far as the rule
//! says the same, so that the clock of the zone is the same at every instant. rustc makes each
//! constant by `TimeZoneRef::new`, so one that its check refuses does not compile.

#![no_std]
#![forbid(unsafe_code)]
#![deny(missing_docs)]

mod parts;
#[rustfmt::skip]
mod zones;

pub use zones::names::VERSION;
pub use zones::*;

use tz::TimeZoneRef;
use zones::names::ENTRIES;

/// The names of all zones, with their other names, in the order of their bytes.
///
/// ```
/// use tz_zones::NAMES;
///
/// assert!(NAMES.is_sorted());
/// assert!(NAMES.contains(&"Europe/Paris"));
/// ```
pub static NAMES: &[&str] = &{
    let mut names = [""; ENTRIES.len()];
    let mut place = 0;
    while place < names.len() {
        names[place] = ENTRIES[place].0;
        place += 1;
    }
    names
};

/// The zone of a name, by binary search, or `None` if the database has no such name. Upper and
/// lower case differ.
///
/// ```
/// use tz_zones::{europe, named};
///
/// assert_eq!(named("Europe/Paris"), Some(europe::PARIS));
/// assert_eq!(named("europe/paris"), None);
/// ```
#[must_use]
pub fn named(name: &str) -> Option<TimeZoneRef<'static>> {
    let found = ENTRIES.binary_search_by(|(other, _)| (*other).cmp(name));
    found.ok().map(|place| *ENTRIES[place].1)
}

// The examples of the page are tested with those above.
#[cfg(doctest)]
#[doc = include_str!("../README.md")]
struct Page;
