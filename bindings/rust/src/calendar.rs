//! The proleptic Gregorian calendar: leap years and the lengths of months. [`Date`] has the
//! rest.

pub use crate::proved::tz_civil::calendar::{days_in_month, is_leap_year};
use crate::{Date, ParseDateTimeError};
use core::str::FromStr;

/// Reads a date as [`Date::parse`] does.
impl FromStr for Date {
    type Err = ParseDateTimeError;

    fn from_str(text: &str) -> Result<Self, Self::Err> {
        Date::parse(text.as_bytes())
    }
}
