// Generated from crates/tz_civil/src/calendar.rt by bindings/erase: its contracts are cut. Change that file instead.
//! Leap years and the lengths of months.

use crate::proved::tz_base::calendar::days_in_month as length_of_month;
pub use crate::proved::tz_base::calendar::is_leap_year;

/// How many days the month of a year has, or `None` if the month is not in 1 to 12.
#[must_use]
pub const fn days_in_month(year: i32, month: u8) -> Option<u8> {
    if month < 1 || month > 12 {
        return None;
    }
    Some(length_of_month(year, month))
}
