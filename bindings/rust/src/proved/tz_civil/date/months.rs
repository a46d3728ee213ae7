// Generated from crates/tz_civil/src/date/months.rt by bindings/erase: its contracts are cut. Change that file instead.
//! Dates months later.

use super::Date;
use crate::proved::tz_base::calendar::{days_in_month, moved_year, year_of_moved};

/// January of the year -2147483648, in months from January of the year -2147484000 on.
const FIRST_MONTH: i64 = 4224;

/// December of the year 2147483647.
const LAST_MONTH: i64 = 51_539_611_775;

/// The lesser of two days.
const fn lesser(a: u8, b: u8) -> u8 {
    if a < b { a } else { b }
}

impl Date {
    /// The date with the same day of the month `months` months later, or earlier if `months` is
    /// negative; the last day of a month that has fewer days. `None` outside the years of 32 bits.
    ///
    /// A month after January 31st is February 28th or 29th, and a month after that is March 28th or
    /// 29th. So that a series of dates does not stay there, add the months of each to the first
    /// date.
    #[must_use]
    pub const fn checked_add_months(self, months: i32) -> Option<Self> {
        let number = 12 * moved_year(self.year) + self.month as u64 - 1;
        let later = number as i64 + months as i64;
        if later < FIRST_MONTH || later > LAST_MONTH {
            return None;
        }
        let later = later as u64;
        let year = year_of_moved(later / 12);
        let month = (later % 12) as u8 + 1;
        Some(Date {
            year,
            month,
            month_day: lesser(self.month_day, days_in_month(year, month)),
        })
    }
}
