// Generated from crates/tz_civil/src/date/week_days.rt by bindings/erase: its contracts are cut. Change that file instead.
//! The next date with a week day, and the n-th of a month.

use super::Date;
use crate::proved::tz_base::calendar::{days_in_month, days_since_unix_epoch};

/// A Sunday past the years of 32 bits, by the number of its day.
const LATE_SUNDAY: i64 = 784_351_577_005;

/// How many days after a day the first one with a week day is, if the day itself can be it.
///
/// One remainder, of a number that is not negative, stands for the week day of the day and the
/// days between the two.
pub(super) const fn days_until(week_day: u8, day: i64) -> u8 {
    ((LATE_SUNDAY + week_day as i64 - day) as u64 % 7) as u8
}

/// The first day of a month that has a week day.
const fn first_with_week_day(year: i32, month: u8, week_day: u8) -> u8 {
    days_until(week_day, days_since_unix_epoch(year, month, 1)) + 1
}

/// How many weeks the n-th day with a week day is after the first one, by the first and the last
/// day of the month.
const fn weeks_after_first(n: i8, first: u8, last: u8) -> Option<u8> {
    let most = (last - first) / 7;
    if n > 0 {
        let weeks = (n - 1) as u8;
        if weeks <= most { Some(weeks) } else { None }
    } else if n < 0 {
        let back = (-1 - n) as u8;
        if back <= most {
            Some(most - back)
        } else {
            None
        }
    } else {
        None
    }
}

impl Date {
    /// The first later date with a week day, from Sunday = 0 to 6: a week later if this date has
    /// it. `None` for another number, or outside the years of 32 bits.
    #[must_use]
    pub const fn next_week_day(self, week_day: u8) -> Option<Self> {
        if week_day > 6 {
            return None;
        }
        let days = days_until(week_day, self.day_number() + 1) + 1;
        self.add_up_to_28_days(days)
    }

    /// The n-th date of a month with a week day, from Sunday = 0 to 6: from the beginning for n
    /// from 1 to 5, and from the end for n from -1, the last one, to -5. `None` if the month has
    /// fewer of them, or if a number is out of range.
    #[must_use]
    pub const fn nth_week_day(year: i32, month: u8, n: i8, week_day: u8) -> Option<Self> {
        if month < 1 || month > 12 || week_day > 6 {
            return None;
        }
        let first = first_with_week_day(year, month, week_day);
        // Each month has four of them.
        if n >= 1 && n <= 4 {
            return Some(Date {
                year,
                month,
                month_day: first + 7 * (n - 1) as u8,
            });
        }
        let last = days_in_month(year, month);
        let Some(weeks) = weeks_after_first(n, first, last) else {
            return None;
        };
        Some(Date {
            year,
            month,
            month_day: first + 7 * weeks,
        })
    }
}
