// Generated from crates/tz_base/src/calendar.rt by bindings/erase: its contracts are cut. Change that file instead.
//! The proleptic Gregorian calendar over all years of 32 bits: leap years, the lengths of months,
//! week days, and days by number and back.
//!
//! Years are moved by cycles of 400 years, so that none is negative. A cycle has 146097 days, which
//! are whole weeks, so a moved year has the months and the week days of the year that it stands
//! for.

use crate::proved::tz_base::constants::{
    CUMUL_DAYS_IN_MONTHS_LEAP_YEAR, CUMUL_DAYS_IN_MONTHS_NORMAL_YEAR, DAYS_PER_400_YEARS,
    SECONDS_PER_DAY,
};

/// How many cycles a year is moved by.
const CYCLES: i64 = 5_368_710;

/// How many years the moved years are counted earlier.
const ADDED_YEARS: i64 = 400 * CYCLES;

/// The days from January 1st of the year -2147484000, which is moved to 0, to 1970-01-01.
pub const ADDED_DAYS: i64 = DAYS_PER_400_YEARS * CYCLES + 719_528;

/// The seconds of [`ADDED_DAYS`].
const ADDED_SECONDS: i64 = SECONDS_PER_DAY * ADDED_DAYS;

/// The days from the day before March 1st of the year -2147484000 to 1970-01-01.
const ADDED_MARCH_DAYS: i64 = 784_353_144_339;

/// Days from March 1st to the first of each month: January and February come last.
const DAYS_FROM_MARCH: [u16; 12] = [306, 337, 0, 31, 61, 92, 122, 153, 184, 214, 245, 275];

/// The year, counted from a multiple of 400 years before all years of an `i32`, so that none is
/// negative.
#[must_use]
pub const fn moved_year(year: i32) -> u64 {
    (year as i64 + ADDED_YEARS) as u64
}

/// The year that a moved year stands for.
#[must_use]
pub const fn year_of_moved(years: u64) -> i32 {
    (years as i64 - ADDED_YEARS) as i32
}

/// Seconds from 1970-01-01 00:00:00 on, counted from January 1st of the year -2147484000 instead.
#[must_use]
pub const fn moved_seconds(seconds: i64) -> u64 {
    (seconds + ADDED_SECONDS) as u64
}

/// Whether the year is leap: divisible by 4 but not by 100, or divisible by 400.
#[must_use]
pub const fn is_leap_year(year: i32) -> bool {
    is_moved_year_leap(moved_year(year))
}

/// Whether a moved year is leap. One that is divisible by 100 is divisible by 400 exactly if it is
/// by 16.
#[must_use]
pub const fn is_moved_year_leap(years: u64) -> bool {
    if 100 * centuries_before(years) == years {
        years % 16 == 0
    } else {
        years % 4 == 0
    }
}

/// How many years before a moved year are divisible by 100. A multiplication and a shift stand for
/// the division.
const fn centuries_before(years: u64) -> u64 {
    1_374_389_535 * (years + 99) / 137_438_953_472
}

/// How many days a month has in a leap year, or in a year of 365 days.
#[must_use]
pub const fn days_of_month(leap: bool, month: u8) -> u8 {
    match month {
        2 => {
            if leap {
                29
            } else {
                28
            }
        }
        4 | 6 | 9 | 11 => 30,
        _ => 31,
    }
}

/// How many days the month of a year has.
#[must_use]
pub const fn days_in_month(year: i32, month: u8) -> u8 {
    days_of_month(is_leap_year(year), month)
}

/// Whether the month of a year has the day; a day up to the 28th is not looked up.
#[inline]
pub(crate) const fn has_month_day(year: i32, month: u8, month_day: u8) -> bool {
    if month_day <= 28 {
        return true;
    }
    month_day <= days_in_month(year, month)
}

/// The number of January 1st of the year, where 1970-01-01 has the number 0.
#[must_use]
pub const fn first_day_of_year(year: i32) -> i64 {
    days_before_moved_year(moved_year(year)) as i64 - ADDED_DAYS
}

/// The days before a moved year, from January 1st of the year -2147484000 on.
#[allow(clippy::manual_div_ceil)]
#[must_use]
pub const fn days_before_moved_year(years: u64) -> u64 {
    (1461 * years + 3) / 4 - 3 * centuries_before(years) / 4
}

/// How many days of a leap year, or of a year of 365 days, come before a month.
#[must_use]
pub const fn days_before_month(leap: bool, month: u8) -> u16 {
    let index = month as usize - 1;
    if leap {
        CUMUL_DAYS_IN_MONTHS_LEAP_YEAR[index] as u16
    } else {
        CUMUL_DAYS_IN_MONTHS_NORMAL_YEAR[index] as u16
    }
}

/// The days from March 1st to the first of a month.
#[inline]
const fn days_from_march(month: u8) -> u64 {
    let index = month as usize - 1;
    DAYS_FROM_MARCH[index] as u64
}

/// The year, moved as by `moved_year`, whose March 1st is the last one up to the month: the year
/// itself from March on, and the one before in January and February.
#[inline]
const fn moved_march_year(year: i32, month: u8) -> u64 {
    moved_year(year) - (month < 3) as u64
}

/// The days of a number of years, the first of which begins on March 1st of a year that 400
/// divides.
///
/// A multiplication and a shift stand for a division by 100.
#[inline]
const fn days_of_march_years(years: u64) -> u64 {
    let centuries = 1_374_389_535 * years / 137_438_953_472;
    1461 * years / 4 - centuries + centuries / 4
}

/// The number of the day, where 1970-01-01 has the number 0. A day past the end of its month counts
/// on.
#[inline]
#[must_use]
pub const fn days_since_unix_epoch(year: i32, month: u8, month_day: u8) -> i64 {
    let days_before = days_of_march_years(moved_march_year(year, month)) + days_from_march(month);
    (days_before + month_day as u64) as i64 - ADDED_MARCH_DAYS
}

/// The week day of a day by its number, from Sunday = 0.
#[must_use]
pub const fn week_day_of_day(day: i64) -> u8 {
    (day + 4).rem_euclid(7) as u8
}

/// The year, of those that begin on March 1st, in which a day lies, and the day's place in it, from
/// 0. The given day and the year are counted from March 1st of a year that 400 divides.
const fn march_year(day: u64) -> (u64, u64) {
    let quarters = 4 * day + 3;
    let century = quarters / 146_097;
    let quarters_of_century = 4 * (quarters % 146_097 / 4) + 3;
    let year = quarters_of_century / 1461;
    (100 * century + year, quarters_of_century % 1461 / 4)
}

/// The month of a day of a year that begins on March 1st, from 3 to 14, and the day of that month,
/// from 0.
const fn month_of_march_day(day: u32) -> (u8, u8) {
    let parts = 2141 * day + 197_913;
    ((parts / 65_536) as u8, (parts % 65_536 / 2141) as u8)
}

/// The year, the month and the day of the month of a day that is counted from January 1st of the
/// year -2147484000.
pub(crate) const fn date_of_day(day: u64) -> (i32, u8, u8) {
    // In that year, which is leap, March 1st comes 60 days after January 1st. In any year, the next
    // January 1st comes 306 days after March 1st.
    let (march_year, day_of_year) = march_year(day - 60);
    let (month, month_day) = month_of_march_day(day_of_year as u32);
    if day_of_year < 306 {
        (year_of_moved(march_year), month, month_day + 1)
    } else {
        (year_of_moved(march_year + 1), month - 12, month_day + 1)
    }
}
