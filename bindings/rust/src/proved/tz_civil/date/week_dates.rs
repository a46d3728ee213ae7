// Generated from crates/tz_civil/src/date/week_dates.rt by bindings/erase: its contracts are cut. Change that file instead.
//! Week dates of ISO 8601, both ways.

use super::Date;
use super::week_days::days_until;
use crate::proved::tz_base::calendar::{first_day_of_year, is_leap_year, week_day_of_day};

/// A week date, as 2025-W01-3: the year in which the week's Thursday lies, the week and the week
/// day. (ISO 8601)
///
/// Any numbers can stand in it: [`Date::from_week_date`] returns `None` if there is no such date.
#[repr(C)]
#[derive(Clone, Copy, Debug, PartialEq, Eq, PartialOrd, Ord, Hash)]
pub struct WeekDate {
    /// The year to which the week belongs.
    pub year: i32,
    /// The number of the week, from 1 to 52 or 53.
    pub week: u8,
    /// The week day, from Monday = 1 to Sunday = 7.
    pub week_day: u8,
}

/// The week day in whose year a week lies.
const THURSDAY: u8 = 4;

/// The week day from Monday = 1.
const fn week_day_from_monday(day: i64) -> u8 {
    let week_day = week_day_of_day(day);
    if week_day == 0 { 7 } else { week_day }
}

/// How many days a year has.
const fn days_of_year(year: i32) -> u16 {
    if is_leap_year(year) { 366 } else { 365 }
}

/// The number of the week whose Thursday is the day `thursday`, in a year whose January 1st is the
/// day `first`.
const fn week_of(first: i64, thursday: i64) -> u8 {
    ((thursday - first) as u64 / 7 + 1) as u8
}

/// The week date of a day of a year, by its number, or `None` if the week's year does not fit an
/// `i32`.
const fn week_date_of_day(this_year: i32, day: i64) -> Option<WeekDate> {
    let week_day = week_day_from_monday(day);
    let thursday = day + 4 - week_day as i64;
    let first = first_day_of_year(this_year);
    if thursday < first {
        let Some(year) = this_year.checked_sub(1) else {
            return None;
        };
        let week = week_of(first_day_of_year(year), thursday);
        return Some(WeekDate {
            year,
            week,
            week_day,
        });
    }
    let next = first + days_of_year(this_year) as i64;
    if thursday < next {
        let week = week_of(first, thursday);
        return Some(WeekDate {
            year: this_year,
            week,
            week_day,
        });
    }
    let Some(year) = this_year.checked_add(1) else {
        return None;
    };
    // A day of the year is at most three days before the Thursday.
    Some(WeekDate {
        year,
        week: 1,
        week_day,
    })
}

/// The number of the day with a week date, where 1970-01-01 has the number 0, if there is one.
const fn day_of_week_date(date: WeekDate) -> Option<i64> {
    if date.week < 1 || date.week > 53 || date.week_day < 1 || date.week_day > 7 {
        return None;
    }
    let first = first_day_of_year(date.year);
    let days = days_until(THURSDAY, first) as u16 + 7 * (date.week as u16 - 1);
    // The years without a week 53 are those in which its Thursday is past the end.
    if date.week == 53 && days >= days_of_year(date.year) {
        return None;
    }
    Some(first + days as i64 + date.week_day as i64 - 4)
}

impl Date {
    /// The week date, or `None` if its year does not fit an `i32`.
    #[must_use]
    pub const fn week_date(self) -> Option<WeekDate> {
        week_date_of_day(self.year, self.day_number())
    }

    /// The date with a week date, or `None` if there is none: the week's year has no such week, the
    /// week day is not in 1 to 7, or the date is outside the years of 32 bits.
    #[must_use]
    pub const fn from_week_date(week_date: WeekDate) -> Option<Self> {
        let Some(day) = day_of_week_date(week_date) else {
            return None;
        };
        Date::from_day_number(day)
    }
}
