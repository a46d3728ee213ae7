// Generated from crates/tz_format/src/weeks.rt by bindings/erase: its contracts are cut. Change that file instead.
//! Numbers of weeks: those of ISO 8601, and those of a year from its first Sunday or Monday on.

use crate::proved::tz_base::calendar::{is_leap_year, is_moved_year_leap, moved_year};
use crate::proved::tz_base::fields::Fields;

/// Days since Monday.
pub(crate) fn days_since_monday(fields: &Fields) -> u8 {
    (fields.week_day() + 6) % 7
}

/// How many days the year has.
fn days_of_year(year: i32) -> u16 {
    if is_leap_year(year) { 366 } else { 365 }
}

/// How many days the year before has.
fn days_of_year_before(year: i32) -> u16 {
    if is_moved_year_leap(moved_year(year) - 1) {
        366
    } else {
        365
    }
}

/// The week of the year, from 0 to 53, if weeks begin on the week day that was `since_first` days
/// before the date. The days before the year's first such day are in week 0.
pub(crate) fn week_of_year(year_day: u16, since_first: u8) -> u8 {
    ((year_day + 7 - u16::from(since_first)) / 7) as u8
}

/// The year of the date's week, and the number of the week in it.
pub(crate) fn week_of(fields: &Fields) -> (i64, u8) {
    let year = i64::from(fields.year);
    let days = fields.year_day() + 3;
    let since_monday = u16::from(days_since_monday(fields));
    if days < since_monday {
        let thursday = days_of_year_before(fields.year) + days - since_monday;
        return (year - 1, (thursday / 7 + 1) as u8);
    }
    let thursday = days - since_monday;
    let days_of_year = days_of_year(fields.year);
    if thursday < days_of_year {
        (year, (thursday / 7 + 1) as u8)
    } else {
        (year + 1, ((thursday - days_of_year) / 7 + 1) as u8)
    }
}
