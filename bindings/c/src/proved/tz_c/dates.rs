// Generated from crates/tz_c/src/dates.rt by bindings/erase: its contracts are cut. Change that file instead.
//! Dates: when they begin in a zone, months later, and week dates.

use crate::proved::tz_c::codes::{NO_DATE_TIME, OK, OUT_OF_RANGE, code_of};
use crate::proved::tz_c::zone_data::TzZone;
use tz::proved::tz_base::error::TzError;
use tz::proved::tz_civil::inner::{first_of_day, parts_of};
use tz::proved::tz_civil::{Date, WeekDate};

/// A date as C passes it: calls check it.
#[repr(C)]
#[derive(Clone, Copy)]
pub struct DateData {
    year: i32,
    month: u8,
    month_day: u8,
}

/// The year, month and day of a date, laid out for C.
fn written(date: Date) -> DateData {
    let (year, month, month_day) = parts_of(date);
    DateData {
        year,
        month,
        month_day,
    }
}

/// The date with these parts, as `Date::new` makes it.
fn checked(date: &DateData) -> Result<Date, TzError> {
    Date::new(date.year, date.month, date.month_day)
}

/// The least instant at which the zone's clock shows a date, at which `TimeZoneRef::start_of_day`
/// returns its date time.
#[inline(always)]
pub fn tz_zone_start_of_day(zone: &TzZone<'_>, date: &DateData, unix_time: &mut i64) -> u32 {
    let date = match checked(date) {
        Ok(date) => date,
        Err(error) => return code_of(&error),
    };
    match first_of_day(&zone.as_zone_data(), date.day_number()) {
        Ok(Some(start)) => {
            *unix_time = start.unix_time;
            OK
        }
        Ok(None) => NO_DATE_TIME,
        Err(error) => code_of(&error),
    }
}

/// The date this many months later, or earlier if they are negative, as `Date::checked_add_months`
/// finds it.
#[inline(always)]
pub fn tz_date_add_months(date: &DateData, months: i32, out: &mut DateData) -> u32 {
    let date = match checked(date) {
        Ok(date) => date,
        Err(error) => return code_of(&error),
    };
    match date.checked_add_months(months) {
        Some(later) => {
            *out = written(later);
            OK
        }
        None => OUT_OF_RANGE,
    }
}

/// The week date of a date, as `Date::week_date` finds it.
#[inline(always)]
pub fn tz_date_week_date(date: &DateData, out: &mut WeekDate) -> u32 {
    let date = match checked(date) {
        Ok(date) => date,
        Err(error) => return code_of(&error),
    };
    match date.week_date() {
        Some(week_date) => {
            *out = week_date;
            OK
        }
        None => OUT_OF_RANGE,
    }
}

/// The date with a week date, as `Date::from_week_date` finds it.
#[inline(always)]
pub fn tz_date_from_week_date(week_date: &WeekDate, out: &mut DateData) -> u32 {
    match Date::from_week_date(*week_date) {
        Some(date) => {
            *out = written(date);
            OK
        }
        None => OUT_OF_RANGE,
    }
}
