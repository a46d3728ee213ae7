// Generated from crates/tz_civil/src/day_starts.rt by bindings/erase: its contracts are cut. Change that file instead.
//! When a date begins in a time zone.

use crate::proved::tz::DateTime;
use crate::proved::tz::inner::{WindowTypes, ZoneData, types_of_window};
use crate::proved::tz_base::constants::SECONDS_PER_DAY;
use crate::proved::tz_base::error::TzError;
use crate::proved::tz_base::order::lesser_i64;
use crate::proved::tz_civil::Date;
use crate::proved::tz_zone::timezone::{LocalTimeType, TimeZoneRef};

/// An instant, and the type that a clock has there.
#[derive(Clone, Copy)]
pub struct Shown<'a> {
    pub unix_time: i64,
    pub local_time_type: &'a LocalTimeType,
}

/// The instant at which a clock with an offset shows a reading.
const fn instant_of(reading: i64, offset: i32) -> i64 {
    reading - offset as i64
}

/// The first and the last instant at which a clock with offsets from the least to the greatest one
/// can show a day, whose first reading is given.
const fn window(first_reading: i64, least: i32, greatest: i32) -> (i64, i64) {
    let last_reading = first_reading + SECONDS_PER_DAY - 1;
    (
        instant_of(first_reading, greatest),
        instant_of(last_reading, least),
    )
}

/// The first instant from `at` to `last` at which a clock with an offset shows the day whose first
/// reading is given.
const fn first_shown(offset: i32, at: i64, last: i64, first_reading: i64) -> Option<i64> {
    let begins = first_reading - offset as i64;
    if begins > last {
        return None;
    }
    if begins >= at {
        return Some(begins);
    }
    if at < begins + SECONDS_PER_DAY {
        return Some(at);
    }
    None
}

/// The start of a day, whose first reading is given, if the clock changes its type once from `low`
/// to `high`.
const fn first_around<'a>(
    first_reading: i64,
    low: i64,
    unix_time: i64,
    high: i64,
    before: &'a LocalTimeType,
    after: &'a LocalTimeType,
) -> Option<Shown<'a>> {
    let offset = before.ut_offset();
    if let Some(unix_time) = first_shown(offset, low, unix_time - 1, first_reading) {
        return Some(Shown {
            unix_time,
            local_time_type: before,
        });
    }
    let offset = after.ut_offset();
    if let Some(unix_time) = first_shown(offset, unix_time, high, first_reading) {
        return Some(Shown {
            unix_time,
            local_time_type: after,
        });
    }
    None
}

/// The start of a day by the segments of the clock in the day's window.
#[cold]
const fn first_by_segments<'a>(
    zone: &ZoneData<'a>,
    day: i64,
    low: i64,
    high: i64,
) -> Result<Option<Shown<'a>>, TzError> {
    let mut has_type = false;
    let mut at = low;
    while at <= high {
        let segment = zone.segment_at(at);
        let last = lesser_i64(segment.last(), high);
        if let Some(local_time_type) = segment.local_time_type() {
            let offset = local_time_type.ut_offset();
            if let Some(unix_time) = first_shown(offset, at, last, SECONDS_PER_DAY * day) {
                return Ok(Some(Shown {
                    unix_time,
                    local_time_type,
                }));
            }
            has_type = true;
        }
        at = last + 1;
    }
    if has_type {
        return Ok(None);
    }
    match zone.find_local_time_type(low) {
        Ok(_) => Ok(None),
        Err(error) => Err(error),
    }
}

/// The start of a day, by its number, with the type that the clock has there.
pub const fn first_of_day<'a>(zone: &ZoneData<'a>, day: i64) -> Result<Option<Shown<'a>>, TzError> {
    let (least, greatest) = zone.offsets();
    let first_reading = SECONDS_PER_DAY * day;
    let (low, high) = window(first_reading, least, greatest);
    match types_of_window(zone, low, high) {
        WindowTypes::One(local_time_type) => Ok(Some(Shown {
            unix_time: instant_of(first_reading, local_time_type.ut_offset()),
            local_time_type,
        })),
        WindowTypes::Two {
            unix_time,
            before,
            after,
        } => Ok(first_around(
            first_reading,
            low,
            unix_time,
            high,
            before,
            after,
        )),
        WindowTypes::More(_) => first_by_segments(zone, day, low, high),
    }
}

pub const fn start_of_day(zone: &TimeZoneRef<'_>, date: Date) -> Result<Option<DateTime>, TzError> {
    let found = match first_of_day(&ZoneData::of(zone), date.day_number()) {
        Ok(value) => value,
        Err(error) => return Err(error),
    };
    let Some(shown) = found else {
        return Ok(None);
    };
    match DateTime::from_timespec_and_local(shown.unix_time, 0, *shown.local_time_type) {
        Ok(start) => Ok(Some(start)),
        Err(error) => Err(error),
    }
}

impl TimeZoneRef<'_> {
    /// The first date time of a date in a zone: what its clock shows at the least instant at which it
    /// shows the date. `None` if the clock skips the date whole, as when an island crosses the date
    /// line. This call does not allocate.
    ///
    /// That is mostly midnight, but the clock may skip midnight, show it twice, or be set forward over
    /// it and back again.
    ///
    /// # Errors
    ///
    /// [`TzError::NoAvailableLocalTimeType`] or [`TzError::OutOfRange`] if the clock has no type at any
    /// instant at which it could show the date, by the zone's offsets: that of
    /// [`TimeZoneRef::find_local_time_type`] at the first of these instants.
    pub const fn start_of_day(&self, date: Date) -> Result<Option<DateTime>, TzError> {
        start_of_day(self, date)
    }
}
