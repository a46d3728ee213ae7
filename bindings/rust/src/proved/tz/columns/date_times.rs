// Generated from crates/tz/src/columns/date_times.rt by bindings/erase: its contracts are cut. Change that file instead.
//! What a zone's clock shows at the instants of a whole column, from an index on, up to the first
//! at which it shows no date time.
//!
//! The segment and the day of an instant are kept for the next one, which is mostly in both.

use super::{Unanswered, segment_around};
use crate::proved::tz::datetime::DateTime;
use crate::proved::tz_base::calendar::moved_seconds;
use crate::proved::tz_base::constants::{NANOSECONDS_PER_SECOND, SECONDS_PER_DAY};
use crate::proved::tz_base::error::{DateTimeError, TzError};
use crate::proved::tz_base::fields::{Fields, local_reading};
use crate::proved::tz_rule::timezone::LocalTimeType;
use crate::proved::tz_zone::inner::ZoneData;
use crate::proved::tz_zone::timezone::Segment;

/// What holds one date time.
pub trait DateTimeSlot {
    /// Writes the date time with valid fields, which the type shows at a Unix time.
    fn set(&mut self, fields: &Fields, local_time_type: &LocalTimeType, unix_time: i64);
}

impl DateTimeSlot for DateTime {
    fn set(&mut self, fields: &Fields, local_time_type: &LocalTimeType, unix_time: i64) {
        *self = DateTime::of_fields(fields, *local_time_type, unix_time);
    }
}

/// A day, by its date, and its first reading.
#[derive(Clone, Copy)]
struct Day {
    year: i32,
    month: u8,
    month_day: u8,
    start: i64,
}

/// The first day of 1970.
fn epoch_day() -> Day {
    Day {
        year: 1970,
        month: 1,
        month_day: 1,
        start: 0,
    }
}

/// The day of a reading, which shows these fields.
fn day_with(fields: &Fields, reading: i64) -> Day {
    // The fields are made of the same remainder, so it is there already.
    let second_of_day = moved_seconds(reading) % 86_400;
    Day {
        year: fields.year,
        month: fields.month,
        month_day: fields.month_day,
        start: reading - second_of_day as i64,
    }
}

/// The fields at a second of a day.
fn fields_in(day: &Day, second_of_day: u32, nanoseconds: u32) -> Fields {
    Fields {
        year: day.year,
        month: day.month,
        month_day: day.month_day,
        hour: (second_of_day / 3600) as u8,
        minute: (second_of_day % 3600 / 60) as u8,
        second: (second_of_day % 60) as u8,
        nanoseconds,
    }
}

/// The fields that a clock shows at a reading. The day is one that was kept, and then that of this
/// reading.
#[allow(clippy::manual_range_contains)]
#[inline(always)]
fn fields_at(day: &mut Day, reading: i64, nanoseconds: u32) -> Fields {
    let second_of_day = reading - day.start;
    if 0 <= second_of_day && second_of_day < SECONDS_PER_DAY {
        return fields_in(day, second_of_day as u32, nanoseconds);
    }
    let fields = Fields::from_reading(reading, nanoseconds);
    *day = day_with(&fields, reading);
    fields
}

/// The type of the zone's clock at an instant of a segment.
fn type_in<'a>(
    zone: &ZoneData<'a>,
    segment: &Segment<'a>,
    unix_time: i64,
) -> Result<&'a LocalTimeType, TzError> {
    match segment.local_time_type() {
        Some(local_time_type) => Ok(local_time_type),
        None => zone.find_local_time_type(unix_time),
    }
}

/// Writes what the zone's clock shows at an instant of a segment. The day is that of the instant
/// before, and then that of this one.
#[allow(clippy::question_mark)]
#[inline(always)]
fn write_date_time<S: DateTimeSlot>(
    unix_time: i64,
    nanoseconds: u32,
    zone: &ZoneData<'_>,
    segment: &Segment<'_>,
    day: &mut Day,
    slot: &mut S,
) -> Result<(), TzError> {
    if nanoseconds >= NANOSECONDS_PER_SECOND {
        return Err(TzError::DateTime(DateTimeError::InvalidNanoseconds));
    }
    let local_time_type = match type_in(zone, segment, unix_time) {
        Ok(local_time_type) => local_time_type,
        Err(error) => return Err(error),
    };
    let Some(reading) = local_reading(unix_time, local_time_type.ut_offset()) else {
        return Err(TzError::OutOfRange);
    };
    let fields = fields_at(day, reading, nanoseconds);
    slot.set(&fields, local_time_type, unix_time);
    Ok(())
}

/// Writes what the zone's clock shows at the instants from an index on, up to the first at which it
/// shows no date time. The other slots stay as they are.
pub fn write_date_times<S: DateTimeSlot>(
    unix_times: &[i64],
    nanoseconds: &[u32],
    first: usize,
    zone: &ZoneData<'_>,
    date_times: &mut [S],
) -> Result<(), Unanswered> {
    let mut segment = zone.segment_at(unix_times.get(first).copied().unwrap_or(0));
    let mut day = epoch_day();
    for i in first..unix_times.len() {
        segment = segment_around(zone, segment, unix_times[i]);
        if let Err(error) = write_date_time(
            unix_times[i],
            nanoseconds[i],
            zone,
            &segment,
            &mut day,
            &mut date_times[i],
        ) {
            return Err(Unanswered { index: i, error });
        }
    }
    Ok(())
}
