// Generated from crates/tz_c/src/date_times.rt by bindings/erase: its contracts are cut. Change that file instead.
//! Date times of a zone and of UTC, and their texts.

use crate::proved::tz_c::codes::{INVALID_NANOSECONDS, OK, OUT_OF_RANGE, code_of};
use crate::proved::tz_c::date_time_data::{DateTimeData, UtcData};
use crate::proved::tz_c::zone_data::TzZone;
use core::time::Duration;
use tz::proved::tz::inner::{Fields, local_reading};
use tz::proved::tz::{DateTime, DateTimePart, ParsedDateTime, UtcDateTime};
use tz::proved::tz_base::constants::NANOSECONDS_PER_SECOND;
use tz::proved::tz_rule::timezone::LocalTimeType;

/// The date time with the fields, which the type shows.
#[inline(always)]
pub fn tz_date_time_new(
    fields: &Fields,
    local_time_type: &LocalTimeType,
    out: &mut DateTimeData,
) -> u32 {
    match DateTime::new(
        fields.year,
        fields.month,
        fields.month_day,
        fields.hour,
        fields.minute,
        fields.second,
        fields.nanoseconds,
        *local_time_type,
    ) {
        Ok(date_time) => {
            *out = DateTimeData::of(&date_time);
            OK
        }
        Err(error) => code_of(&error),
    }
}

/// What the type shows at an instant.
#[inline(always)]
pub fn tz_date_time_from_timespec_and_local(
    unix_time: i64,
    nanoseconds: u32,
    local_time_type: &LocalTimeType,
    out: &mut DateTimeData,
) -> u32 {
    match DateTime::from_timespec_and_local(unix_time, nanoseconds, *local_time_type) {
        Ok(date_time) => {
            *out = DateTimeData::of(&date_time);
            OK
        }
        Err(error) => code_of(&error),
    }
}

/// What the zone's clock shows at an instant.
#[inline(always)]
pub fn tz_date_time_from_timespec(
    unix_time: i64,
    nanoseconds: u32,
    zone: &TzZone<'_>,
    out: &mut DateTimeData,
) -> u32 {
    if nanoseconds >= NANOSECONDS_PER_SECOND {
        return INVALID_NANOSECONDS;
    }
    let local_time_type = match zone.as_zone_data().find_local_time_type(unix_time) {
        Ok(local_time_type) => local_time_type,
        Err(error) => return code_of(&error),
    };
    let Some(reading) = local_reading(unix_time, local_time_type.ut_offset()) else {
        return OUT_OF_RANGE;
    };
    *out = DateTimeData {
        fields: Fields::from_reading(reading, nanoseconds),
        local_time_type: *local_time_type,
        unix_time,
    };
    OK
}

/// The date time of UTC at the same instant.
#[inline(always)]
pub fn tz_date_time_to_utc(date_time: &DateTime, out: &mut UtcData) -> u32 {
    match UtcDateTime::try_from(*date_time) {
        Ok(utc) => {
            *out = UtcData::of(&utc);
            OK
        }
        Err(error) => code_of(&error),
    }
}

/// The week day, from Sunday = 0 to 6.
#[inline(always)]
pub fn tz_date_time_week_day(date_time: &DateTime) -> u8 {
    date_time.week_day()
}

/// Days since January 1st, from 0 to 365.
#[inline(always)]
pub fn tz_date_time_year_day(date_time: &DateTime) -> u16 {
    date_time.year_day()
}

/// The date time of UTC with the fields.
#[inline(always)]
pub fn tz_utc_new(fields: &Fields, out: &mut UtcData) -> u32 {
    match UtcDateTime::new(
        fields.year,
        fields.month,
        fields.month_day,
        fields.hour,
        fields.minute,
        fields.second,
        fields.nanoseconds,
    ) {
        Ok(date_time) => {
            *out = UtcData::of(&date_time);
            OK
        }
        Err(error) => code_of(&error),
    }
}

/// The date time of UTC at an instant.
#[inline(always)]
pub fn tz_utc_from_timespec(unix_time: i64, nanoseconds: u32, out: &mut UtcData) -> u32 {
    match UtcDateTime::from_timespec(unix_time, nanoseconds) {
        Ok(date_time) => {
            *out = UtcData::of(&date_time);
            OK
        }
        Err(error) => code_of(&error),
    }
}

/// The date time of UTC a duration later.
#[inline(always)]
pub fn tz_utc_add(utc: &UtcDateTime, seconds: u64, nanoseconds: u32, out: &mut UtcData) -> u32 {
    if nanoseconds >= NANOSECONDS_PER_SECOND {
        return INVALID_NANOSECONDS;
    }
    match utc.checked_add(Duration::new(seconds, nanoseconds)) {
        Some(date_time) => {
            *out = UtcData::of(&date_time);
            OK
        }
        None => OUT_OF_RANGE,
    }
}

/// The date time of UTC a duration earlier.
#[inline(always)]
pub fn tz_utc_sub(utc: &UtcDateTime, seconds: u64, nanoseconds: u32, out: &mut UtcData) -> u32 {
    if nanoseconds >= NANOSECONDS_PER_SECOND {
        return INVALID_NANOSECONDS;
    }
    match utc.checked_sub(Duration::new(seconds, nanoseconds)) {
        Some(date_time) => {
            *out = UtcData::of(&date_time);
            OK
        }
        None => OUT_OF_RANGE,
    }
}

/// The week day, from Sunday = 0 to 6.
#[inline(always)]
pub fn tz_utc_week_day(utc: &UtcDateTime) -> u8 {
    utc.week_day()
}

/// Days since January 1st, from 0 to 365.
#[inline(always)]
pub fn tz_utc_year_day(utc: &UtcDateTime) -> u16 {
    utc.year_day()
}

/// What a text says: a local time, and an offset, which is zero if the text has none.
#[repr(C)]
#[derive(Clone, Copy)]
pub struct ParsedData {
    pub(crate) local: UtcData,
    pub(crate) ut_offset: i32,
    pub(crate) has_offset: bool,
}

impl ParsedData {
    /// The data of a local time, and of an offset if there is one.
    pub(crate) fn new(local: &UtcDateTime, ut_offset: Option<i32>) -> Self {
        let local = UtcData::of(local);
        match ut_offset {
            Some(ut_offset) => ParsedData {
                local,
                ut_offset,
                has_offset: true,
            },
            None => ParsedData {
                local,
                ut_offset: 0,
                has_offset: false,
            },
        }
    }

    /// The data of a text that was read.
    fn of(parsed: &ParsedDateTime) -> Self {
        ParsedData::new(&parsed.local(), parsed.ut_offset())
    }
}

/// The code of a part that a text does not have.
pub(crate) fn part_code(part: DateTimePart) -> u32 {
    match part {
        DateTimePart::Year => 128,
        DateTimePart::Hyphen => 129,
        DateTimePart::Month => 130,
        DateTimePart::MonthDay => 131,
        DateTimePart::Separator => 132,
        DateTimePart::Hour => 133,
        DateTimePart::Colon => 134,
        DateTimePart::Minute => 135,
        DateTimePart::Second => 136,
        DateTimePart::Fraction => 137,
        DateTimePart::Offset => 138,
        DateTimePart::OffsetHour => 139,
        DateTimePart::OffsetMinute => 140,
        DateTimePart::OffsetSecond => 141,
        DateTimePart::End => 142,
    }
}

/// The local time and the offset of a text, as `ParsedDateTime::parse` reads it.
#[inline(always)]
pub fn tz_date_time_read(text: &[u8], out: &mut ParsedData) -> u32 {
    match ParsedDateTime::parse(text) {
        Ok(parsed) => {
            *out = ParsedData::of(&parsed);
            OK
        }
        Err(error) => part_code(error.expected),
    }
}
