// Generated from crates/tz/src/datetime/date_time.rt by bindings/erase: its contracts are cut. Change that file instead.
//! Date times of a local time type.

use super::utc_date_time::duration_between;
use crate::proved::tz_base::constants::NANOSECONDS_PER_SECOND;
use crate::proved::tz_base::error::{DateTimeError, TzError};
use crate::proved::tz_base::fields::{
    Fields, is_reading, local_reading, timespec, total_nanoseconds,
};
use crate::proved::tz_base::text_buffer::TextBuffer;
use crate::proved::tz_rule::timezone::LocalTimeType;
use crate::proved::tz_zone::inner::ZoneData;
use crate::proved::tz_zone::timezone::TimeZoneRef;
use core::cmp::Ordering;
use core::fmt;
use core::hash::{Hash, Hasher};
use core::time::Duration;

/// A date time with the local time type that shows it, and its Unix time.
///
/// Date times are compared by Unix time and then by nanoseconds, whatever their local time types.
#[repr(C)]
#[derive(Clone, Copy)]
pub struct DateTime {
    fields: Fields,
    local_time_type: LocalTimeType,
    unix_time: i64,
}

impl PartialEq for DateTime {
    fn eq(&self, other: &DateTime) -> bool {
        self.unix_time == other.unix_time && self.fields.nanoseconds == other.fields.nanoseconds
    }
}

impl Eq for DateTime {}

impl Hash for DateTime {
    fn hash<H: Hasher>(&self, state: &mut H) {
        self.unix_time.hash(state);
        self.fields.nanoseconds.hash(state);
    }
}

impl PartialOrd for DateTime {
    fn partial_cmp(&self, other: &DateTime) -> Option<Ordering> {
        Some(self.cmp(other))
    }
}

impl Ord for DateTime {
    fn cmp(&self, other: &DateTime) -> Ordering {
        self.unix_time
            .cmp(&other.unix_time)
            .then(self.fields.nanoseconds.cmp(&other.fields.nanoseconds))
    }
}

impl DateTime {
    /// The date time with these fields, which the type shows: the month from 1 to 12, the day of
    /// the month from 1, the hour from 0 to 23, the minute from 0 to 59, the second from 0 to 60
    /// and the nanoseconds below 10^9.
    ///
    /// The date time that clocks nine hours ahead of UTC show on 2024-05-01 at 8:30:
    ///
    /// ```
    /// # use std::time::Duration;
    /// # use tz::{datetime::*, error::*, timezone::*, *};
    /// pub fn morning_in_tokyo() -> Result<DateTime, TzError> {
    ///     let tokyo = LocalTimeType::with_ut_offset(32_400)?;
    ///     DateTime::new(2024, 5, 1, 8, 30, 0, 0, tokyo)
    /// }
    /// ```
    ///
    /// # Errors
    ///
    /// - [`TzError::DateTime`] with the first field that is out of range, in the order of the
    ///   arguments, or else with `InvalidMonthDay` if the month does not have the day;
    /// - [`TzError::OutOfRange`] if the year in UTC does not fit an `i32`.
    #[allow(clippy::too_many_arguments)]
    pub const fn new(
        year: i32,
        month: u8,
        month_day: u8,
        hour: u8,
        minute: u8,
        second: u8,
        nanoseconds: u32,
        local_time_type: LocalTimeType,
    ) -> Result<Self, TzError> {
        let fields = Fields::new(year, month, month_day, hour, minute, second, nanoseconds);
        if let Err(error) = fields.check() {
            return Err(TzError::DateTime(error));
        }
        let unix_time = fields.reading() - local_time_type.ut_offset() as i64;
        if !is_reading(unix_time) {
            return Err(TzError::OutOfRange);
        }
        Ok(DateTime::of_fields(&fields, local_time_type, unix_time))
    }

    /// The date time with valid fields, which the type shows at a Unix time.
    pub(crate) const fn of_fields(
        fields: &Fields,
        local_time_type: LocalTimeType,
        unix_time: i64,
    ) -> Self {
        DateTime {
            fields: *fields,
            local_time_type,
            unix_time,
        }
    }

    /// The date time that the type shows at a Unix time, with nanoseconds below 10^9.
    ///
    /// # Errors
    ///
    /// - [`TzError::DateTime`] with [`DateTimeError::InvalidNanoseconds`] if there are 10^9
    ///   nanoseconds or more;
    /// - [`TzError::OutOfRange`] if the year that the type shows does not fit an `i32`.
    pub const fn from_timespec_and_local(
        unix_time: i64,
        nanoseconds: u32,
        local_time_type: LocalTimeType,
    ) -> Result<Self, TzError> {
        if nanoseconds >= NANOSECONDS_PER_SECOND {
            return Err(TzError::DateTime(DateTimeError::InvalidNanoseconds));
        }
        DateTime::shown_by(unix_time, nanoseconds, local_time_type)
    }

    /// The date time that the type shows at a Unix time.
    #[inline(always)]
    pub(super) const fn shown_by(
        unix_time: i64,
        nanoseconds: u32,
        local_time_type: LocalTimeType,
    ) -> Result<Self, TzError> {
        let Some(reading) = local_reading(unix_time, local_time_type.ut_offset()) else {
            return Err(TzError::OutOfRange);
        };
        Ok(DateTime {
            fields: Fields::from_reading(reading, nanoseconds),
            local_time_type,
            unix_time,
        })
    }

    /// The date time that the zone's clock shows at a Unix time.
    #[inline(always)]
    pub(super) const fn shown_by_clock(
        unix_time: i64,
        nanoseconds: u32,
        zone: &ZoneData<'_>,
    ) -> Result<Self, TzError> {
        if nanoseconds < NANOSECONDS_PER_SECOND {
            if let Ok(local_time_type) = zone.find_local_time_type(unix_time) {
                if let Ok(date_time) = DateTime::shown_by(unix_time, nanoseconds, *local_time_type)
                {
                    return Ok(date_time);
                }
            }
        }
        Err(clock_fault(unix_time, nanoseconds, *zone))
    }

    /// The date time that the zone's clock shows at a Unix time, with nanoseconds below 10^9.
    ///
    /// What clocks of a zone show at a Unix time, and the name of their time:
    ///
    /// ```
    /// # use std::time::Duration;
    /// # use tz::{datetime::*, error::*, timezone::*, *};
    /// pub fn print_instant(
    ///     zone: TimeZoneRef<'_>,
    ///     unix_time: i64,
    /// ) -> Result<String, TzError> {
    ///     let date_time = DateTime::from_timespec(unix_time, 0, zone)?;
    ///     let name = date_time.local_time_type().time_zone_designation();
    ///     Ok(format!("{date_time} {name}"))
    /// }
    /// ```
    ///
    /// # Errors
    ///
    /// - [`TzError::DateTime`] with [`DateTimeError::InvalidNanoseconds`] if there are 10^9
    ///   nanoseconds or more;
    /// - [`TzError::NoAvailableLocalTimeType`] or [`TzError::OutOfRange`] of
    ///   [`TimeZoneRef::find_local_time_type`] if the clock has no type at the instant;
    /// - [`TzError::OutOfRange`] if the year that the clock shows does not fit an `i32`.
    #[inline(always)]
    pub const fn from_timespec(
        unix_time: i64,
        nanoseconds: u32,
        time_zone_ref: TimeZoneRef<'_>,
    ) -> Result<Self, TzError> {
        DateTime::shown_by_clock(unix_time, nanoseconds, &ZoneData::of(&time_zone_ref))
    }

    /// The date time that the type shows a number of nanoseconds after 1970-01-01T00:00:00Z, or
    /// before it if the number is negative.
    ///
    /// # Errors
    ///
    /// [`TzError::OutOfRange`] if the year that the type shows does not fit an `i32`.
    pub const fn from_total_nanoseconds_and_local(
        total_nanoseconds: i128,
        local_time_type: LocalTimeType,
    ) -> Result<Self, TzError> {
        let total = timespec(total_nanoseconds);
        let Some((unix_time, nanoseconds)) = total else {
            return Err(TzError::OutOfRange);
        };
        DateTime::shown_by(unix_time, nanoseconds, local_time_type)
    }

    /// The date time that the zone's clock shows a number of nanoseconds after
    /// 1970-01-01T00:00:00Z, or before it if the number is negative.
    ///
    /// # Errors
    ///
    /// - [`TzError::OutOfRange`] if the seconds do not fit an `i64`;
    /// - those of [`DateTime::from_timespec`] at an instant with valid nanoseconds.
    pub const fn from_total_nanoseconds(
        total_nanoseconds: i128,
        time_zone_ref: TimeZoneRef<'_>,
    ) -> Result<Self, TzError> {
        let Some((unix_time, nanoseconds)) = timespec(total_nanoseconds) else {
            return Err(TzError::OutOfRange);
        };
        DateTime::from_timespec(unix_time, nanoseconds, time_zone_ref)
    }

    /// What the zone's clock shows at this instant.
    ///
    /// # Errors
    ///
    /// Those of [`DateTime::from_timespec`] at an instant with valid nanoseconds.
    pub const fn project(&self, time_zone_ref: TimeZoneRef<'_>) -> Result<Self, TzError> {
        DateTime::from_timespec(self.unix_time, self.fields.nanoseconds, time_zone_ref)
    }

    /// The year.
    #[must_use]
    pub const fn year(&self) -> i32 {
        self.fields.year
    }

    /// The month, from 1 to 12.
    #[must_use]
    pub const fn month(&self) -> u8 {
        self.fields.month
    }

    /// The day of the month, from 1 to 31.
    #[must_use]
    pub const fn month_day(&self) -> u8 {
        self.fields.month_day
    }

    /// Hours since midnight, from 0 to 23.
    #[must_use]
    pub const fn hour(&self) -> u8 {
        self.fields.hour
    }

    /// Minutes since the hour, from 0 to 59.
    #[must_use]
    pub const fn minute(&self) -> u8 {
        self.fields.minute
    }

    /// Seconds since the minute, from 0 to 60.
    #[must_use]
    pub const fn second(&self) -> u8 {
        self.fields.second
    }

    /// Nanoseconds since the second, below 1000000000.
    #[must_use]
    pub const fn nanoseconds(&self) -> u32 {
        self.fields.nanoseconds
    }

    /// The week day, from Sunday = 0 to 6.
    #[must_use]
    pub const fn week_day(&self) -> u8 {
        self.fields.week_day()
    }

    /// Days since January 1st, from 0 to 365.
    #[must_use]
    pub const fn year_day(&self) -> u16 {
        self.fields.year_day()
    }

    /// The local time type that shows these fields.
    #[must_use]
    pub const fn local_time_type(&self) -> &LocalTimeType {
        &self.local_time_type
    }

    /// Seconds from 1970-01-01T00:00:00Z on.
    #[must_use]
    pub const fn unix_time(&self) -> i64 {
        self.unix_time
    }

    /// Nanoseconds from 1970-01-01T00:00:00Z on.
    #[must_use]
    pub const fn total_nanoseconds(&self) -> i128 {
        total_nanoseconds(self.unix_time, self.fields.nanoseconds)
    }

    /// The duration from an earlier date time to this one.
    ///
    /// # Errors
    ///
    /// The duration from this date time to the other one, if that one is later.
    pub const fn duration_since(&self, earlier: Self) -> Result<Duration, Duration> {
        duration_between(earlier.total_nanoseconds(), self.total_nanoseconds())
    }

    /// The fields, which are valid and shown.
    pub(crate) const fn fields(&self) -> &Fields {
        &self.fields
    }
}

/// Why the zone's clock shows no date time at a Unix time. It looks the type up again, so that a
/// lookup that succeeds passes on no error, and takes the zone by value, so that this stays in
/// registers.
#[cold]
const fn clock_fault(unix_time: i64, nanoseconds: u32, zone: ZoneData<'_>) -> TzError {
    if nanoseconds >= NANOSECONDS_PER_SECOND {
        return TzError::DateTime(DateTimeError::InvalidNanoseconds);
    }
    match zone.find_local_time_type(unix_time) {
        Ok(_) => TzError::OutOfRange,
        Err(error) => error,
    }
}

/// Prints the name of the type and its parts, the fields as if they stood in the type itself.
impl fmt::Debug for DateTime {
    fn fmt(&self, f: &mut fmt::Formatter<'_>) -> fmt::Result {
        f.debug_struct("DateTime")
            .field("year", &self.fields.year)
            .field("month", &self.fields.month)
            .field("month_day", &self.fields.month_day)
            .field("hour", &self.fields.hour)
            .field("minute", &self.fields.minute)
            .field("second", &self.fields.second)
            .field("local_time_type", &self.local_time_type)
            .field("unix_time", &self.unix_time)
            .field("nanoseconds", &self.fields.nanoseconds)
            .finish()
    }
}

/// Prints `year-MM-DDThh:mm:ss.nnnnnnnnn` and `Z` or the offset, as `+hh:mm`, with `:ss` where it
/// has seconds. The format's width plays no part. (ISO 8601-1, 5.4.2)
impl fmt::Display for DateTime {
    fn fmt(&self, f: &mut fmt::Formatter<'_>) -> fmt::Result {
        let mut line = TextBuffer::new();
        line.push_date_time(&self.fields, self.local_time_type.ut_offset());
        f.write_str(line.as_str())
    }
}

/// The fields of a date time, which are valid.
#[must_use]
pub const fn fields_of(date_time: &DateTime) -> &Fields {
    date_time.fields()
}
