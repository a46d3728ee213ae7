// Generated from crates/tz/src/datetime/utc_date_time.rt by bindings/erase: its contracts are cut. Change that file instead.
//! Date times of UTC; date times moved by durations, and durations between totals.

use super::DateTime;
use crate::proved::tz_base::constants::NANOSECONDS_PER_SECOND;
use crate::proved::tz_base::error::{DateTimeError, TzError};
use crate::proved::tz_base::fields::{Fields, is_reading, timespec, total_nanoseconds};
use crate::proved::tz_base::text_buffer::TextBuffer;
use crate::proved::tz_zone::timezone::TimeZoneRef;
use core::fmt;
use core::ops::{Add, AddAssign, Sub, SubAssign};
use core::time::Duration;

/// A date time of UTC, in a year of 32 bits. (ISO 8601)
///
/// Date times are compared field by field, so second 60 comes before the next minute's second 0,
/// although both have the same Unix time.
#[repr(C)]
#[derive(Clone, Copy, PartialEq, Eq, PartialOrd, Ord, Hash)]
pub struct UtcDateTime {
    fields: Fields,
    // The reading of the fields: sums and conversions need not work it out again.
    unix_time: i64,
}

/// Whether the fields are second 60 of the last minute, which reads as a second past the years of
/// 32 bits.
pub(crate) const fn is_past_the_end(fields: &Fields) -> bool {
    fields.year == i32::MAX
        && fields.month == 12
        && fields.month_day == 31
        && fields.hour == 23
        && fields.minute == 59
        && fields.second == 60
}

/// Why fields make no date time. It is cold, so that the usual path has one exit.
#[cold]
const fn fields_fault(fields: &Fields) -> TzError {
    if is_past_the_end(fields) {
        return TzError::OutOfRange;
    }
    match fields.check() {
        Err(error) => TzError::DateTime(error),
        Ok(()) => TzError::OutOfRange,
    }
}

impl UtcDateTime {
    /// 1970-01-01T00:00:00Z, from which Unix time counts.
    pub const UNIX_EPOCH: Self = UtcDateTime {
        fields: Fields {
            year: 1970,
            month: 1,
            month_day: 1,
            hour: 0,
            minute: 0,
            second: 0,
            nanoseconds: 0,
        },
        unix_time: 0,
    };

    /// The first date time.
    pub const MIN: Self = UtcDateTime {
        fields: Fields {
            year: i32::MIN,
            month: 1,
            month_day: 1,
            hour: 0,
            minute: 0,
            second: 0,
            nanoseconds: 0,
        },
        unix_time: -67_768_100_567_971_200,
    };

    /// The last date time.
    pub const MAX: Self = UtcDateTime {
        fields: Fields {
            year: i32::MAX,
            month: 12,
            month_day: 31,
            hour: 23,
            minute: 59,
            second: 59,
            nanoseconds: 999_999_999,
        },
        unix_time: 67_767_976_233_532_799,
    };

    /// The date time with these fields: the month from 1 to 12, the day of the month from 1, the
    /// hour from 0 to 23, the minute from 0 to 59, the second from 0 to 60 and the nanoseconds
    /// below a second.
    ///
    /// The Moon landing, in UTC:
    ///
    /// ```
    /// # use std::time::Duration;
    /// # use tz::{datetime::*, error::*, timezone::*, *};
    /// pub fn moon_landing() -> Result<UtcDateTime, TzError> {
    ///     UtcDateTime::new(1969, 7, 20, 20, 17, 40, 0)
    /// }
    /// ```
    ///
    /// # Errors
    ///
    /// - [`TzError::OutOfRange`] for second 60 of the last minute of the year `i32::MAX`, whatever
    ///   the nanoseconds;
    /// - [`TzError::DateTime`] with the first field that is out of range, in the order of the
    ///   arguments, or else with `InvalidMonthDay` if the month does not have the day.
    #[inline]
    pub const fn new(
        year: i32,
        month: u8,
        month_day: u8,
        hour: u8,
        minute: u8,
        second: u8,
        nanoseconds: u32,
    ) -> Result<Self, TzError> {
        let fields = Fields::new(year, month, month_day, hour, minute, second, nanoseconds);
        match fields.check() {
            Ok(()) if !is_past_the_end(&fields) => Ok(UtcDateTime::of_fields(fields)),
            _ => Err(fields_fault(&fields)),
        }
    }

    /// The date time with fields that are known to have one.
    #[inline]
    pub(crate) const fn of_fields(fields: Fields) -> Self {
        UtcDateTime {
            fields,
            unix_time: fields.reading(),
        }
    }

    /// The date time of a Unix time and nanoseconds that are known to have one.
    #[inline]
    const fn at(unix_time: i64, nanoseconds: u32) -> Self {
        UtcDateTime {
            fields: Fields::from_reading(unix_time, nanoseconds),
            unix_time,
        }
    }

    /// The date time of a Unix time and nanoseconds below a second.
    ///
    /// # Errors
    ///
    /// - [`TzError::DateTime`] with [`DateTimeError::InvalidNanoseconds`] if there are 10^9
    ///   nanoseconds or more;
    /// - [`TzError::OutOfRange`] if the year does not fit an `i32`.
    #[inline]
    pub const fn from_timespec(unix_time: i64, nanoseconds: u32) -> Result<Self, TzError> {
        if nanoseconds >= NANOSECONDS_PER_SECOND {
            return Err(TzError::DateTime(DateTimeError::InvalidNanoseconds));
        }
        if !is_reading(unix_time) {
            return Err(TzError::OutOfRange);
        }
        Ok(UtcDateTime::at(unix_time, nanoseconds))
    }

    /// The date time a number of nanoseconds after [`UtcDateTime::UNIX_EPOCH`], or before it if the
    /// number is negative.
    ///
    /// # Errors
    ///
    /// [`TzError::OutOfRange`] if its year does not fit an `i32`.
    pub const fn from_total_nanoseconds(total_nanoseconds: i128) -> Result<Self, TzError> {
        let Some((unix_time, nanoseconds)) = utc_timespec(total_nanoseconds) else {
            return Err(TzError::OutOfRange);
        };
        Ok(UtcDateTime::at(unix_time, nanoseconds))
    }

    /// The fields.
    pub(crate) const fn fields(&self) -> &Fields {
        &self.fields
    }

    /// Seconds from [`UtcDateTime::UNIX_EPOCH`] on. Second 60 counts as the next minute's second 0.
    #[must_use]
    pub const fn unix_time(&self) -> i64 {
        self.unix_time
    }

    /// The year.
    #[must_use]
    pub const fn year(&self) -> i32 {
        self.fields.year
    }

    /// The month, from 1 to 12.
    #[must_use]
    pub const fn month(&self) -> u8 {
        self.fields.month
    }

    /// The day of the month, from 1 to 31.
    #[must_use]
    pub const fn month_day(&self) -> u8 {
        self.fields.month_day
    }

    /// Hours since midnight, from 0 to 23.
    #[must_use]
    pub const fn hour(&self) -> u8 {
        self.fields.hour
    }

    /// Minutes since the hour, from 0 to 59.
    #[must_use]
    pub const fn minute(&self) -> u8 {
        self.fields.minute
    }

    /// Seconds since the minute, from 0 to 60.
    #[must_use]
    pub const fn second(&self) -> u8 {
        self.fields.second
    }

    /// Nanoseconds since the second, below 1000000000.
    #[must_use]
    pub const fn nanoseconds(&self) -> u32 {
        self.fields.nanoseconds
    }

    /// The week day, from Sunday = 0 to 6.
    ///
    /// The next Monday at 9:00 in a zone:
    ///
    /// ```
    /// # use std::time::Duration;
    /// # use tz::{datetime::*, error::*, timezone::*, *};
    /// pub fn next_monday_at_nine(
    ///     zone: TimeZoneRef<'_>,
    ///     now: i64,
    /// ) -> Result<Option<DateTime>, TzError> {
    ///     let today = DateTime::from_timespec(now, 0, zone)?;
    ///     let nine =
    ///         UtcDateTime::new(today.year(), today.month(), today.month_day(), 9, 0, 0, 0)?;
    ///     for days in 0..8u64 {
    ///         let local = nine
    ///             .checked_add(Duration::from_secs(86_400 * days))
    ///             .ok_or(TzError::OutOfRange)?;
    ///         if local.week_day() == 1 {
    ///             match DateTime::from_local(local, Disambiguation::Compatible, zone)? {
    ///                 Some(monday) if now < monday.unix_time() => return Ok(Some(monday)),
    ///                 _ => {}
    ///             }
    ///         }
    ///     }
    ///     Ok(None)
    /// }
    /// ```
    #[must_use]
    pub const fn week_day(&self) -> u8 {
        self.fields.week_day()
    }

    /// Days since January 1st, from 0 to 365.
    #[must_use]
    pub const fn year_day(&self) -> u16 {
        self.fields.year_day()
    }

    /// Nanoseconds from [`UtcDateTime::UNIX_EPOCH`] on.
    #[must_use]
    pub const fn total_nanoseconds(&self) -> i128 {
        total_nanoseconds(self.unix_time(), self.fields.nanoseconds)
    }

    /// What the zone's clock shows at this instant.
    ///
    /// What clocks an hour behind UTC show at the beginning of 2024 in UTC:
    ///
    /// ```
    /// # use std::time::Duration;
    /// # use tz::{datetime::*, error::*, timezone::*, *};
    /// pub fn new_year_an_hour_behind() -> Result<DateTime, TzError> {
    ///     let zone = TimeZone::fixed(-3600)?;
    ///     UtcDateTime::new(2024, 1, 1, 0, 0, 0, 0)?.project(zone.as_ref())
    /// }
    /// ```
    ///
    /// # Errors
    ///
    /// Those of [`DateTime::from_timespec`] at an instant with valid nanoseconds.
    pub const fn project(&self, time_zone_ref: TimeZoneRef<'_>) -> Result<DateTime, TzError> {
        DateTime::from_timespec(self.unix_time(), self.fields.nanoseconds, time_zone_ref)
    }

    /// The date time later by a duration, or `None` if that is past [`UtcDateTime::MAX`].
    ///
    /// A meeting at one local time each week. Weeks are added to the local time, not to the first
    /// instant: an hour may be lost or gained between.
    ///
    /// ```
    /// # use std::time::Duration;
    /// # use tz::{datetime::*, error::*, timezone::*, *};
    /// pub fn weekly_meetings(
    ///     zone: TimeZoneRef<'_>,
    ///     first: UtcDateTime,
    ///     weeks: u32,
    /// ) -> Result<Vec<DateTime>, TzError> {
    ///     let mut meetings = Vec::new();
    ///     for week in 0..weeks {
    ///         let after_first = Duration::from_secs(604_800 * u64::from(week));
    ///         let local = first.checked_add(after_first).ok_or(TzError::OutOfRange)?;
    ///         if let Some(meeting) =
    ///             DateTime::from_local(local, Disambiguation::Compatible, zone)?
    ///         {
    ///             meetings.push(meeting);
    ///         }
    ///     }
    ///     Ok(meetings)
    /// }
    /// ```
    #[inline]
    #[must_use]
    pub const fn checked_add(&self, duration: Duration) -> Option<Self> {
        let moved = time_after(self.unix_time(), self.fields.nanoseconds, duration);
        let (unix_time, nanoseconds) = match moved {
            Some(value) => value,
            None => return None,
        };
        Some(UtcDateTime::at(unix_time, nanoseconds))
    }

    /// The date time earlier by a duration, or `None` if that is before [`UtcDateTime::MIN`].
    #[inline]
    #[must_use]
    pub const fn checked_sub(&self, duration: Duration) -> Option<Self> {
        let moved = time_before(self.unix_time(), self.fields.nanoseconds, duration);
        let (unix_time, nanoseconds) = match moved {
            Some(value) => value,
            None => return None,
        };
        Some(UtcDateTime::at(unix_time, nanoseconds))
    }

    /// The duration from an earlier date time to this one.
    ///
    /// # Errors
    ///
    /// The duration from this date time to the other one, if that one is later.
    pub const fn duration_since(&self, earlier: Self) -> Result<Duration, Duration> {
        duration_between(earlier.total_nanoseconds(), self.total_nanoseconds())
    }
}

/// The date time later by a duration.
///
/// # Panics
///
/// If it is past [`UtcDateTime::MAX`]. [`UtcDateTime::checked_add`] returns `None` then.
impl Add<Duration> for UtcDateTime {
    type Output = UtcDateTime;

    fn add(self, duration: Duration) -> UtcDateTime {
        self.checked_add(duration)
            .expect("attempt to add with overflow")
    }
}

/// The date time earlier by a duration.
///
/// # Panics
///
/// If it is before [`UtcDateTime::MIN`]. [`UtcDateTime::checked_sub`] returns `None` then.
impl Sub<Duration> for UtcDateTime {
    type Output = UtcDateTime;

    fn sub(self, duration: Duration) -> UtcDateTime {
        self.checked_sub(duration)
            .expect("attempt to subtract with overflow")
    }
}

/// Adds a duration.
///
/// # Panics
///
/// If the sum is past [`UtcDateTime::MAX`].
impl AddAssign<Duration> for UtcDateTime {
    fn add_assign(&mut self, duration: Duration) {
        *self = *self + duration;
    }
}

/// Subtracts a duration.
///
/// # Panics
///
/// If the difference is before [`UtcDateTime::MIN`].
impl SubAssign<Duration> for UtcDateTime {
    fn sub_assign(&mut self, duration: Duration) {
        *self = *self - duration;
    }
}

/// The UTC date time of the same instant.
///
/// # Errors
///
/// [`TzError::OutOfRange`] if its year does not fit an `i32`.
impl TryFrom<DateTime> for UtcDateTime {
    type Error = TzError;

    fn try_from(date_time: DateTime) -> Result<Self, TzError> {
        if !is_reading(date_time.unix_time()) {
            return Err(TzError::OutOfRange);
        }
        Ok(UtcDateTime::at(
            date_time.unix_time(),
            date_time.nanoseconds(),
        ))
    }
}

/// Prints the name of the type and its fields, as if they stood in the type itself.
impl fmt::Debug for UtcDateTime {
    fn fmt(&self, f: &mut fmt::Formatter<'_>) -> fmt::Result {
        f.debug_struct("UtcDateTime")
            .field("year", &self.fields.year)
            .field("month", &self.fields.month)
            .field("month_day", &self.fields.month_day)
            .field("hour", &self.fields.hour)
            .field("minute", &self.fields.minute)
            .field("second", &self.fields.second)
            .field("nanoseconds", &self.fields.nanoseconds)
            .finish()
    }
}

/// Prints `year-MM-DDThh:mm:ss.nnnnnnnnnZ`, whatever the format's width. (ISO 8601-1, 5.4.2)
impl fmt::Display for UtcDateTime {
    fn fmt(&self, f: &mut fmt::Formatter<'_>) -> fmt::Result {
        let mut line = TextBuffer::new();
        line.push_date_time(&self.fields, 0);
        f.write_str(line.as_str())
    }
}

/// The fields of a date time of UTC, which are valid.
#[must_use]
pub const fn utc_fields_of(date_time: &UtcDateTime) -> &Fields {
    date_time.fields()
}

/// The seconds of the total, rounded down, and the nanoseconds that remain, if the seconds are
/// those of a UTC date time.
const fn utc_timespec(total: i128) -> Option<(i64, u32)> {
    let (seconds, nanoseconds) = match timespec(total) {
        Some(value) => value,
        None => return None,
    };
    if !is_reading(seconds) {
        return None;
    }
    Some((seconds, nanoseconds))
}

/// The seconds from the first reading of UTC date times to the last.
const ALL_SECONDS: u64 = 135_536_076_801_503_999;

/// The seconds with the whole ones of the nanoseconds, and the nanoseconds that remain, if the
/// seconds are those of a UTC date time.
#[inline]
const fn carried(seconds: i64, nanoseconds: u32) -> Option<(i64, u32)> {
    let whole = seconds + (nanoseconds / NANOSECONDS_PER_SECOND) as i64;
    if !is_reading(whole) {
        return None;
    }
    Some((whole, nanoseconds % NANOSECONDS_PER_SECOND))
}

/// The seconds and nanoseconds a duration after others, if the seconds are those of a UTC date
/// time.
#[inline]
const fn time_after(seconds: i64, nanoseconds: u32, duration: Duration) -> Option<(i64, u32)> {
    let added = duration.as_secs();
    if added > ALL_SECONDS {
        return None;
    }
    let nanoseconds = nanoseconds + duration.subsec_nanos();
    carried(seconds + added as i64, nanoseconds)
}

/// The seconds and nanoseconds a duration before others, if the seconds are those of a UTC date
/// time.
#[inline]
const fn time_before(seconds: i64, nanoseconds: u32, duration: Duration) -> Option<(i64, u32)> {
    let taken = duration.as_secs();
    if taken > ALL_SECONDS {
        return None;
    }
    let borrowed = nanoseconds + NANOSECONDS_PER_SECOND - duration.subsec_nanos();
    carried(seconds - taken as i64 - 1, borrowed)
}

/// The duration between two totals: `Ok` if the later one is not below the earlier one, and
/// otherwise `Err` with the way back.
pub(super) const fn duration_between(earlier: i128, later: i128) -> Result<Duration, Duration> {
    let difference = later - earlier;
    let nanoseconds = difference.unsigned_abs();
    let (whole, part) = (nanoseconds / 1_000_000_000, nanoseconds % 1_000_000_000);
    let duration = Duration::new(whole as u64, part as u32);
    if difference >= 0 {
        Ok(duration)
    } else {
        Err(duration)
    }
}
