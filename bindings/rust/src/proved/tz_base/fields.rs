// Generated from crates/tz_base/src/fields.rt by bindings/erase: its contracts are cut. Change that file instead.
//! The seven fields of a date time: their check, their reading, and the fields of a reading;
//! instants as one total of nanoseconds, and as seconds, rounded down, and nanoseconds.
//!
//! A reading counts the seconds from 1970-01-01 00:00:00 to the fields of a date time, whatever
//! clock shows them.

use crate::proved::tz_base::calendar::{
    date_of_day, days_before_month, days_since_unix_epoch, has_month_day, is_leap_year,
    moved_seconds, week_day_of_day,
};
use crate::proved::tz_base::constants::{NANOSECONDS_PER_SECOND, SECONDS_PER_DAY};
use crate::proved::tz_base::error::DateTimeError;

/// The seven fields of a date time, in the order in which they are compared.
#[repr(C)]
#[derive(Clone, Copy, Debug, PartialEq, Eq, PartialOrd, Ord, Hash)]
pub struct Fields {
    /// The year; 0 is the year before 1.
    pub year: i32,
    /// The month, from 1 to 12.
    pub month: u8,
    /// The day of the month, from 1.
    pub month_day: u8,
    /// The hour, from 0 to 23.
    pub hour: u8,
    /// The minute, from 0 to 59.
    pub minute: u8,
    /// The second, from 0 to 60.
    pub second: u8,
    /// The nanoseconds, below a second.
    pub nanoseconds: u32,
}

/// The reading of the first second of the years of an `i32`.
const FIRST_READING: i64 = -67_768_100_567_971_200;

/// The reading of the last second of the years of an `i32`.
const LAST_READING: i64 = 67_767_976_233_532_799;

/// Whether the reading is in a year of 32 bits.
#[inline]
#[must_use]
pub const fn is_reading(reading: i64) -> bool {
    FIRST_READING <= reading && reading <= LAST_READING
}

/// The reading of a clock with this offset from UTC at a Unix time, if it is in a year of 32 bits.
#[inline]
#[must_use]
pub const fn local_reading(unix_time: i64, ut_offset: i32) -> Option<i64> {
    // A sum that wraps is in no year of 32 bits, and nor is the true one.
    let reading = unix_time.wrapping_add(ut_offset as i64);
    if is_reading(reading) {
        Some(reading)
    } else {
        None
    }
}

impl Fields {
    /// The fields with these values.
    #[must_use]
    pub const fn new(
        year: i32,
        month: u8,
        month_day: u8,
        hour: u8,
        minute: u8,
        second: u8,
        nanoseconds: u32,
    ) -> Self {
        Fields {
            year,
            month,
            month_day,
            hour,
            minute,
            second,
            nanoseconds,
        }
    }

    /// Whether the fields are those of a date time; second 60 is one of every minute.
    ///
    /// # Errors
    ///
    /// The variant of the first field that is out of range, in the order of the fields, or else
    /// [`DateTimeError::InvalidMonthDay`] if the month does not have the day.
    #[inline]
    pub const fn check(&self) -> Result<(), DateTimeError> {
        if self.month < 1 || self.month > 12 {
            return Err(DateTimeError::InvalidMonth);
        }
        if self.month_day < 1 || self.month_day > 31 {
            return Err(DateTimeError::InvalidMonthDay);
        }
        if self.hour > 23 {
            return Err(DateTimeError::InvalidHour);
        }
        if self.minute > 59 {
            return Err(DateTimeError::InvalidMinute);
        }
        if self.second > 60 {
            return Err(DateTimeError::InvalidSecond);
        }
        if self.nanoseconds >= NANOSECONDS_PER_SECOND {
            return Err(DateTimeError::InvalidNanoseconds);
        }
        if !has_month_day(self.year, self.month, self.month_day) {
            return Err(DateTimeError::InvalidMonthDay);
        }
        Ok(())
    }

    /// The seconds from 1970-01-01 00:00:00 to the fields. Second 60 reads as the next minute's
    /// first second.
    #[inline]
    #[must_use]
    pub const fn reading(&self) -> i64 {
        let second_of_day = 3600 * self.hour as u32 + 60 * self.minute as u32 + self.second as u32;
        SECONDS_PER_DAY * self.day() + second_of_day as i64
    }

    /// The number of the day of the fields, where 1970-01-01 has the number 0.
    const fn day(&self) -> i64 {
        days_since_unix_epoch(self.year, self.month, self.month_day)
    }

    /// The fields that a clock shows at the reading.
    #[inline]
    #[must_use]
    pub const fn from_reading(reading: i64, nanoseconds: u32) -> Fields {
        let seconds = moved_seconds(reading);
        let (year, month, month_day) = date_of_day(seconds / 86_400);
        let second_of_day = (seconds % 86_400) as u32;
        Fields {
            year,
            month,
            month_day,
            hour: (second_of_day / 3600) as u8,
            minute: (second_of_day % 3600 / 60) as u8,
            second: (second_of_day % 60) as u8,
            nanoseconds,
        }
    }

    /// The week day, from Sunday = 0.
    #[must_use]
    pub const fn week_day(&self) -> u8 {
        week_day_of_day(self.day())
    }

    /// The day of the year, from January 1st = 0.
    #[must_use]
    pub const fn year_day(&self) -> u16 {
        days_before_month(is_leap_year(self.year), self.month) + self.month_day as u16 - 1
    }
}

/// Nanoseconds from 1970-01-01T00:00:00Z on.
#[must_use]
pub const fn total_nanoseconds(unix_time: i64, nanoseconds: u32) -> i128 {
    NANOSECONDS_PER_SECOND as i128 * unix_time as i128 + nanoseconds as i128
}

/// The seconds of a total of nanoseconds, rounded down, and the nanoseconds that remain, if the
/// seconds fit 64 bits.
#[must_use]
pub const fn timespec(total: i128) -> Option<(i64, u32)> {
    let nanoseconds_per_second = NANOSECONDS_PER_SECOND as i128;
    let seconds = total.div_euclid(nanoseconds_per_second);
    let nanoseconds = total.rem_euclid(nanoseconds_per_second) as u32;
    if seconds < i64::MIN as i128 || seconds > i64::MAX as i128 {
        return None;
    }
    Some((seconds as i64, nanoseconds))
}
