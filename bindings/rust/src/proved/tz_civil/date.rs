// Generated from crates/tz_civil/src/date.rt by bindings/erase: its contracts are cut. Change that file instead.
//! Dates: their parts, their numbers, and days later.

mod days;
mod months;
mod text;
mod week_dates;
mod week_days;

use crate::proved::tz::inner::{fields_of, utc_fields_of};
use crate::proved::tz::{DateTime, UtcDateTime};
use crate::proved::tz_base::calendar::{days_in_month, days_since_unix_epoch, week_day_of_day};
use crate::proved::tz_base::constants::SECONDS_PER_DAY;
use crate::proved::tz_base::error::TzError;
use crate::proved::tz_base::fields::Fields;
pub use week_dates::WeekDate;

/// A date of the proleptic Gregorian calendar, in a year of 32 bits. (RFC 3339, section 5.6)
///
/// Dates are in the order of time.
#[derive(Clone, Copy, Debug, PartialEq, Eq, PartialOrd, Ord, Hash)]
pub struct Date {
    year: i32,
    month: u8,
    month_day: u8,
}

/// The year, the month and the day of the month.
#[cfg(feature = "inner")]
#[must_use]
pub const fn parts_of(date: Date) -> (i32, u8, u8) {
    (date.year, date.month, date.month_day)
}

/// The number of the first day of all.
const FIRST_DAY: i64 = -784_353_015_833;

/// The number of the last one.
const LAST_DAY: i64 = 784_351_576_776;

impl Date {
    /// -2147483648-01-01, the first date.
    pub const MIN: Self = Date {
        year: i32::MIN,
        month: 1,
        month_day: 1,
    };

    /// 2147483647-12-31, the last date.
    pub const MAX: Self = Date {
        year: i32::MAX,
        month: 12,
        month_day: 31,
    };

    /// The date with this year, this month, from 1 to 12, and this day of the month, from 1.
    ///
    /// # Errors
    ///
    /// [`TzError::DateTime`] with `InvalidMonth`, or else with `InvalidMonthDay` if the month does
    /// not have the day.
    pub const fn new(year: i32, month: u8, month_day: u8) -> Result<Self, TzError> {
        if let Err(error) = Fields::new(year, month, month_day, 0, 0, 0, 0).check() {
            return Err(TzError::DateTime(error));
        }
        Ok(Date {
            year,
            month,
            month_day,
        })
    }

    /// The date of fields.
    const fn of_fields(fields: &Fields) -> Self {
        Date {
            year: fields.year,
            month: fields.month,
            month_day: fields.month_day,
        }
    }

    #[doc(hidden)]
    #[must_use]
    pub const fn of(date_time: &UtcDateTime) -> Self {
        Date::of_fields(utc_fields_of(date_time))
    }

    #[doc(hidden)]
    #[must_use]
    pub const fn of_date_time(date_time: &DateTime) -> Self {
        Date::of_fields(fields_of(date_time))
    }

    /// The local time at this date that a call such as [`DateTime::from_local`] takes: the hour
    /// from 0 to 23, the minute from 0 to 59, the second from 0 to 60 and the nanoseconds below a
    /// second. Second 60 reads as the first second of the next minute, so it may mean an instant of
    /// the next date.
    ///
    /// # Errors
    ///
    /// Those of [`UtcDateTime::new`].
    pub const fn at(
        self,
        hour: u8,
        minute: u8,
        second: u8,
        nanoseconds: u32,
    ) -> Result<UtcDateTime, TzError> {
        UtcDateTime::new(
            self.year,
            self.month,
            self.month_day,
            hour,
            minute,
            second,
            nanoseconds,
        )
    }

    /// The year; 0 is the year before 1.
    #[must_use]
    pub const fn year(self) -> i32 {
        self.year
    }

    /// The month, from 1 to 12.
    #[must_use]
    pub const fn month(self) -> u8 {
        self.month
    }

    /// The day of the month, from 1 to 31.
    #[must_use]
    pub const fn month_day(self) -> u8 {
        self.month_day
    }

    /// The number of the day: how many days it is after 1970-01-01.
    #[must_use]
    pub const fn day_number(self) -> i64 {
        days_since_unix_epoch(self.year, self.month, self.month_day)
    }

    /// The date that is this many days after 1970-01-01, or `None` outside the years of 32 bits.
    #[must_use]
    pub const fn from_day_number(day: i64) -> Option<Self> {
        if day < FIRST_DAY || day > LAST_DAY {
            return None;
        }
        let midnight = Fields::from_reading(SECONDS_PER_DAY * day, 0);
        Some(Date::of_fields(&midnight))
    }

    /// The date this many days later, or earlier if they are negative; `None` outside the years of
    /// 32 bits.
    #[must_use]
    pub const fn checked_add_days(self, days: i64) -> Option<Self> {
        if 0 <= days && days <= 28 {
            return self.add_up_to_28_days(days as u8);
        }
        let Some(day) = self.day_number().checked_add(days) else {
            return None;
        };
        Date::from_day_number(day)
    }

    /// How many days this date is after `other`, negative if it is before.
    #[must_use]
    pub const fn days_since(self, other: Self) -> i64 {
        self.day_number() - other.day_number()
    }

    /// The last date of the month.
    #[must_use]
    pub const fn last_of_month(self) -> Self {
        Date {
            year: self.year,
            month: self.month,
            month_day: days_in_month(self.year, self.month),
        }
    }

    /// The week day, from Sunday = 0 to 6.
    #[must_use]
    pub const fn week_day(self) -> u8 {
        week_day_of_day(self.day_number())
    }
}

impl UtcDateTime {
    /// The date of a date time of UTC, or of a local time. Second 60 is one of the date at whose
    /// end it stands.
    #[must_use]
    pub const fn date(&self) -> Date {
        Date::of(self)
    }
}

impl DateTime {
    /// The date that the date time's clock shows.
    #[must_use]
    pub const fn date(&self) -> Date {
        Date::of_date_time(self)
    }
}
