//! Times of the system's clock. Durations since 1970 are those of the proved library.

use super::{DateTime, UtcDateTime};
use crate::error::TzError;
use crate::timezone::{LocalTimeType, TimeZoneRef};
use std::time::{Duration, SystemTime};

/// The beginning of 1970.
const EPOCH: DateTime = match DateTime::from_timespec_and_local(0, 0, LocalTimeType::utc()) {
    Ok(epoch) => epoch,
    Err(_) => panic!("1970 is a year of an i32"),
};

/// The time since 1970, as an error if it is the time until then.
fn since_epoch(time: SystemTime) -> Result<Duration, Duration> {
    time.duration_since(SystemTime::UNIX_EPOCH)
        .map_err(|error| error.duration())
}

/// The time of the system's clock this long after 1970, or before it if as an error.
fn system_time(since: Result<Duration, Duration>) -> SystemTime {
    match since {
        Ok(since) => SystemTime::UNIX_EPOCH + since,
        Err(until) => SystemTime::UNIX_EPOCH - until,
    }
}

impl UtcDateTime {
    /// The date time now.
    ///
    /// # Errors
    ///
    /// [`TzError::OutOfRange`] if the year does not fit an `i32`.
    pub fn now() -> Result<Self, TzError> {
        UtcDateTime::try_from(SystemTime::now())
    }
}

impl DateTime {
    /// What the zone's clock shows now.
    ///
    /// # Errors
    ///
    /// Those of [`UtcDateTime::now`] and of [`UtcDateTime::project`].
    pub fn now(time_zone_ref: TimeZoneRef<'_>) -> Result<Self, TzError> {
        UtcDateTime::now()?.project(time_zone_ref)
    }
}

impl TryFrom<SystemTime> for UtcDateTime {
    type Error = TzError;

    fn try_from(time: SystemTime) -> Result<Self, TzError> {
        let utc_date_time = match since_epoch(time) {
            Ok(since) => UtcDateTime::UNIX_EPOCH.checked_add(since),
            Err(until) => UtcDateTime::UNIX_EPOCH.checked_sub(until),
        };
        utc_date_time.ok_or(TzError::OutOfRange)
    }
}

/// The system's time of the instant.
///
/// # Panics
///
/// If the system's time does not reach it, as on Windows before 1601.
impl From<UtcDateTime> for SystemTime {
    fn from(utc_date_time: UtcDateTime) -> Self {
        system_time(utc_date_time.duration_since(UtcDateTime::UNIX_EPOCH))
    }
}

/// The system's time of the instant.
///
/// # Panics
///
/// If the system's time does not reach it, as on Windows before 1601.
impl From<DateTime> for SystemTime {
    fn from(date_time: DateTime) -> Self {
        system_time(date_time.duration_since(EPOCH))
    }
}
