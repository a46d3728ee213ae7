//! Calls over whole columns.

use super::TimeZoneRef;
use crate::datetime::{DateTime, Disambiguation, UtcDateTime};
use crate::error::ColumnError;
use crate::proved::tz::inner::{self, NoInstant, Unanswered};
use crate::proved::tz_zone::inner::ZoneData;

/// Answers a column, if all its parts have one length, by a call from an index on, up to the first that has no answer, and again after each such
/// index. Returns the first error.
#[inline(always)]
fn answer_from_each(
    have_one_length: bool,
    mut call: impl FnMut(usize) -> Result<(), Unanswered>,
) -> Result<(), ColumnError> {
    if !have_one_length {
        return Err(ColumnError::UnequalLengths);
    }
    let (mut next, mut first) = (0, Ok(()));
    while let Err(Unanswered { index: i, error }) = call(next) {
        (next, first) = (i + 1, first.and(Err(ColumnError::At { place: i, error })));
    }
    first
}

/// Answers a column of as many instants as are asked. An index with an error stays as it is, and one whose local time means no instant gets `None`.
#[inline(always)]
fn answer_instants(
    asked: usize,
    unix_times: &mut [Option<i64>],
    write: impl Fn(usize, &mut [Option<i64>]) -> Result<(), NoInstant>,
) -> Result<(), ColumnError> {
    answer_from_each(asked == unix_times.len(), |mut next| {
        while let Err(NoInstant { index: i, error }) = write(next, unix_times) {
            if let Some(error) = error {
                return Err(Unanswered { index: i, error });
            }
            if let Some(slot) = unix_times.get_mut(i) {
                *slot = None;
            }
            next = i + 1;
        }
        Ok(())
    })
}

impl TimeZoneRef<'_> {
    /// Writes the offsets of the clock at instants, in Unix seconds, into a column of the same length. Instants in order are fastest, and those
    /// between two changes of the clock.
    ///
    /// # Errors
    ///
    /// - [`ColumnError::UnequalLengths`] if the columns differ in length: nothing is written;
    /// - [`ColumnError::At`] the first place at which the clock has no offset, with the errors of
    ///   [`find_local_time_type`](Self::find_local_time_type). All other offsets are written, and where there is none the column stays as it is. No
    ///   offset is `i32::MIN`.
    ///
    /// ```
    /// # #[cfg(feature = "std")] {
    /// let zone = tz::TimeZone::from_posix_tz("CET-1CEST,M3.5.0,M10.5.0/3")?;
    /// let mut offsets = [0; 2];
    /// zone.as_ref().offsets_at(&[954_032_399, 954_032_400], &mut offsets)?;
    /// assert_eq!(offsets, [3600, 7200]);
    /// # }
    /// # Ok::<(), Box<dyn std::error::Error>>(())
    /// ```
    pub fn offsets_at(&self, unix_times: &[i64], offsets: &mut [i32]) -> Result<(), ColumnError> {
        let zone = ZoneData::of(self);
        answer_from_each(unix_times.len() == offsets.len(), |next| {
            inner::write_offsets(unix_times, next, &zone, offsets)
        })
    }

    /// Writes what clocks show at instants, in Unix seconds and nanoseconds, into a column of the same length. Instants in order are fastest.
    ///
    /// # Errors
    ///
    /// - [`ColumnError::UnequalLengths`] if the columns differ in length: nothing is written;
    /// - [`ColumnError::At`] the first place at which clocks show no date time, with the errors of [`DateTime::from_timespec`]. All other date
    ///   times are written, and where there is none the column stays as it is.
    pub fn date_times_at(
        &self,
        unix_times: &[i64],
        nanoseconds: &[u32],
        date_times: &mut [DateTime],
    ) -> Result<(), ColumnError> {
        let (zone, len) = (ZoneData::of(self), unix_times.len());
        answer_from_each(
            len == nanoseconds.len() && len == date_times.len(),
            |next| inner::write_date_times(unix_times, nanoseconds, next, &zone, date_times),
        )
    }

    /// Writes the instants that local times mean, in Unix seconds, into a column of the same length. There is `None` where
    /// [`DateTime::from_local`] returns it.
    ///
    /// # Errors
    ///
    /// - [`ColumnError::UnequalLengths`] if the columns differ in length: nothing is written;
    /// - [`ColumnError::At`] the first place at which there is an error, with those of [`DateTime::from_local`]. All other instants are written, and
    ///   where there is an error the column stays as it is.
    pub fn instants_of(
        &self,
        local: &[UtcDateTime],
        disambiguation: Disambiguation,
        unix_times: &mut [Option<i64>],
    ) -> Result<(), ColumnError> {
        let zone = ZoneData::of(self);
        answer_instants(local.len(), unix_times, |next, unix_times| {
            inner::write_instants(local, next, disambiguation, &zone, unix_times)
        })
    }

    /// Writes the instants that readings mean, in Unix seconds, into a column of the same length. A reading is what a clock shows, as the seconds
    /// from 1970-01-01 00:00:00 on that clock: the [`unix_time`](UtcDateTime::unix_time) of a local time. The instant, or `None`, is that of
    /// [`instants_of`](Self::instants_of) for that local time, but no local time is worked out. Readings in order are fastest, and those far from
    /// changes of the clock.
    ///
    /// # Errors
    ///
    /// - [`ColumnError::UnequalLengths`] if the columns differ in length: nothing is written;
    /// - [`ColumnError::At`] the first place at which there is an error, with those of [`DateTime::from_local`], or
    ///   [`OutOfRange`](crate::error::TzError::OutOfRange) if the year of the reading does not fit an `i32`. All other instants are written, and where
    ///   there is an error the column stays as it is.
    ///
    /// ```
    /// # #[cfg(feature = "std")] {
    /// use tz::datetime::Disambiguation;
    ///
    /// let zone = tz::TimeZone::from_posix_tz("CET-1CEST,M3.5.0,M10.5.0/3")?;
    /// // 2000-03-26, 1:59:59, 2:00 and 3:00: clocks are set forward from 2:00 to 3:00.
    /// let readings = [954_035_999, 954_036_000, 954_039_600];
    /// let mut instants = [None; 3];
    /// zone.as_ref().instants_of_readings(&readings, Disambiguation::Reject, &mut instants)?;
    /// assert_eq!(instants, [Some(954_032_399), None, Some(954_032_400)]);
    /// # }
    /// # Ok::<(), Box<dyn std::error::Error>>(())
    /// ```
    pub fn instants_of_readings(
        &self,
        readings: &[i64],
        disambiguation: Disambiguation,
        unix_times: &mut [Option<i64>],
    ) -> Result<(), ColumnError> {
        let zone = ZoneData::of(self);
        answer_instants(readings.len(), unix_times, |next, unix_times| {
            inner::write_instants_of_readings(readings, next, disambiguation, &zone, unix_times)
        })
    }
}
