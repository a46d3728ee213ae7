//! Searches into a list.

use super::{DateTime, FoundDateTimeKind, UtcDateTime};
use crate::error::TzError;
use crate::proved::tz::datetime::FoundDateTimeList as FoundList;
use crate::proved::tz::inner::{FoundDateTimes, ZoneData, find_in_place};
use crate::proved::tz_base::fields::Fields;
use crate::shim::alloc::Global;
use crate::timezone::TimeZoneRef;
use alloc::vec::{self, Vec};
use core::{fmt, slice};

/// The date times that a search found, by rising Unix time: the list that [`DateTime::find`] returns. It may be empty.
///
/// One date time is mostly held in the list itself, without an allocation; lists are equal if their entries are.
pub struct FoundDateTimeList(FoundDateTimes<Global>);

impl FoundDateTimeList {
    /// The date time, if exactly one was found and no jump, and otherwise `None`.
    #[must_use]
    #[inline]
    pub fn unique(&self) -> Option<DateTime> {
        self.0.unique()
    }

    /// The earliest date time; of a jump the side before it. `None` if nothing was found.
    #[must_use]
    #[inline]
    pub fn earliest(&self) -> Option<DateTime> {
        self.0.earliest()
    }

    /// The latest date time; of a jump the side after it. `None` if nothing was found.
    #[must_use]
    #[inline]
    pub fn latest(&self) -> Option<DateTime> {
        self.0.latest()
    }

    /// How many were found.
    #[must_use]
    #[inline]
    pub fn len(&self) -> usize {
        self.as_slice().len()
    }

    /// Whether none was found.
    #[must_use]
    pub fn is_empty(&self) -> bool {
        self.as_slice().is_empty()
    }

    /// What was found, in order.
    #[must_use]
    #[inline]
    pub fn as_slice(&self) -> &[FoundDateTimeKind] {
        match &self.0 {
            FoundDateTimes::Once(found) => slice::from_ref(found),
            FoundDateTimes::Listed(list) => &list.found,
        }
    }

    /// What was found, in order, one after another.
    #[inline]
    pub fn iter(&self) -> slice::Iter<'_, FoundDateTimeKind> {
        self.as_slice().iter()
    }

    /// What was found, in order. Where the list holds one date time itself, this allocates, and the program aborts if out of memory, as with
    /// [`Vec`]; [`as_slice`](Self::as_slice) does not.
    #[must_use]
    pub fn into_inner(self) -> Vec<FoundDateTimeKind> {
        match self.0 {
            FoundDateTimes::Once(found) => alloc::vec![found],
            FoundDateTimes::Listed(list) => list.into_inner().into_std(),
        }
    }
}

impl PartialEq for FoundDateTimeList {
    fn eq(&self, other: &Self) -> bool {
        self.as_slice() == other.as_slice()
    }
}

impl Eq for FoundDateTimeList {}

/// Allocates as [`FoundDateTimeList::into_inner`] does.
impl IntoIterator for FoundDateTimeList {
    type Item = FoundDateTimeKind;
    type IntoIter = vec::IntoIter<FoundDateTimeKind>;

    fn into_iter(self) -> Self::IntoIter {
        self.into_inner().into_iter()
    }
}

impl<'a> IntoIterator for &'a FoundDateTimeList {
    type Item = &'a FoundDateTimeKind;
    type IntoIter = slice::Iter<'a, FoundDateTimeKind>;

    fn into_iter(self) -> Self::IntoIter {
        self.iter()
    }
}

impl Default for FoundDateTimeList {
    fn default() -> Self {
        FoundDateTimeList(FoundDateTimes::Listed(FoundList::new_in(Global)))
    }
}

/// # Panics
///
/// If an allocation fails.
impl Clone for FoundDateTimeList {
    fn clone(&self) -> Self {
        FoundDateTimeList(self.0.try_clone().expect("out of memory"))
    }
}

impl fmt::Debug for FoundDateTimeList {
    fn fmt(&self, f: &mut fmt::Formatter<'_>) -> fmt::Result {
        let list = &self.as_slice();
        f.debug_tuple("FoundDateTimeList").field(list).finish()
    }
}

impl DateTime {
    /// All date times at which the zone's clock shows the fields, and the forward jumps over them, in order of Unix time.
    ///
    /// The month is from 1 to 12, the day of the month from 1, the hour from 0 to 23, the minute from 0 to 59, the second from 0 to 60 and the
    /// nanoseconds below 10^9. A date time keeps the fields that were passed, second 60 included.
    ///
    /// # Errors
    ///
    /// - [`TzError::DateTime`] with the first field that is out of range, in the order of the arguments, or else with `InvalidMonthDay` if the month
    ///   does not have the day;
    /// - [`TzError::OutOfRange`] if an entry is outside the years of an `i32`, as only the local time before or after a jump can be;
    /// - [`TzError::Memory`] if an allocation for the list fails.
    ///
    /// ```
    /// use tz::{DateTime, TimeZone};
    ///
    /// # #[cfg(feature = "std")] {
    /// let zone = TimeZone::from_posix_tz("CET-1CEST,M3.5.0,M10.5.0/3")?;
    /// // Clocks are set back from 3:00 to 2:00, and show half past two twice.
    /// let found = DateTime::find(2000, 10, 29, 2, 30, 0, 0, zone.as_ref())?;
    /// assert_eq!(found.unique(), None);
    /// assert_eq!(found.earliest().unwrap().unix_time(), 972_779_400);
    /// assert_eq!(found.latest().unwrap().unix_time(), 972_783_000);
    /// # }
    /// # Ok::<(), tz::Error>(())
    /// ```
    // tz-rs has these arguments.
    #[allow(clippy::too_many_arguments)]
    #[inline]
    pub fn find(
        year: i32,
        month: u8,
        month_day: u8,
        hour: u8,
        minute: u8,
        second: u8,
        nanoseconds: u32,
        time_zone_ref: TimeZoneRef<'_>,
    ) -> Result<FoundDateTimeList, TzError> {
        let fields = Fields::new(year, month, month_day, hour, minute, second, nanoseconds);
        find_in_place(Global, &fields, &ZoneData::of(&time_zone_ref)).map(FoundDateTimeList)
    }

    /// What [`DateTime::find`] returns for the fields of the local time. The `UtcDateTime` is read as a local time, without an offset.
    ///
    /// # Errors
    ///
    /// - [`TzError::OutOfRange`] as for [`DateTime::find`];
    /// - [`TzError::Memory`] if an allocation for the list fails.
    #[inline]
    pub fn find_local(
        local: UtcDateTime,
        time_zone_ref: TimeZoneRef<'_>,
    ) -> Result<FoundDateTimeList, TzError> {
        find_in_place(Global, local.fields(), &ZoneData::of(&time_zone_ref)).map(FoundDateTimeList)
    }
}
