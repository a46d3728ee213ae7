// Generated from crates/tz/src/datetime/find.rt by bindings/erase: its contracts are cut. Change that file instead.
//! The date times at which the clock of a zone shows given fields.

#[cfg(all(feature = "alloc", feature = "inner"))]
use super::FoundDateTimeList;
use super::entry_takers::DateTimeList;
use super::gaps_and_folds::search;
use super::slots::SlotWriter;
use super::{DateTime, FoundDateTimeKind, FoundDateTimeListRefMut, UtcDateTime};
use crate::proved::tz_base::error::TzError;
use crate::proved::tz_base::fields::Fields;
use crate::proved::tz_zone::inner::{TransitionView, ZoneData};
use crate::proved::tz_zone::timezone::TimeZoneRef;
#[cfg(all(feature = "alloc", feature = "inner"))]
use crate::shim::alloc::Allocator;

/// A search that failed, and the buffer as it left it.
#[allow(dead_code)]
pub(super) struct Refused<'a> {
    buf: &'a mut [Option<FoundDateTimeKind>],
    pub(super) fault: TzError,
}

/// What [`DateTime::find`] finds of the fields.
#[cfg(all(feature = "alloc", feature = "inner"))]
#[inline]
pub fn find_fields<A: Allocator + Copy>(
    alloc: A,
    fields: &Fields,
    zone: &ZoneData<'_>,
) -> Result<FoundDateTimeList<A>, TzError> {
    let mut list = FoundDateTimeList::new_in(alloc);
    let mut view = TransitionView::new(zone.transitions());
    find_in(&mut list, fields, &mut view, zone)?;
    Ok(list)
}

/// Adds what [`DateTime::find`] finds of the fields to a list, through a view of the zone's
/// transitions.
#[inline]
pub(super) fn find_in<L: DateTimeList>(
    list: &mut L,
    fields: &Fields,
    view: &mut TransitionView<'_>,
    zone: &ZoneData<'_>,
) -> Result<(), TzError> {
    fields.check()?;
    search(list, fields, view, zone)
}

impl DateTime {
    /// Writes what [`DateTime::find`] returns to the slots of a buffer, as far as they go, and
    /// counts all entries. The other slots stay as they are. This call does not allocate.
    ///
    /// The month is from 1 to 12, the day of the month from 1, the hour from 0 to 23, the minute
    /// from 0 to 59, the second from 0 to 60 and the nanoseconds below 10^9. A date time keeps the
    /// fields that were passed, second 60 included.
    ///
    /// # Errors
    ///
    /// Those of [`DateTime::find`] but `Memory`. If a field is invalid, nothing is written.
    #[allow(clippy::too_many_arguments)]
    #[inline]
    pub fn find_n<'a>(
        buf: &'a mut [Option<FoundDateTimeKind>],
        year: i32,
        month: u8,
        month_day: u8,
        hour: u8,
        minute: u8,
        second: u8,
        nanoseconds: u32,
        time_zone_ref: TimeZoneRef<'_>,
    ) -> Result<FoundDateTimeListRefMut<'a>, TzError> {
        // A call and a match: the proof of `untouched` follows these statements.
        match DateTime::listed(
            buf,
            year,
            month,
            month_day,
            hour,
            minute,
            second,
            nanoseconds,
            time_zone_ref,
        ) {
            Ok(list) => Ok(list),
            Err(refused) => Err(refused.fault),
        }
    }

    /// What [`DateTime::find_n`] returns for the fields of the local time. The `UtcDateTime` is
    /// read as a local time, without an offset.
    ///
    /// How many instants and jumps a local time has, without allocating: almost always 1, and 2 if
    /// clocks show it twice.
    ///
    /// ```
    /// # use std::time::Duration;
    /// # use tz::{datetime::*, error::*, timezone::*, *};
    /// pub fn count_meanings(zone: TimeZoneRef<'_>, local: UtcDateTime) -> Result<usize, TzError> {
    ///     let mut slots = [None; 2];
    ///     Ok(DateTime::find_n_local(&mut slots, local, zone)?.count())
    /// }
    /// ```
    ///
    /// # Errors
    ///
    /// [`TzError::OutOfRange`] as for [`DateTime::find`]. Entries that come before the one that is
    /// out of range may have been written.
    #[inline]
    pub fn find_n_local<'a>(
        buf: &'a mut [Option<FoundDateTimeKind>],
        local: UtcDateTime,
        time_zone_ref: TimeZoneRef<'_>,
    ) -> Result<FoundDateTimeListRefMut<'a>, TzError> {
        let mut view = TransitionView::new(time_zone_ref.transitions());
        match DateTime::listed_in(
            buf,
            local.fields(),
            &mut view,
            &ZoneData::of(&time_zone_ref),
        ) {
            Ok(list) => Ok(list),
            Err(refused) => Err(refused.fault),
        }
    }

    /// What [`DateTime::find_n`] returns, and how many transitions were read.
    ///
    /// If a zone has n transitions, of which w take effect in the window of the local time (from
    /// the local time less the zone's greatest offset to the local time less its least one), a
    /// search reads at most 2 b + w + 4, where b is the number of binary digits of n. The count
    /// saturates at `u64::MAX`.
    ///
    /// # Errors
    ///
    /// Those of [`DateTime::find_n`].
    #[allow(clippy::too_many_arguments)]
    pub fn find_n_counted<'a>(
        buf: &'a mut [Option<FoundDateTimeKind>],
        year: i32,
        month: u8,
        month_day: u8,
        hour: u8,
        minute: u8,
        second: u8,
        nanoseconds: u32,
        time_zone_ref: TimeZoneRef<'_>,
    ) -> Result<(FoundDateTimeListRefMut<'a>, u64), TzError> {
        // A call and a match: the proof of `untouched` follows these statements.
        match DateTime::listed_counted(
            buf,
            year,
            month,
            month_day,
            hour,
            minute,
            second,
            nanoseconds,
            time_zone_ref,
        ) {
            Ok(counted) => Ok(counted),
            Err(refused) => Err(refused.fault),
        }
    }

    /// What [`DateTime::find_n`] returns, or the buffer and the error.
    #[allow(clippy::too_many_arguments)]
    #[inline]
    fn listed<'a>(
        buf: &'a mut [Option<FoundDateTimeKind>],
        year: i32,
        month: u8,
        month_day: u8,
        hour: u8,
        minute: u8,
        second: u8,
        nanoseconds: u32,
        time_zone_ref: TimeZoneRef<'_>,
    ) -> Result<FoundDateTimeListRefMut<'a>, Refused<'a>> {
        let fields = Fields::new(year, month, month_day, hour, minute, second, nanoseconds);
        let mut view = TransitionView::new(time_zone_ref.transitions());
        DateTime::listed_in(buf, &fields, &mut view, &ZoneData::of(&time_zone_ref))
    }

    /// What [`DateTime::find_n_counted`] returns, or the buffer and the error.
    #[allow(clippy::too_many_arguments)]
    fn listed_counted<'a>(
        buf: &'a mut [Option<FoundDateTimeKind>],
        year: i32,
        month: u8,
        month_day: u8,
        hour: u8,
        minute: u8,
        second: u8,
        nanoseconds: u32,
        time_zone_ref: TimeZoneRef<'_>,
    ) -> Result<(FoundDateTimeListRefMut<'a>, u64), Refused<'a>> {
        let fields = Fields::new(year, month, month_day, hour, minute, second, nanoseconds);
        let mut view = TransitionView::counted(time_zone_ref.transitions());
        let list = DateTime::listed_in(buf, &fields, &mut view, &ZoneData::of(&time_zone_ref))?;
        Ok((list, view.looks()))
    }

    /// What [`DateTime::find_n`] returns for the fields, through a view of the zone's transitions,
    /// or the buffer and the error.
    #[inline]
    fn listed_in<'a>(
        buf: &'a mut [Option<FoundDateTimeKind>],
        fields: &Fields,
        view: &mut TransitionView<'_>,
        zone: &ZoneData<'_>,
    ) -> Result<FoundDateTimeListRefMut<'a>, Refused<'a>> {
        let mut writer = SlotWriter::new(buf, 0);
        match find_in(&mut writer, fields, view, zone) {
            Ok(()) => {
                let count = writer.count;
                Ok(FoundDateTimeListRefMut::counted(buf, count))
            }
            Err(fault) => Err(Refused { buf, fault }),
        }
    }
}
