// Generated from crates/tz_zone/src/timezone/changes.rt by bindings/erase: its contracts are cut. Change that file instead.
//! The segments of a zone's clock, and where it changes.

#[cfg(feature = "alloc")]
use super::TimeZone;
use super::{Change, Segment, TimeZoneRef};
use crate::proved::tz_zone::clock;
#[cfg(feature = "alloc")]
use crate::shim::alloc::Allocator;
use core::iter::FusedIterator;

impl<'a> TimeZoneRef<'a> {
    /// The segment around an instant, in Unix seconds. Does not allocate.
    ///
    /// The next segment is the one around `last() + 1`. It may have the same type, as after a
    /// transition to an equal type.
    ///
    /// What clocks show at a Unix time of a log, with the segment cached for the next entry:
    ///
    /// ```
    /// # use std::time::Duration;
    /// # use tz::{datetime::*, error::*, timezone::*, *};
    /// pub fn show_entry<'a>(
    ///     zone: TimeZoneRef<'a>,
    ///     segment: &mut Segment<'a>,
    ///     unix_time: i64,
    /// ) -> Result<DateTime, TzError> {
    ///     if !segment.contains(unix_time) {
    ///         *segment = zone.segment_at(unix_time);
    ///     }
    ///     let local_time_type = segment
    ///         .local_time_type()
    ///         .ok_or(TzError::NoAvailableLocalTimeType)?;
    ///     DateTime::from_timespec_and_local(unix_time, 0, *local_time_type)
    /// }
    /// ```
    #[inline]
    #[must_use]
    pub const fn segment_at(&self, unix_time: i64) -> Segment<'a> {
        self.zone_data.segment_at(unix_time)
    }

    /// The first change after an instant, in Unix seconds, or `None` if the clock does not change
    /// any more. Does not allocate.
    ///
    /// A transition to an equal type is not a change, nor is the point where a clock begins or
    /// ceases to have a type.
    ///
    /// If the next transition, or the next start or end of daylight saving time, is a change, this
    /// costs about as much as a lookup, and for a rule that never changes the type a few times as
    /// much. It costs most over a run of transitions to equal types, all of which are read, and for
    /// a rule whose start and end coincide in most years, of which all are read up to one in which
    /// they differ.
    ///
    /// When clocks are set next, and by how many seconds forward:
    ///
    /// ```
    /// # use std::time::Duration;
    /// # use tz::{datetime::*, error::*, timezone::*, *};
    /// pub fn next_change(
    ///     zone: TimeZoneRef<'_>,
    ///     now: i64,
    /// ) -> Result<Option<(DateTime, i64)>, TzError> {
    ///     let Some(change) = zone.following(now) else {
    ///         return Ok(None);
    ///     };
    ///     let shown = DateTime::from_timespec(change.unix_time(), 0, zone)?;
    ///     let seconds =
    ///         i64::from(change.after().ut_offset()) - i64::from(change.before().ut_offset());
    ///     Ok(Some((shown, seconds)))
    /// }
    /// ```
    #[inline]
    #[must_use]
    pub const fn following(&self, unix_time: i64) -> Option<Change<'a>> {
        self.zone_data.following(unix_time)
    }

    /// The first change after an instant, and the position after it, for the next call. `position`
    /// may be that after a change at the instant: one comparison shows whether it is, and if not,
    /// the table is searched.
    #[inline(always)]
    pub(crate) const fn following_from(
        &self,
        unix_time: i64,
        position: usize,
    ) -> Option<(Change<'a>, usize)> {
        if let Some(found) = clock::change_after_last(&self.zone_data, unix_time, position) {
            return Some(found);
        }
        self.search_following(unix_time)
    }

    /// The first change after an instant, and the position after it.
    const fn search_following(&self, unix_time: i64) -> Option<(Change<'a>, usize)> {
        clock::find_following(&self.zone_data, unix_time)
    }

    /// The last change before an instant, in Unix seconds, or `None` if the clock has not changed
    /// before. Does not allocate.
    ///
    /// A transition to an equal type is not a change, nor is the point where a clock begins or
    /// ceases to have a type. The cost is that of [`TimeZoneRef::following`].
    ///
    /// How many seconds ago clocks changed last:
    ///
    /// ```
    /// # use std::time::Duration;
    /// # use tz::{datetime::*, error::*, timezone::*, *};
    /// pub fn since_last_change(zone: TimeZoneRef<'_>, now: i64) -> Option<u64> {
    ///     let change = zone.preceding(now)?;
    ///     Some(now.abs_diff(change.unix_time()))
    /// }
    /// ```
    #[inline]
    #[must_use]
    pub const fn preceding(&self, unix_time: i64) -> Option<Change<'a>> {
        self.zone_data.preceding(unix_time)
    }

    /// The last change before an instant, and the position before it, for the next call. `position`
    /// may be that before a change at the instant: one comparison shows whether it is, and if not,
    /// the table is searched.
    #[inline(always)]
    pub(crate) const fn preceding_from(
        &self,
        unix_time: i64,
        position: usize,
    ) -> Option<(Change<'a>, usize)> {
        if let Some(found) = clock::change_before_next(&self.zone_data, unix_time, position) {
            return Some(found);
        }
        self.search_preceding(unix_time)
    }

    /// The last change before an instant, and the position before it.
    const fn search_preceding(&self, unix_time: i64) -> Option<(Change<'a>, usize)> {
        clock::find_preceding(&self.zone_data, unix_time)
    }

    /// The changes after an instant, in Unix seconds, in the order of time: the one that
    /// `following` returns, and so on from each. Does not allocate.
    ///
    /// A step costs about as much as a call of [`TimeZoneRef::following`]. It first looks at the
    /// transition after that of the last change, and so rarely searches the table.
    ///
    /// The changes of a zone in the 20 years before an instant and at it, and the next two after
    /// it:
    ///
    /// ```
    /// # use std::time::Duration;
    /// # use tz::{datetime::*, error::*, timezone::*, *};
    /// pub fn changes_around(
    ///     zone: TimeZoneRef<'_>,
    ///     now: i64,
    /// ) -> Result<Vec<Change<'_>>, TzError> {
    ///     // 20 years of 365.2425 days.
    ///     let start = now.saturating_sub(20 * 31_556_952);
    ///     let mut changes = Vec::new();
    ///     for change in zone.changes_after(start) {
    ///         if now < change.unix_time() {
    ///             break;
    ///         }
    ///         changes.push(change);
    ///     }
    ///     for change in zone.changes_after(now).take(2) {
    ///         changes.push(change);
    ///     }
    ///     Ok(changes)
    /// }
    /// ```
    #[must_use]
    pub const fn changes_after(&self, unix_time: i64) -> ChangesAfter<'a> {
        ChangesAfter::new(*self, unix_time)
    }

    /// The changes before an instant, in Unix seconds, from the last one back: the one that
    /// `preceding` returns, and so on from each. Does not allocate.
    ///
    /// The cost of a step is that of [`TimeZoneRef::changes_after`].
    ///
    /// When clocks were last set forward before an instant:
    ///
    /// ```
    /// # use std::time::Duration;
    /// # use tz::{datetime::*, error::*, timezone::*, *};
    /// pub fn last_set_forward(zone: TimeZoneRef<'_>, now: i64) -> Option<i64> {
    ///     for change in zone.changes_before(now) {
    ///         if change.before().ut_offset() < change.after().ut_offset() {
    ///             return Some(change.unix_time());
    ///         }
    ///     }
    ///     None
    /// }
    /// ```
    #[must_use]
    pub const fn changes_before(&self, unix_time: i64) -> ChangesBefore<'a> {
        ChangesBefore::new(*self, unix_time)
    }
}

#[cfg(feature = "alloc")]
impl<A: Allocator + Copy> TimeZone<A> {
    /// The segment around an instant, as [`TimeZoneRef::segment_at`] returns it.
    #[cfg(feature = "inner")]
    #[must_use]
    pub fn segment_at(&self, unix_time: i64) -> Segment<'_> {
        self.as_ref().segment_at(unix_time)
    }

    /// The first change after an instant, as [`TimeZoneRef::following`] returns it.
    #[cfg(feature = "inner")]
    #[must_use]
    pub fn following(&self, unix_time: i64) -> Option<Change<'_>> {
        self.as_ref().following(unix_time)
    }

    /// The last change before an instant, as [`TimeZoneRef::preceding`] returns it.
    #[cfg(feature = "inner")]
    #[must_use]
    pub fn preceding(&self, unix_time: i64) -> Option<Change<'_>> {
        self.as_ref().preceding(unix_time)
    }

    /// The changes after an instant, as [`TimeZoneRef::changes_after`] returns them.
    #[cfg(feature = "inner")]
    #[must_use]
    pub fn changes_after(&self, unix_time: i64) -> ChangesAfter<'_> {
        self.as_ref().changes_after(unix_time)
    }

    /// The changes before an instant, as [`TimeZoneRef::changes_before`] returns them.
    #[cfg(feature = "inner")]
    #[must_use]
    pub fn changes_before(&self, unix_time: i64) -> ChangesBefore<'_> {
        self.as_ref().changes_before(unix_time)
    }
}

/// The changes of a clock after an instant, each one after the one before. Does not allocate.
///
/// After `None` each call returns `None`.
#[derive(Clone, Debug)]
pub struct ChangesAfter<'a> {
    zone: TimeZoneRef<'a>,
    unix_time: i64,
    position: usize,
}

impl<'a> ChangesAfter<'a> {
    /// The changes of a zone's clock after an instant.
    pub(crate) const fn new(zone: TimeZoneRef<'a>, unix_time: i64) -> Self {
        ChangesAfter {
            zone,
            unix_time,
            position: 0,
        }
    }
}

impl<'a> Iterator for ChangesAfter<'a> {
    type Item = Change<'a>;

    #[inline]
    fn next(&mut self) -> Option<Change<'a>> {
        let (next, position) = self.zone.following_from(self.unix_time, self.position)?;
        self.unix_time = next.unix_time();
        self.position = position;
        Some(next)
    }
}

impl FusedIterator for ChangesAfter<'_> {}

/// The changes of a clock before an instant, from the latest back. Does not allocate.
///
/// After `None` each call returns `None`.
#[derive(Clone, Debug)]
pub struct ChangesBefore<'a> {
    zone: TimeZoneRef<'a>,
    unix_time: i64,
    position: usize,
}

impl<'a> ChangesBefore<'a> {
    /// The changes of a zone's clock before an instant.
    pub(crate) const fn new(zone: TimeZoneRef<'a>, unix_time: i64) -> Self {
        ChangesBefore {
            zone,
            unix_time,
            position: 0,
        }
    }
}

impl<'a> Iterator for ChangesBefore<'a> {
    type Item = Change<'a>;

    #[inline]
    fn next(&mut self) -> Option<Change<'a>> {
        let (previous, position) = self.zone.preceding_from(self.unix_time, self.position)?;
        self.unix_time = previous.unix_time();
        self.position = position;
        Some(previous)
    }
}

impl FusedIterator for ChangesBefore<'_> {}
