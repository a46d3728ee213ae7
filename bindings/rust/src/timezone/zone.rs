//! Time zones that own their parts.

use super::{
    Change, ChangesAfter, ChangesBefore, LeapSecond, LocalTimeType, Segment, TimeZoneRef,
    Transition, TransitionRule,
};
#[cfg(feature = "std")]
use crate::datetime::UtcDateTime;
use crate::error::TzError;
use crate::error::timezone::LocalTimeTypeError;
use crate::proved::tz_zone::timezone::TimeZone as Zone;
use crate::shim::Vec as Items;
use crate::shim::alloc::{AllocError, Global};
use alloc::vec;
use alloc::vec::Vec;
use core::fmt;

/// A time zone that owns its parts.
#[derive(PartialEq, Eq, Hash)]
pub struct TimeZone(Zone<Global>);

impl TimeZone {
    /// The zone with these parts. (RFC 8536, section 3.2)
    ///
    /// # Errors
    ///
    /// Those of [`TimeZoneRef::new`].
    pub fn new(
        transitions: Vec<Transition>,
        local_time_types: Vec<LocalTimeType>,
        leap_seconds: Vec<LeapSecond>,
        extra_rule: Option<TransitionRule>,
    ) -> Result<Self, TzError> {
        let zone = Zone::new(
            Items::from_std(transitions),
            Items::from_std(local_time_types),
            Items::from_std(leap_seconds),
            extra_rule,
        );
        Ok(TimeZone(zone?))
    }

    /// The zone of the proved library.
    pub(super) const fn of(zone: Zone<Global>) -> Self {
        TimeZone(zone)
    }

    /// The zone that has one type alone.
    fn of_type(local_time_type: LocalTimeType) -> Self {
        let zone = TimeZone::new(Vec::new(), vec![local_time_type], Vec::new(), None);
        zone.expect("one type makes a zone")
    }

    /// The zone that has UTC's type alone. [`TimeZoneRef::utc`] makes it without allocating.
    ///
    /// # Panics
    ///
    /// If an allocation fails.
    #[must_use]
    pub fn utc() -> Self {
        TimeZone::of_type(LocalTimeType::utc())
    }

    /// The zone that has one type alone, with this offset from UTC in seconds.
    ///
    /// # Errors
    ///
    /// [`LocalTimeTypeError::InvalidUtcOffset`] if the offset is `i32::MIN`.
    ///
    /// # Panics
    ///
    /// If an allocation fails.
    pub fn fixed(ut_offset: i32) -> Result<Self, LocalTimeTypeError> {
        Ok(TimeZone::of_type(LocalTimeType::with_ut_offset(ut_offset)?))
    }

    /// The zone that the bytes of a TZif file of version 1 to 4 denote. (RFC 9636)
    ///
    /// All parts of the file are located before anything is allocated, so a count that exceeds the file allocates nothing.
    ///
    /// # Errors
    ///
    /// - [`TzError::TzFile`] if the bytes are not a file of version 1 to 4;
    /// - [`TzError::LocalTimeType`] if a record does not make a local time type;
    /// - [`TzError::TzString`], [`TzError::LocalTimeType`] or [`TzError::TransitionRule`] if the text of the footer is not a TZ string, or does not
    ///   make a rule;
    /// - [`TzError::TimeZone`] if the parts do not make a zone;
    /// - [`TzError::Memory`] if an allocation fails.
    pub fn from_tz_data(bytes: &[u8]) -> Result<Self, TzError> {
        Ok(TimeZone(Zone::from_tz_data(Global, bytes)?))
    }

    /// The zone, borrowed.
    // tz-rs has this name, and `AsRef` could not return a value.
    #[allow(clippy::should_implement_trait)]
    #[inline]
    #[must_use]
    pub fn as_ref(&self) -> TimeZoneRef<'_> {
        self.0.as_ref()
    }

    /// The clock's type at an instant, in Unix seconds, as [`TimeZoneRef::find_local_time_type`] returns it.
    ///
    /// # Errors
    ///
    /// Those of [`TimeZoneRef::find_local_time_type`].
    #[inline]
    pub fn find_local_time_type(&self, unix_time: i64) -> Result<&LocalTimeType, TzError> {
        self.0.find_local_time_type(unix_time)
    }

    /// The clock's type now.
    ///
    /// # Errors
    ///
    /// Those of [`UtcDateTime::now`] and of [`TimeZoneRef::find_local_time_type`].
    #[cfg(feature = "std")]
    pub fn find_current_local_time_type(&self) -> Result<&LocalTimeType, TzError> {
        self.find_local_time_type(UtcDateTime::now()?.unix_time())
    }

    /// The segment around an instant, as [`TimeZoneRef::segment_at`] returns it.
    #[must_use]
    pub fn segment_at(&self, unix_time: i64) -> Segment<'_> {
        self.as_ref().segment_at(unix_time)
    }

    /// The first change after an instant, as [`TimeZoneRef::following`] returns it.
    #[must_use]
    pub fn following(&self, unix_time: i64) -> Option<Change<'_>> {
        self.as_ref().following(unix_time)
    }

    /// The last change before an instant, as [`TimeZoneRef::preceding`] returns it.
    #[must_use]
    pub fn preceding(&self, unix_time: i64) -> Option<Change<'_>> {
        self.as_ref().preceding(unix_time)
    }

    /// The changes after an instant, as [`TimeZoneRef::changes_after`] returns them.
    #[must_use]
    pub fn changes_after(&self, unix_time: i64) -> ChangesAfter<'_> {
        self.as_ref().changes_after(unix_time)
    }

    /// The changes before an instant, as [`TimeZoneRef::changes_before`] returns them.
    #[must_use]
    pub fn changes_before(&self, unix_time: i64) -> ChangesBefore<'_> {
        self.as_ref().changes_before(unix_time)
    }
}

/// # Panics
///
/// If an allocation fails.
impl Clone for TimeZone {
    fn clone(&self) -> Self {
        TimeZone(self.0.try_clone().expect("out of memory"))
    }
}

/// Copies the parts of a borrowed zone: [`TzError::Memory`] if an allocation fails.
impl TryFrom<TimeZoneRef<'_>> for TimeZone {
    type Error = TzError;

    fn try_from(zone: TimeZoneRef<'_>) -> Result<Self, TzError> {
        TimeZone::new(
            copied(zone.transitions())?,
            copied(zone.local_time_types())?,
            copied(zone.leap_seconds())?,
            *zone.extra_rule(),
        )
    }
}

fn copied<T: Copy>(items: &[T]) -> Result<Vec<T>, AllocError> {
    let mut copies = Vec::new();
    let room = copies.try_reserve_exact(items.len());
    room.map_err(|_| AllocError)?;
    copies.extend_from_slice(items);
    Ok(copies)
}

impl fmt::Debug for TimeZone {
    fn fmt(&self, f: &mut fmt::Formatter<'_>) -> fmt::Result {
        self.0.fmt(f)
    }
}
