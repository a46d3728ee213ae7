// Generated from crates/tz_zone/src/timezone/zone_data.rt by bindings/erase: its contracts are cut. Change that file instead.
//! Zones as plain data, whose tables and rule another owner has.

use super::zone_checks::{check_parts, offset_range};
use super::{Change, LeapSecond, LocalTimeType, Segment, TimeZoneRef, Transition, TransitionRule};
use crate::proved::tz_base::error::TzError;
use crate::proved::tz_rule::inner::RuleRef;
use crate::proved::tz_zone::clock::{self, find_following, find_preceding};
use crate::proved::tz_zone::table::TransitionView;

/// A time zone as slices of plain data, and its rule.
#[derive(Clone, Copy)]
pub struct ZoneData<'a> {
    pub(crate) transitions: &'a [Transition],
    pub(crate) local_time_types: &'a [LocalTimeType],
    pub(crate) leap_seconds: &'a [LeapSecond],
    rule: Option<RuleRef<'a>>,
    least_offset: i32,
    greatest_offset: i32,
}

/// A reference to a rule, if there is one.
#[inline]
pub(super) const fn rule_ref(extra_rule: &Option<TransitionRule>) -> Option<RuleRef<'_>> {
    match extra_rule {
        Some(rule) => Some(RuleRef::of(rule)),
        None => None,
    }
}

impl<'a> ZoneData<'a> {
    /// The data of a zone.
    #[must_use]
    pub const fn of(zone: &TimeZoneRef<'a>) -> Self {
        zone.zone_data
    }

    /// The zone with these parts, once they are checked.
    #[inline]
    pub const fn new(
        transitions: &'a [Transition],
        local_time_types: &'a [LocalTimeType],
        leap_seconds: &'a [LeapSecond],
        rule: Option<RuleRef<'a>>,
    ) -> Result<Self, TzError> {
        match check_parts(false, transitions, local_time_types, leap_seconds, rule) {
            Ok(value) => value,
            Err(error) => return Err(error),
        };
        let (least_offset, greatest_offset) = offset_range(local_time_types, rule);
        Ok(ZoneData {
            transitions,
            local_time_types,
            leap_seconds,
            rule,
            least_offset,
            greatest_offset,
        })
    }

    /// The zone with parts that are known to make one, and with its least and its greatest offset.
    #[must_use]
    pub const fn from_valid_parts(
        transitions: &'a [Transition],
        local_time_types: &'a [LocalTimeType],
        leap_seconds: &'a [LeapSecond],
        rule: Option<RuleRef<'a>>,
        least_offset: i32,
        greatest_offset: i32,
    ) -> Self {
        ZoneData {
            transitions,
            local_time_types,
            leap_seconds,
            rule,
            least_offset,
            greatest_offset,
        }
    }

    /// The transitions, in order.
    #[inline]
    #[must_use]
    pub const fn transitions(&self) -> &'a [Transition] {
        self.transitions
    }

    /// The local time types, which the transitions name by their numbers.
    #[cfg(feature = "inner")]
    #[inline]
    #[must_use]
    pub const fn local_time_types(&self) -> &'a [LocalTimeType] {
        self.local_time_types
    }

    /// The leap seconds, in order.
    #[cfg(feature = "inner")]
    #[inline]
    #[must_use]
    pub const fn leap_seconds(&self) -> &'a [LeapSecond] {
        self.leap_seconds
    }

    /// The rule from the last transition on.
    #[inline]
    #[must_use]
    pub const fn rule(&self) -> Option<RuleRef<'a>> {
        self.rule
    }

    /// The least and the greatest offset of the types and of the rule.
    #[inline]
    #[must_use]
    pub const fn offsets(&self) -> (i32, i32) {
        (self.least_offset, self.greatest_offset)
    }

    /// The clock's type at an instant.
    #[inline(always)]
    pub const fn find_local_time_type(&self, unix_time: i64) -> Result<&'a LocalTimeType, TzError> {
        let mut view = TransitionView::new(self.transitions);
        clock::find_local_time_type(&mut view, self, unix_time)
    }

    /// The segment around an instant: the type of the clock, and from when until when it has it.
    #[inline]
    #[must_use]
    pub const fn segment_at(&self, unix_time: i64) -> Segment<'a> {
        let mut view = TransitionView::new(self.transitions);
        clock::clock_segment_at(&mut view, self, unix_time)
    }

    /// The first change of the clock after an instant.
    #[inline]
    #[must_use]
    pub const fn following(&self, unix_time: i64) -> Option<Change<'a>> {
        let (change, _) = match find_following(self, unix_time) {
            Some(value) => value,
            None => return None,
        };
        Some(change)
    }

    /// The last change of the clock before an instant.
    #[inline]
    #[must_use]
    pub const fn preceding(&self, unix_time: i64) -> Option<Change<'a>> {
        let (change, _) = match find_preceding(self, unix_time) {
            Some(value) => value,
            None => return None,
        };
        Some(change)
    }
}
