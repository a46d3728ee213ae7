// Generated from crates/tz_zone/src/timezone/zone_ref.rt by bindings/erase: its contracts are cut. Change that file instead.
//! Borrowed time zones.

use super::zone_data::{ZoneData, rule_ref};
use super::{LeapSecond, LocalTimeType, Transition, TransitionRule};
use crate::proved::tz_base::error::TzError;
use crate::proved::tz_zone::clock;
use crate::proved::tz_zone::leap::table_checks::expiry;
use crate::proved::tz_zone::table::TransitionView;
use core::fmt;
use core::hash::{Hash, Hasher};

/// A borrowed time zone.
///
/// Before the last transition, the transitions determine its clock; from there on the extra rule
/// does.
#[derive(Clone, Copy)]
pub struct TimeZoneRef<'a> {
    pub(crate) zone_data: ZoneData<'a>,
    // The rule that `zone_data` keeps, as `extra_rule` returns it.
    extra_rule: &'a Option<TransitionRule>,
}

impl<'a> PartialEq for TimeZoneRef<'a> {
    fn eq(&self, other: &TimeZoneRef<'a>) -> bool {
        self.zone_data.transitions == other.zone_data.transitions
            && self.zone_data.local_time_types == other.zone_data.local_time_types
            && self.zone_data.leap_seconds == other.zone_data.leap_seconds
            && self.extra_rule == other.extra_rule
    }
}

impl<'a> Eq for TimeZoneRef<'a> {}

impl<'a> Hash for TimeZoneRef<'a> {
    fn hash<H: Hasher>(&self, state: &mut H) {
        self.zone_data.transitions.hash(state);
        self.zone_data.local_time_types.hash(state);
        self.zone_data.leap_seconds.hash(state);
        self.extra_rule.hash(state);
    }
}

impl<'a> TimeZoneRef<'a> {
    /// The zone with these parts. (RFC 8536, section 3.2)
    ///
    /// A zone from parts, without allocating: clocks were an hour ahead of UTC until the year 2000,
    /// and are two hours ahead from then on.
    ///
    /// ```
    /// # use std::time::Duration;
    /// # use tz::{datetime::*, error::*, timezone::*, *};
    /// pub fn moved_ahead_in_2000(unix_time: i64) -> Result<DateTime, TzError> {
    ///     let before = LocalTimeType::new(3600, false, Some(b"EARLY"))?;
    ///     let after = LocalTimeType::new(7200, false, Some(b"LATE"))?;
    ///     let types = [before, after];
    ///     let transitions = [Transition::new(946_684_800, 1)];
    ///     let rule = Some(TransitionRule::Fixed(after));
    ///     let zone = TimeZoneRef::new(&transitions, &types, &[], &rule)?;
    ///     DateTime::from_timespec(unix_time, 0, zone)
    /// }
    /// ```
    ///
    /// # Errors
    ///
    /// The first of these:
    ///
    /// - [`TzError::TimeZone`] with `NoLocalTimeType` if there is no local time type;
    /// - [`TzError::TimeZone`] for the first transition that names no type
    ///   (`InvalidLocalTimeTypeIndex`), or that names one and is not before the next transition
    ///   (`InvalidTransition`);
    /// - [`TzError::TimeZone`] with `InvalidLeapSecond` if the first leap second is before 0, or if
    ///   another one is less than 28 days less a second after the one before it, or does not change
    ///   the correction by one second; the last record may instead repeat the correction, at any
    ///   later time, at which the table expires;
    /// - [`TzError::OutOfRange`] if the last transition takes effect at no instant, or the rule has
    ///   no type at that instant;
    /// - [`TzError::TimeZone`] with `InconsistentExtraRule` if the rule's type there is not that of
    ///   the transition.
    ///
    /// The last two are checked only if there are a rule and a transition, and the last transition
    /// is not before the leap-second table begins.
    pub const fn new(
        transitions: &'a [Transition],
        local_time_types: &'a [LocalTimeType],
        leap_seconds: &'a [LeapSecond],
        extra_rule: &'a Option<TransitionRule>,
    ) -> Result<Self, TzError> {
        let rule = rule_ref(extra_rule);
        let zone_data = match ZoneData::new(transitions, local_time_types, leap_seconds, rule) {
            Ok(value) => value,
            Err(error) => return Err(error),
        };
        Ok(TimeZoneRef {
            zone_data,
            extra_rule,
        })
    }

    /// The zone with parts that are known to make one, and with its least and its greatest offset.
    pub(crate) const fn from_valid_parts(
        transitions: &'a [Transition],
        local_time_types: &'a [LocalTimeType],
        leap_seconds: &'a [LeapSecond],
        extra_rule: &'a Option<TransitionRule>,
        least_offset: i32,
        greatest_offset: i32,
    ) -> Self {
        let zone_data = ZoneData::from_valid_parts(
            transitions,
            local_time_types,
            leap_seconds,
            rule_ref(extra_rule),
            least_offset,
            greatest_offset,
        );
        TimeZoneRef {
            zone_data,
            extra_rule,
        }
    }

    /// The zone of UTC. Does not allocate.
    #[must_use]
    pub const fn utc() -> TimeZoneRef<'static> {
        TimeZoneRef::from_valid_parts(
            &[],
            crate::proved::tz_rule::inner::utc_types(),
            &[],
            crate::proved::tz_rule::inner::no_rule(),
            0,
            0,
        )
    }

    /// The transitions, in order.
    #[must_use]
    pub const fn transitions(&self) -> &'a [Transition] {
        self.zone_data.transitions
    }

    /// The local time types, which the transitions name by their numbers.
    #[must_use]
    pub const fn local_time_types(&self) -> &'a [LocalTimeType] {
        self.zone_data.local_time_types
    }

    /// The leap seconds, in order.
    #[must_use]
    pub const fn leap_seconds(&self) -> &'a [LeapSecond] {
        self.zone_data.leap_seconds
    }

    /// The leap time at which the leap-second table expires: that of a last record that repeats the
    /// correction before it. `None` if there is no such record.
    #[must_use]
    pub fn leap_expiry(&self) -> Option<i64> {
        expiry(self.zone_data.leap_seconds)
    }

    /// The rule from the last transition on.
    #[must_use]
    pub const fn extra_rule(&self) -> &'a Option<TransitionRule> {
        self.extra_rule
    }

    /// The clock's type at an instant, in Unix seconds. (RFC 8536, section 3.2)
    ///
    /// Before the first transition it is type number 0, from there up to the last one it is the
    /// type of the last transition that has been reached, and from the last one on that of the
    /// extra rule. A zone without transitions has the type of its rule, or type number 0 if it has
    /// no rule.
    ///
    /// # Errors
    ///
    /// - [`TzError::NoAvailableLocalTimeType`] if the last transition has taken effect and there is
    ///   no rule;
    /// - [`TzError::OutOfRange`] if the rule is needed and is not defined in that year: an
    ///   alternate rule is defined from the year `i32::MIN + 2` to `i32::MAX - 2` in UTC; or if the
    ///   zone has transitions and the instant has no leap time, because it is before a leap-second
    ///   table that begins late, or because the leap time does not fit an `i64`.
    #[inline(always)]
    pub const fn find_local_time_type(&self, unix_time: i64) -> Result<&'a LocalTimeType, TzError> {
        self.zone_data.find_local_time_type(unix_time)
    }

    /// The clock's type at an instant, and how many transitions were read. The count saturates at
    /// `u64::MAX`.
    ///
    /// # Errors
    ///
    /// Those of [`TimeZoneRef::find_local_time_type`].
    pub fn find_local_time_type_counted(
        &self,
        unix_time: i64,
    ) -> (Result<&'a LocalTimeType, TzError>, u64) {
        let mut view = TransitionView::counted(self.zone_data.transitions);
        let answer = clock::find_local_time_type(&mut view, &self.zone_data, unix_time);
        (answer, view.looks())
    }
}

/// Prints the name of the type and the four parts.
impl fmt::Debug for TimeZoneRef<'_> {
    fn fmt(&self, f: &mut fmt::Formatter<'_>) -> fmt::Result {
        f.debug_struct("TimeZoneRef")
            .field("transitions", &self.zone_data.transitions)
            .field("local_time_types", &self.zone_data.local_time_types)
            .field("leap_seconds", &self.zone_data.leap_seconds)
            .field("extra_rule", &self.extra_rule)
            .finish()
    }
}
