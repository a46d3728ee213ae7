// Generated from crates/tz_zone/src/timezone/zone.rt by bindings/erase: its contracts are cut. Change that file instead.
//! Time zones that own their parts. `TimeZone::from_tz_data` is in `parse/tz_file.rt`, zones are
//! opened by settings and names in `settings.rt`, and changes are in `changes.rt`.

#[cfg(feature = "alloc")]
use super::zone_checks::{check_parts, offset_range};
#[cfg(feature = "alloc")]
use super::zone_data::rule_ref;
#[cfg(feature = "alloc")]
use super::{LeapSecond, LocalTimeType, TimeZoneRef, Transition, TransitionRule};
#[cfg(feature = "alloc")]
use crate::proved::tz_base::error::TzError;
#[cfg(feature = "alloc")]
use crate::shim::Vec;
#[cfg(feature = "alloc")]
use crate::shim::alloc::{Allocator, Global};
#[cfg(feature = "alloc")]
use core::fmt;
#[cfg(feature = "alloc")]
use core::hash::{Hash, Hasher};

/// A time zone that owns its parts, on one allocator.
#[cfg(feature = "alloc")]
pub struct TimeZone<A: Allocator + Copy = Global> {
    transitions: Vec<Transition, A>,
    local_time_types: Vec<LocalTimeType, A>,
    leap_seconds: Vec<LeapSecond, A>,
    extra_rule: Option<TransitionRule>,
    least_offset: i32,
    greatest_offset: i32,
}

#[cfg(feature = "alloc")]
impl<A: Allocator + Copy> PartialEq for TimeZone<A> {
    fn eq(&self, other: &TimeZone<A>) -> bool {
        self.as_ref() == other.as_ref()
    }
}

#[cfg(feature = "alloc")]
impl<A: Allocator + Copy> Eq for TimeZone<A> {}

#[cfg(feature = "alloc")]
impl<A: Allocator + Copy> Hash for TimeZone<A> {
    fn hash<H: Hasher>(&self, state: &mut H) {
        self.as_ref().hash(state);
    }
}

#[cfg(feature = "alloc")]
impl<A: Allocator + Copy> TimeZone<A> {
    /// The zone with these parts. (RFC 8536, section 3.2)
    ///
    /// A zone with a rule and no transitions:
    ///
    /// ```text
    /// pub fn zone_of_rule(alloc: Global, rule: AlternateTime) -> Result<TimeZone, TzError> {
    ///     let types = Vec::from_array(alloc, [*rule.std(), *rule.dst()])?;
    ///     let rule = Some(TransitionRule::Alternate(rule));
    ///     TimeZone::new(Vec::new(alloc), types, Vec::new(alloc), rule)
    /// }
    /// ```
    ///
    /// # Errors
    ///
    /// The first of these:
    ///
    /// - [`TzError::TimeZone`] with `NoLocalTimeType` if there is no local time type;
    /// - [`TzError::TimeZone`] for the first transition that names no type
    ///   (`InvalidLocalTimeTypeIndex`), or that names one and is not before the next transition
    ///   (`InvalidTransition`);
    /// - [`TzError::TimeZone`] with `InvalidLeapSecond` if the first leap second is before 0, or if
    ///   another one is less than 28 days less a second after the one before it, or does not change
    ///   the correction by one second; the last record may instead repeat the correction, at any
    ///   later time, at which the table expires;
    /// - [`TzError::OutOfRange`] if the last transition takes effect at no instant, or the rule has
    ///   no type at that instant;
    /// - [`TzError::TimeZone`] with `InconsistentExtraRule` if the rule's type there is not that of
    ///   the transition.
    ///
    /// The last two are checked only if there are a rule and a transition, and the last transition
    /// is not before the leap-second table begins. On an error the lists are dropped.
    #[inline]
    pub fn new(
        transitions: Vec<Transition, A>,
        local_time_types: Vec<LocalTimeType, A>,
        leap_seconds: Vec<LeapSecond, A>,
        extra_rule: Option<TransitionRule>,
    ) -> Result<Self, TzError> {
        TimeZone::with_transitions(
            false,
            transitions,
            local_time_types,
            leap_seconds,
            extra_rule,
        )
    }

    /// The zone with these parts. If `are_sound`, the transitions are not checked again.
    #[inline]
    pub(crate) fn with_transitions(
        are_sound: bool,
        transitions: Vec<Transition, A>,
        local_time_types: Vec<LocalTimeType, A>,
        leap_seconds: Vec<LeapSecond, A>,
        extra_rule: Option<TransitionRule>,
    ) -> Result<Self, TzError> {
        check_parts(
            are_sound,
            &transitions,
            &local_time_types,
            &leap_seconds,
            rule_ref(&extra_rule),
        )?;
        let (least_offset, greatest_offset) =
            offset_range(&local_time_types, rule_ref(&extra_rule));
        Ok(TimeZone {
            transitions,
            local_time_types,
            leap_seconds,
            extra_rule,
            least_offset,
            greatest_offset,
        })
    }

    /// The zone that has UTC's type alone. [`TimeZoneRef::utc`] makes it without allocating.
    ///
    /// # Errors
    ///
    /// [`TzError::Memory`] if an allocation fails.
    #[cfg(feature = "inner")]
    pub fn utc(alloc: A) -> Result<Self, TzError> {
        TimeZone::with_type(alloc, LocalTimeType::utc())
    }

    /// The zone that has one type alone, with this offset from UTC in seconds.
    ///
    /// # Errors
    ///
    /// - [`TzError::LocalTimeType`] with `InvalidUtcOffset` if the offset is `i32::MIN`, which is
    ///   checked before anything is allocated;
    /// - [`TzError::Memory`] if an allocation fails.
    #[cfg(feature = "inner")]
    pub fn fixed(alloc: A, ut_offset: i32) -> Result<Self, TzError> {
        let local_time_type = LocalTimeType::with_ut_offset(ut_offset)?;
        TimeZone::with_type(alloc, local_time_type)
    }

    /// The zone that has one type alone.
    #[cfg(feature = "inner")]
    fn with_type(alloc: A, local_time_type: LocalTimeType) -> Result<Self, TzError> {
        let ut_offset = local_time_type.ut_offset();
        let local_time_types = Vec::from_array(alloc, [local_time_type])?;
        Ok(TimeZone {
            transitions: Vec::new(alloc),
            local_time_types,
            leap_seconds: Vec::new(alloc),
            extra_rule: None,
            least_offset: ut_offset,
            greatest_offset: ut_offset,
        })
    }

    /// A copy of the zone, on the same allocator.
    ///
    /// # Errors
    ///
    /// [`TzError::Memory`] if an allocation fails.
    pub fn try_clone(&self) -> Result<Self, TzError> {
        let transitions = self.transitions.clone()?;
        let local_time_types = self.local_time_types.clone()?;
        let leap_seconds = self.leap_seconds.clone()?;
        Ok(TimeZone {
            transitions,
            local_time_types,
            leap_seconds,
            extra_rule: self.extra_rule,
            least_offset: self.least_offset,
            greatest_offset: self.greatest_offset,
        })
    }

    /// The zone, borrowed.
    #[must_use]
    pub fn as_ref(&self) -> TimeZoneRef<'_> {
        TimeZoneRef::from_valid_parts(
            &self.transitions,
            &self.local_time_types,
            &self.leap_seconds,
            &self.extra_rule,
            self.least_offset,
            self.greatest_offset,
        )
    }

    /// The clock's type at an instant, in Unix seconds. (RFC 8536, section 3.2)
    ///
    /// Before the first transition it is type number 0, from there up to the last one it is the
    /// type of the last transition that has been reached, and from the last one on that of the
    /// extra rule. A zone without transitions has the type of its rule, or type number 0 if it has
    /// no rule.
    ///
    /// # Errors
    ///
    /// - [`TzError::NoAvailableLocalTimeType`] if the last transition has taken effect and there is
    ///   no rule;
    /// - [`TzError::OutOfRange`] if the rule is needed and is not defined in that year: an
    ///   alternate rule is defined from the year `i32::MIN + 2` to `i32::MAX - 2` in UTC; or if the
    ///   zone has transitions and the instant has no leap time, because it is before a leap-second
    ///   table that begins late, or because the leap time does not fit an `i64`.
    pub fn find_local_time_type(&self, unix_time: i64) -> Result<&LocalTimeType, TzError> {
        self.as_ref().find_local_time_type(unix_time)
    }

    /// The clock's type at the current time, which the caller passes as Unix seconds.
    ///
    /// # Errors
    ///
    /// Those of [`TimeZone::find_local_time_type`].
    #[cfg(feature = "inner")]
    pub fn find_current_local_time_type(&self, unix_time: i64) -> Result<&LocalTimeType, TzError> {
        self.find_local_time_type(unix_time)
    }
}

/// Prints the name of the type and the four parts.
#[cfg(feature = "alloc")]
impl<A: Allocator + Copy> fmt::Debug for TimeZone<A> {
    fn fmt(&self, f: &mut fmt::Formatter<'_>) -> fmt::Result {
        f.debug_struct("TimeZone")
            .field("transitions", &self.transitions)
            .field("local_time_types", &self.local_time_types)
            .field("leap_seconds", &self.leap_seconds)
            .field("extra_rule", &self.extra_rule)
            .finish()
    }
}
