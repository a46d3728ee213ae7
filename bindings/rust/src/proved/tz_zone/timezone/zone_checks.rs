// Generated from crates/tz_zone/src/timezone/zone_checks.rt by bindings/erase: its contracts are cut. Change that file instead.
//! The checks of a zone: transitions in order and to types of the zone, its table of leap seconds,
//! and a rule that agrees with the last transition.

use super::{LeapSecond, LocalTimeType, Transition};
use crate::proved::tz_base::error::{TimeZoneError, TzError};
use crate::proved::tz_rule::inner::RuleRef;
use crate::proved::tz_zone::leap::leap_time::effect;
use crate::proved::tz_zone::leap::table_checks::{are_leap_seconds, has_begun_at};

/// Whether the type index of the transition at an index is below `types`, the number of types.
const fn has_type_at(transitions: &[Transition], types: usize, index: usize) -> bool {
    transitions[index].local_time_type_index() < types
}

/// Whether the transition at an index comes before the next one.
const fn rises_at(transitions: &[Transition], index: usize) -> bool {
    if index + 1 == transitions.len() {
        return true;
    }
    transitions[index].unix_leap_time() < transitions[index + 1].unix_leap_time()
}

/// Checks that each transition names one of so many types, and comes before the next one.
const fn check_transitions(transitions: &[Transition], types: usize) -> Result<(), TimeZoneError> {
    {
        let mut i = 0;
        let i_end = transitions.len();
        while i < i_end {
            if !has_type_at(transitions, types, i) {
                return Err(TimeZoneError::InvalidLocalTimeTypeIndex);
            }
            if !rises_at(transitions, i) {
                return Err(TimeZoneError::InvalidTransition);
            }
            i += 1;
        }
    }
    Ok(())
}

/// Checks transitions against the number of types, unless they are known to be sound.
const fn check_unless_sound(
    are_sound: bool,
    transitions: &[Transition],
    types: usize,
) -> Result<(), TimeZoneError> {
    if are_sound {
        return Ok(());
    }
    check_transitions(transitions, types)
}

/// The type that a rule has at the instant at which a leap time takes effect.
const fn rule_type_at<'a>(
    rule: RuleRef<'a>,
    leap_seconds: &[LeapSecond],
    unix_leap_time: i64,
) -> Result<&'a LocalTimeType, TzError> {
    match effect(leap_seconds, unix_leap_time) {
        Ok(unix_time) => crate::proved::tz_rule::inner::find_local_time_type(rule, unix_time),
        Err(error) => Err(error),
    }
}

/// Checks that the extra rule has the last transition's type there, unless the transition is before
/// a truncated start.
#[inline]
const fn check_extra_rule(
    transitions: &[Transition],
    local_time_types: &[LocalTimeType],
    leap_seconds: &[LeapSecond],
    extra_rule: Option<RuleRef<'_>>,
) -> Result<(), TzError> {
    let Some(rule) = extra_rule else {
        return Ok(());
    };
    let Some(last) = transitions.last() else {
        return Ok(());
    };
    let last_time = last.unix_leap_time();
    if !has_begun_at(leap_seconds, last_time) {
        return Ok(());
    }
    let rule_type = match rule_type_at(rule, leap_seconds, last_time) {
        Ok(value) => value,
        Err(error) => return Err(error),
    };
    if !rule_type.is_same(&local_time_types[last.local_time_type_index()]) {
        return Err(TzError::TimeZone(TimeZoneError::InconsistentExtraRule));
    }
    Ok(())
}

/// Checks the parts of a zone, in the order of their errors. If `are_sound`, the transitions are
/// not checked again.
#[inline]
pub(crate) const fn check_parts(
    are_sound: bool,
    transitions: &[Transition],
    local_time_types: &[LocalTimeType],
    leap_seconds: &[LeapSecond],
    extra_rule: Option<RuleRef<'_>>,
) -> Result<(), TzError> {
    if local_time_types.is_empty() {
        return Err(TzError::TimeZone(TimeZoneError::NoLocalTimeType));
    }
    if let Err(error) = check_unless_sound(are_sound, transitions, local_time_types.len()) {
        return Err(TzError::TimeZone(error));
    }
    if !are_leap_seconds(leap_seconds) {
        return Err(TzError::TimeZone(TimeZoneError::InvalidLeapSecond));
    }
    check_extra_rule(transitions, local_time_types, leap_seconds, extra_rule)
}

/// The range of offsets from `least` to `greatest`, widened just enough to hold `offset`.
const fn with_offset(least: i32, greatest: i32, offset: i32) -> (i32, i32) {
    (
        crate::shim::least!(least, offset),
        crate::shim::greatest!(greatest, offset),
    )
}

/// The least and the greatest offset of the types.
const fn offsets_of_types(local_time_types: &[LocalTimeType]) -> (i32, i32) {
    let first = local_time_types[0].ut_offset();
    let (mut least, mut greatest) = (first, first);
    {
        let mut index = 0;
        let index_end = local_time_types.len();
        while index < index_end {
            let ends = with_offset(least, greatest, local_time_types[index].ut_offset());
            least = ends.0;
            greatest = ends.1;
            index += 1;
        }
    }
    (least, greatest)
}

/// The range of offsets from `least` to `greatest`, widened just enough to hold those of the rule.
const fn with_rule(rule: RuleRef<'_>, least: i32, greatest: i32) -> (i32, i32) {
    match rule {
        RuleRef::Fixed(local_time_type) => {
            with_offset(least, greatest, local_time_type.ut_offset())
        }
        RuleRef::Alternate(rule) => {
            let with_std = with_offset(least, greatest, rule.std().ut_offset());
            with_offset(with_std.0, with_std.1, rule.dst().ut_offset())
        }
    }
}

/// The least and the greatest offset of the types and of the rule.
#[inline]
pub(super) const fn offset_range(
    local_time_types: &[LocalTimeType],
    extra_rule: Option<RuleRef<'_>>,
) -> (i32, i32) {
    let (least, greatest) = offsets_of_types(local_time_types);
    match extra_rule {
        Some(rule) => with_rule(rule, least, greatest),
        None => (least, greatest),
    }
}
