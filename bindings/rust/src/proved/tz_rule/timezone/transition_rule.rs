// Generated from crates/tz_rule/src/timezone/transition_rule.rt by bindings/erase: its contracts are cut. Change that file instead.
//! Transition rules: one type for all time, or an alternate rule.

use super::alternate_time::AlternateData;
use super::rule_segments::RuleSegment;
use super::{AlternateTime, LocalTimeType};
use crate::proved::tz_base::error::TzError;
use core::hash::{Hash, Hasher};

/// The local time of a zone after its last transition.
#[derive(Clone, Copy, Debug)]
pub enum TransitionRule {
    /// One type for all time.
    Fixed(LocalTimeType),
    /// Two types that alternate.
    Alternate(AlternateTime),
}

impl PartialEq for TransitionRule {
    fn eq(&self, other: &TransitionRule) -> bool {
        match (self, other) {
            (TransitionRule::Fixed(a), TransitionRule::Fixed(b)) => a == b,
            (TransitionRule::Alternate(a), TransitionRule::Alternate(b)) => a == b,
            _ => false,
        }
    }
}

impl Eq for TransitionRule {}

impl Hash for TransitionRule {
    fn hash<H: Hasher>(&self, state: &mut H) {
        match self {
            TransitionRule::Fixed(local_time_type) => {
                state.write_u8(0);
                local_time_type.hash(state);
            }
            TransitionRule::Alternate(rule) => {
                state.write_u8(1);
                rule.hash(state);
            }
        }
    }
}

/// A borrowed rule: a fixed type, or the data of an alternate rule.
#[derive(Clone, Copy)]
pub enum RuleRef<'a> {
    /// One type for all time.
    Fixed(&'a LocalTimeType),
    /// Two types that alternate.
    Alternate(&'a AlternateData),
}

impl<'a> RuleRef<'a> {
    /// A reference to a rule.
    #[inline]
    #[must_use]
    pub const fn of(rule: &'a TransitionRule) -> RuleRef<'a> {
        match rule {
            TransitionRule::Fixed(local_time_type) => RuleRef::Fixed(local_time_type),
            TransitionRule::Alternate(rule) => RuleRef::Alternate(AlternateData::of(rule)),
        }
    }
}

/// The segment of the rule around an instant: the first and the last instant through which it has
/// one type, or none.
#[inline(always)]
#[must_use]
pub const fn segment_at<'a>(rule: RuleRef<'a>, unix_time: i64) -> RuleSegment<'a> {
    match rule {
        RuleRef::Fixed(local_time_type) => RuleSegment {
            from: i64::MIN,
            last: i64::MAX,
            local_time_type: Some(local_time_type),
        },
        RuleRef::Alternate(rule) => rule.segment(unix_time),
    }
}

/// The type of the rule at an instant. An alternate rule has one in the UTC years that are two or
/// more from both ends of `i32`.
#[inline]
pub const fn find_local_time_type<'a>(
    rule: RuleRef<'a>,
    unix_time: i64,
) -> Result<&'a LocalTimeType, TzError> {
    match segment_at(rule, unix_time).local_time_type {
        Some(local_time_type) => Ok(local_time_type),
        None => Err(TzError::OutOfRange),
    }
}
