// Generated from crates/tz_c/src/rule_data.rt by bindings/erase: its contracts are cut. Change that file instead.
//! Rules as C has them.

use tz::proved::tz_rule::inner::{AlternateData, RuleRef};
use tz::proved::tz_rule::timezone::{AlternateTime, LocalTimeType, TransitionRule};

/// A rule, or none, in C's layout. What its kind does not use is zero.
#[repr(C)]
#[derive(Clone, Copy)]
pub struct RuleData {
    /// 0: no rule, 1: a fixed type, 2: an alternate rule.
    pub(crate) kind: u32,
    /// The fixed type.
    pub(crate) fixed: LocalTimeType,
    /// The alternate rule.
    pub(crate) alternate: AlternateData,
}

impl RuleData {
    /// The data of a rule, or of none.
    pub(crate) fn of(rule: &Option<TransitionRule>) -> Self {
        match rule {
            None => RuleData {
                kind: 0,
                fixed: LocalTimeType::utc(),
                alternate: AlternateData::zeros(),
            },
            Some(TransitionRule::Fixed(local_time_type)) => RuleData {
                kind: 1,
                fixed: *local_time_type,
                alternate: AlternateData::zeros(),
            },
            Some(TransitionRule::Alternate(rule)) => RuleData {
                kind: 2,
                fixed: LocalTimeType::utc(),
                alternate: *AlternateData::of(rule),
            },
        }
    }
}

/// The rule with the parts of an alternate rule's data.
fn alternate_time_of(rule: &AlternateData) -> AlternateTime {
    rule.parts_are_sound();
    match AlternateTime::new(
        *rule.std(),
        *rule.dst(),
        rule.dst_start().day(),
        rule.dst_start_time(),
        rule.dst_end().day(),
        rule.dst_end_time(),
    ) {
        Ok(rule) => rule,
        Err(_) => unreachable!(),
    }
}

/// A copy of a borrowed rule.
pub(crate) fn rule_of(rule: RuleRef<'_>) -> TransitionRule {
    match rule {
        RuleRef::Fixed(local_time_type) => TransitionRule::Fixed(*local_time_type),
        RuleRef::Alternate(rule) => TransitionRule::Alternate(alternate_time_of(rule)),
    }
}
