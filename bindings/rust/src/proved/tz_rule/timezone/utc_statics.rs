//! By hand, in the place of crates/tz_rule/src/timezone/utc_statics.rt: statics of Rust may hold any type.

use super::{LocalTimeType, TransitionRule};
use core::slice;

static UTC_TYPE: LocalTimeType = LocalTimeType::utc();

static NO_RULE: Option<TransitionRule> = None;

/// The list that has UTC's type alone.
pub const fn utc_types() -> &'static [LocalTimeType] {
    slice::from_ref(&UTC_TYPE)
}

/// No extra rule.
pub const fn no_rule() -> &'static Option<TransitionRule> {
    &NO_RULE
}
