// Generated from crates/tz_rule/src/inner.rt by bindings/erase: its contracts are cut. Change that file instead.
//! For the crates above and their tests, and not part of the public API: references to rules and
//! what is asked of them, rules as plain data, and the parts of UTC's zone.

#[cfg(feature = "inner")]
pub use crate::proved::tz_rule::timezone::alternate_time::AlternateData;
pub use crate::proved::tz_rule::timezone::local_time_type::designation_bytes;
#[cfg(feature = "inner")]
pub use crate::proved::tz_rule::timezone::rule_changes::RuleChange;
pub use crate::proved::tz_rule::timezone::rule_changes::{change_after, change_up_to};
#[cfg(feature = "inner")]
pub use crate::proved::tz_rule::timezone::rule_day::DayData;
pub use crate::proved::tz_rule::timezone::transition_rule::{
    RuleRef, find_local_time_type, segment_at,
};
pub use crate::proved::tz_rule::timezone::utc_statics::{no_rule, utc_types};
