// Generated from crates/tz_rule/src/timezone/mod.rt by bindings/erase: its contracts are cut. Change that file instead.
//! Local time types, rule days and alternate rules.

pub(crate) mod alternate_time;
mod consistency;
pub(crate) mod local_time_type;
pub(crate) mod rule_changes;
pub(crate) mod rule_day;
pub(crate) mod rule_segments;
pub(crate) mod transition_rule;
pub(crate) mod utc_statics;
mod year_table;

pub use alternate_time::AlternateTime;
pub use local_time_type::LocalTimeType;
pub use rule_day::{Julian0WithLeap, Julian1WithoutLeap, MonthWeekDay, RuleDay};
pub use transition_rule::TransitionRule;
