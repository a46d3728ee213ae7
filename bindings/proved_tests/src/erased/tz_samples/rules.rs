// Tests from crates/tz_samples/src/rules.rt by bindings/erase. Change that file instead.
//! Rules and their parts as rows of tables, and the rule of Central Europe.
//!
//! No proof walks through a static, which holds no type with a model, such as a rule. So tables of
//! tests hold these rows, and functions make of them what they stand for.

use tz::proved::tz_base::error::{TransitionRuleError, TzError};
use tz::proved::tz_rule::timezone::{
    AlternateTime, Julian0WithLeap, Julian1WithoutLeap, LocalTimeType, MonthWeekDay, RuleDay,
};

/// The offset of a local time type in seconds, whether it is daylight saving time, and its name.
pub type TypeRow = (i32, bool, Option<&'static [u8]>);

/// A day on which time changes.
#[derive(Clone, Copy, Debug)]
pub enum Day {
    /// The n-th day of a year, where February 29th is not counted.
    Julian1(u16),
    /// n days after January 1st.
    Julian0(u16),
    /// A week day of a month: the month, the week and the day.
    Month(u8, u8, u8),
}

/// The types of standard time and of daylight saving time, and the days and times of day in seconds
/// at which the latter starts and ends.
pub type RuleRow = (TypeRow, TypeRow, (Day, i32), (Day, i32));

/// The local time type of a row.
pub fn type_of(row: &TypeRow) -> Result<LocalTimeType, TzError> {
    let (ut_offset, is_dst, name) = *row;
    Ok(LocalTimeType::new(ut_offset, is_dst, name)?)
}

/// The day of a rule.
pub fn day_of(day: Day) -> Result<RuleDay, TransitionRuleError> {
    Ok(match day {
        Day::Julian1(day) => RuleDay::Julian1WithoutLeap(Julian1WithoutLeap::new(day)?),
        Day::Julian0(day) => RuleDay::Julian0WithLeap(Julian0WithLeap::new(day)?),
        Day::Month(month, week, week_day) => {
            RuleDay::MonthWeekDay(MonthWeekDay::new(month, week, week_day)?)
        }
    })
}

/// The rule of a row.
pub fn rule_of(row: &RuleRow) -> Result<AlternateTime, TzError> {
    let (std, dst, (start, start_time), (end, end_time)) = row;
    let (std, dst) = (type_of(std)?, type_of(dst)?);
    let (start, end) = (day_of(*start)?, day_of(*end)?);
    let rule = AlternateTime::new(std, dst, start, *start_time, end, *end_time)?;
    Ok(rule)
}

/// The standard and the daylight type of Central Europe, and the days and times of day at which the
/// latter starts and ends.
static CENTRAL_EUROPE: RuleRow = (
    (3600, false, Some(b"CET")),
    (7200, true, Some(b"CEST")),
    (Day::Month(3, 5, 0), 7200),
    (Day::Month(10, 5, 0), 10_800),
);

/// The rule of `CET-1CEST,M3.5.0,M10.5.0/3`.
pub fn central_europe() -> Result<AlternateTime, TzError> {
    rule_of(&CENTRAL_EUROPE)
}
