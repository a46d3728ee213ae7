// Tests from crates/tz_zone_tests/src/rules.rt by bindings/erase. Change that file instead.
//! Rules: which are refused, and what is printed.

use crate::kit::{self, format_in};
mod consistency;

use crate::erased::tz_samples::rules::Day::{Julian0 as Z, Julian1 as J};
use crate::erased::tz_samples::rules::{RuleRow, rule_of};
use crate::erased::tz_zone_tests::expect::expect_eq;
use crate::kit::process::Abort;
use crate::kit::test::Fail;
use std::fmt::Debug;
use tz::proved::tz_rule::timezone::{LocalTimeType, MonthWeekDay, RuleDay, TransitionRule};
use tz::shim::alloc::{AllocError, Global};

/// The value is shown to programmers as the text.
fn expect_debug(
    rt: &impl Abort,
    alloc: Global,
    value: &impl Debug,
    text: &str,
) -> Result<(), AllocError> {
    let printed = format_in!(alloc; "{value:?}")?;
    expect_eq(rt, &printed.as_str(), &text);
    Ok(())
}

/// What is printed for the rule of a test.
const PRINTED: &str = "AlternateTime { \
    std: LocalTimeType { ut_offset: 0, is_dst: false, time_zone_designation: None }, \
    dst: LocalTimeType { ut_offset: 3600, is_dst: true, time_zone_designation: Some(\"BST\") }, \
    dst_start: Julian1WithoutLeap(Julian1WithoutLeap(59)), dst_start_time: -1, \
    dst_end: Julian0WithLeap(Julian0WithLeap(0)), dst_end_time: 7200 }";

#[test]
fn values_print_their_parts() -> Result<(), Fail> {
    let rt = kit::HostRuntime;

    static SHOWN: RuleRow = (
        (0, false, None),
        (3600, true, Some(b"BST")),
        (J(59), -1),
        (Z(0), 7200),
    );
    let alloc = rt.alloc();
    let made = rule_of(&SHOWN)?;
    expect_debug(&rt, alloc, &made, PRINTED)?;
    let text = format_in!(alloc; "Alternate({PRINTED})")?;
    expect_debug(&rt, alloc, &TransitionRule::Alternate(made), &text)?;
    let fixed = TransitionRule::Fixed(LocalTimeType::utc());
    let text = "Fixed(LocalTimeType { ut_offset: 0, is_dst: false, time_zone_designation: None })";
    expect_debug(&rt, alloc, &fixed, text)?;
    let day = RuleDay::MonthWeekDay(MonthWeekDay::new(3, 5, 0)?);
    let text = "MonthWeekDay(MonthWeekDay { month: 3, week: 5, week_day: 0 })";
    Ok(expect_debug(&rt, alloc, &day, text)?)
}
