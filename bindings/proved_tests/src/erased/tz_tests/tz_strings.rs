// Tests from crates/tz_tests/src/tz_strings.rt by bindings/erase. Change that file instead.
//! TZ strings of rules, each of which is also read back, and a rule that has none.

use crate::erased::tz_samples::footers::{extended_footers, ordinary_footers};
use crate::erased::tz_samples::tz_strings::{extended_rule, ordinary_rule};
use crate::erased::tz_tests::expect::expect_eq;
use crate::kit::process::Abort;
use crate::kit::test::Fail;
use crate::kit::{self, format_in};
use tz::proved::tz::TzString;
use tz::proved::tz_zone::timezone::{LocalTimeType, TransitionRule};
use tz::shim::alloc::Global;

/// The rule that each text denotes as an extended one has this text. As an ordinary text it denotes
/// the same, or nothing.
fn expect_texts_back(
    rt: &impl Abort,
    alloc: Global,
    texts: &str,
    is_ordinary: bool,
) -> Result<(), Fail> {
    for text in texts.lines() {
        let rule = extended_rule(alloc, text)?.ok_or("no rule")?;
        let string = TzString::from_rule(&rule).ok_or("no text")?;
        expect_eq(rt, &string.as_str(), &text);
        let ordinary = ordinary_rule(alloc, text).ok();
        let expected = is_ordinary.then_some(Some(rule));
        expect_eq(rt, &ordinary, &expected);
    }
    Ok(())
}

#[test]
fn ordinary_texts_come_back() -> Result<(), Fail> {
    let rt = kit::HostRuntime;

    static TEXTS: &str = "\
abcDEFG10
<AB>0
<A>-0:01
<A1B>0:00:01
LMT24:59:59
LMT-24:59:59
EST5EDT,0/0,J365/24
<+1030>-10:30<+11>-11,M10.1.0,M4.1.0/24:59:59
STD24:59:59DST,J1,364/2:00:01
STD-24:59:59DST,J1,J365
<AB>0<A>-1:00:01,J60/0:01,260/0:00:01
";
    expect_texts_back(&rt, rt.alloc(), TEXTS, true)
}

#[test]
fn negative_and_late_times_of_day_are_extended() -> Result<(), Fail> {
    let rt = kit::HostRuntime;

    static TEXTS: &str = "\
AAA0BBB,M3.4.4/167:59:59,M10.5.0/-167:59:59
AAA0BBB,M3.4.4/25,M10.5.0/-0:00:01
";
    expect_texts_back(&rt, rt.alloc(), TEXTS, false)
}

/// The text of each row comes back from its rule.
fn expect_rows_back(
    rt: &impl Abort,
    alloc: Global,
    rows: &str,
    is_ordinary: bool,
) -> Result<(), Fail> {
    for row in rows.lines() {
        let (text, _) = row.split_once(" | ").ok_or("no ` | ` in a row")?;
        expect_texts_back(rt, alloc, text, is_ordinary)?;
    }
    Ok(())
}

#[test]
fn footers_come_back() -> Result<(), Fail> {
    let rt = kit::HostRuntime;

    expect_rows_back(&rt, rt.alloc(), ordinary_footers(), true)?;
    expect_rows_back(&rt, rt.alloc(), extended_footers(), false)
}

#[test]
fn a_type_without_a_name_has_no_text() {
    let rt = kit::HostRuntime;

    let rule = TransitionRule::Fixed(LocalTimeType::utc());
    expect_eq(&rt, &TzString::from_rule(&rule).is_none(), &true);
}

#[test]
fn a_string_is_its_text() -> Result<(), Fail> {
    let rt = kit::HostRuntime;

    let rule = extended_rule(rt.alloc(), "CET-1")?.ok_or("no rule")?;
    let string = TzString::from_rule(&rule).ok_or("no text")?;
    let shown = format_in!(rt.alloc(); "{string} {string:9} {string:?}")?;
    expect_eq(&rt, &shown.as_str(), &"CET-1 CET-1 TzString(\"CET-1\")");
    Ok(())
}
