// Tests from crates/tz_zone_tests/src/tz_strings.rt by bindings/erase. Change that file instead.
//! TZ strings and the rules that they denote, and texts that are none.

use crate::kit::{self, String, format_in};
mod altered;
mod footers;

use crate::erased::tz_samples::faults::{Fault, named_by_settings};
use crate::erased::tz_samples::tz_strings::{extended_rule, ordinary_rule};
use crate::erased::tz_zone_tests::expect::expect_eq_at;
use crate::kit::process::Abort;
use crate::kit::test::Fail;
use tz::proved::tz_base::error::Error;
use tz::proved::tz_base::error::LocalTimeTypeError::{
    InvalidTimeZoneDesignationChar, InvalidTimeZoneDesignationLength,
};
use tz::proved::tz_base::error::ParseDataError::{InvalidData, UnexpectedEof};
use tz::proved::tz_base::error::TransitionRuleError::{
    InvalidRuleDayJulianDay, InvalidRuleDayMonth, InvalidRuleDayWeek, InvalidRuleDayWeekDay,
};
use tz::proved::tz_base::error::TzStringError::{
    InvalidDayTimeHour, InvalidDayTimeMinute, InvalidDayTimeSecond, InvalidOffsetHour,
    InvalidOffsetMinute, InvalidOffsetSecond, MissingDstStartEndRules, ParseData, RemainingData,
};
use tz::proved::tz_zone::timezone::{LocalTimeType, RuleDay, TransitionRule};
use tz::shim::alloc::{AllocError, Global};

/// The rule that a text denotes.
fn rule_of(alloc: Global, text: &str, extended: bool) -> Result<Option<TransitionRule>, Error> {
    if extended {
        Ok(extended_rule(alloc, text)?)
    } else {
        ordinary_rule(alloc, text)
    }
}

/// The ordinary text is refused so.
fn expect_fault(rt: &impl Abort, alloc: Global, text: &str, fault: &Fault) {
    let found = ordinary_rule(alloc, text).err().map(named_by_settings);
    expect_eq_at(rt, &text, &found.as_ref(), &Some(fault));
}

/// Each ordinary text is refused so.
fn expect_faults(rt: &impl Abort, alloc: Global, rows: &[(&str, Fault)]) {
    for (text, fault) in rows {
        expect_fault(rt, alloc, text, fault);
    }
}

/// What refuses a text, and ordinary texts that are refused so.
type Refusals = (Fault, &'static [&'static str]);

/// All these ordinary texts are refused so.
fn expect_refused(rt: &impl Abort, alloc: Global, rows: &[Refusals]) {
    for (fault, texts) in rows {
        for text in *texts {
            expect_fault(rt, alloc, text, fault);
        }
    }
}

/// Ordinary texts, which denote the same as extended ones, and what they denote: the name and the
/// offset from UTC of each type, and then the day and the time of day of each change, in seconds.
static ORDINARY: &str = "\
A0 | A 0
abcdefg+00:00:01 | abcdefg -1
<+0530>-5:30 | +0530 19800
X24:59:59 | X -89999
X-24:59:59 | X 89999
<-03>+3<+03>-3,J1,J365 | -03 -10800, +03 10800, J1 7200, J365 7200
NZST-12:00:00NZDT-13:00:00,M10.1.0/02:00:00,M3.3.0/02:00:00 | NZST 43200, NZDT 46800, M10.1.0 7200, M3.3.0 7200
IST-1GMT0,M10.5.0,M3.5.0/1 | IST 3600, GMT 0, M10.5.0 7200, M3.5.0 3600
EST5EDT,0/0,J365/24 | EST -18000, EDT -14400, 0 0, J365 86400
STD24:59:59DST,J1,J365 | STD -89999, DST -86399, J1 7200, J365 7200
STD-24:59:59DST,J1,J365 | STD 89999, DST 93599, J1 7200, J365 7200
";

#[test]
fn ordinary_texts_are_rules() -> Result<(), Fail> {
    let rt = kit::HostRuntime;

    expect_rules(&rt, rt.alloc(), ORDINARY, false)?;
    expect_rules(&rt, rt.alloc(), ORDINARY, true)
}

#[test]
fn numbers_are_digits_that_fit() {
    let rt = kit::HostRuntime;

    static ROWS: [Refusals; 1] = [(
        Fault::Number,
        &[
            " ",
            "HST",
            "HST+",
            "HST:",
            "HST1:",
            "HST1:2:",
            "HST 10",
            "HST2147483648",
            "<A>B1",
            "A1B,",
            "A1B,J",
            "A1B,M",
            "A1B,M1.",
            "A1B,M1.1.,0",
            "A1B,J65536,0",
            "A1B,65536,0",
            "A1B,M256.1.1,0",
            "A1B,J1/,0",
            "A1B,J1/+1,0",
            "A1B,J1,",
            "A1B,J1,x",
        ],
    )];
    expect_refused(&rt, rt.alloc(), &ROWS);
}

#[test]
fn numbers_are_in_range() {
    let rt = kit::HostRuntime;

    static ROWS: [(&str, Fault); 16] = [
        ("A25", Fault::Text(InvalidOffsetHour)),
        ("A2147483647", Fault::Text(InvalidOffsetHour)),
        ("A0:60", Fault::Text(InvalidOffsetMinute)),
        ("A0:0:60", Fault::Text(InvalidOffsetSecond)),
        ("A0B25,0,1", Fault::Text(InvalidOffsetHour)),
        ("A0B,0/25,1", Fault::Text(InvalidDayTimeHour)),
        ("A0B,0/0:60,1", Fault::Text(InvalidDayTimeMinute)),
        ("A0B,0,1/0:0:60", Fault::Text(InvalidDayTimeSecond)),
        ("A0B,J0,1", Fault::Rule(InvalidRuleDayJulianDay)),
        ("A0B,J366,1", Fault::Rule(InvalidRuleDayJulianDay)),
        ("A0B,366,1", Fault::Rule(InvalidRuleDayJulianDay)),
        ("A0B,M0.1.0,1", Fault::Rule(InvalidRuleDayMonth)),
        ("A0B,M13.1.0,1", Fault::Rule(InvalidRuleDayMonth)),
        ("A0B,M1.0.0,1", Fault::Rule(InvalidRuleDayWeek)),
        ("A0B,M1.6.0,1", Fault::Rule(InvalidRuleDayWeek)),
        ("A0B,M1.1.7,1", Fault::Rule(InvalidRuleDayWeekDay)),
    ];
    expect_faults(&rt, rt.alloc(), &ROWS);
}

#[test]
fn names_are_designations() {
    let rt = kit::HostRuntime;

    static ROWS: [Refusals; 2] = [
        (
            Fault::Type(InvalidTimeZoneDesignationLength),
            &["5", "<>5", "abcdefgh5", "A5abcdefgh,0,1"],
        ),
        (
            Fault::Type(InvalidTimeZoneDesignationChar),
            &["<A_B>5", "A5<B B>,0,1"],
        ),
    ];
    expect_refused(&rt, rt.alloc(), &ROWS);
}

#[test]
fn bytes_stand_where_they_have_to() {
    let rt = kit::HostRuntime;

    static ROWS: [Refusals; 4] = [
        (
            Fault::Text(ParseData(UnexpectedEof)),
            &[
                "<-03", "<", "A0<B", "A0B,M1", "A0B,M1.1", "A0B,J1", "A0B,J1/1",
            ],
        ),
        (
            Fault::Text(ParseData(InvalidData)),
            &[
                "A0B1;",
                "A0B1x",
                "A0B,M1-1",
                "A0B,M1.1,0",
                "A0B,J1;",
                "A0B,J1/1;",
            ],
        ),
        (
            Fault::Text(MissingDstStartEndRules),
            &["IST-1GMT0", "EET-2EEST", "A0<B>"],
        ),
        (
            Fault::Text(RemainingData),
            &[
                "EST5EDT,M3.2.0,M11.1.0x",
                "EST5EDT,0,J365,",
                "EST5EDT,0,J365/1:2:3:4",
            ],
        ),
    ];
    expect_refused(&rt, rt.alloc(), &ROWS);
}

/// Texts with several faults: names are looked at once the whole text is read, and a number once
/// its time of day is, from the hours on. The answers are those of tz-rs.
#[test]
fn the_first_fault_that_is_met_is_named() {
    let rt = kit::HostRuntime;

    const CUT: Fault = Fault::Text(ParseData(UnexpectedEof));
    static ROWS: [(&str, Fault); 14] = [
        ("<A_B>0C,0", CUT),
        (
            "<A_B>0CCCCCCCC,0,1",
            Fault::Type(InvalidTimeZoneDesignationChar),
        ),
        ("A_B0", Fault::Number),
        ("A25:60:60", Fault::Text(InvalidOffsetHour)),
        ("A25:0:60", Fault::Text(InvalidOffsetHour)),
        ("A0:60:60", Fault::Text(InvalidOffsetMinute)),
        ("A25:60:", Fault::Number),
        ("A25:60:60B", Fault::Text(InvalidOffsetHour)),
        ("A0B25:60:60", Fault::Text(InvalidOffsetHour)),
        ("A0B0:60:60,0,1", Fault::Text(InvalidOffsetMinute)),
        ("A25B25,x", Fault::Text(InvalidOffsetHour)),
        ("A0B,0/25:0:60,1", Fault::Text(InvalidDayTimeHour)),
        ("A0B,0/0:60:60,1", Fault::Text(InvalidDayTimeMinute)),
        ("A0B,M13.6.7,1x", Fault::Rule(InvalidRuleDayMonth)),
    ];
    expect_faults(&rt, rt.alloc(), &ROWS);
}

/// The name of a type, and its offset from UTC in seconds.
fn type_text(alloc: Global, local_time_type: &LocalTimeType) -> Result<String, AllocError> {
    let name = local_time_type.time_zone_designation();
    format_in!(alloc; "{name} {}", local_time_type.ut_offset())
}

/// A day as a TZ string has it, and a time of that day in seconds.
fn change_text(alloc: Global, day: &RuleDay, time: i32) -> Result<String, AllocError> {
    match day {
        RuleDay::Julian1WithoutLeap(day) => format_in!(alloc; "J{} {time}", day.get()),
        RuleDay::Julian0WithLeap(day) => format_in!(alloc; "{} {time}", day.get()),
        RuleDay::MonthWeekDay(day) => {
            format_in!(alloc; "M{}.{}.{} {time}", day.month(), day.week(), day.week_day())
        }
    }
}

/// The types and the changes of a rule.
fn rule_text(alloc: Global, rule: &TransitionRule) -> Result<String, AllocError> {
    match rule {
        TransitionRule::Fixed(local_time_type) => type_text(alloc, local_time_type),
        TransitionRule::Alternate(rule) => {
            let std = type_text(alloc, rule.std())?;
            let dst = type_text(alloc, rule.dst())?;
            let start = change_text(alloc, rule.dst_start(), rule.dst_start_time())?;
            let end = change_text(alloc, rule.dst_end(), rule.dst_end_time())?;
            format_in!(alloc; "{std}, {dst}, {start}, {end}")
        }
    }
}

/// The text of a row, and what it denotes.
fn parts_of(row: &str) -> Result<(&str, &str), Fail> {
    Ok(row.split_once(" | ").ok_or("no ` | ` in a row")?)
}

/// Whether the second of two types is daylight saving time, and no other.
fn has_flags(rule: &TransitionRule) -> bool {
    match rule {
        TransitionRule::Fixed(local_time_type) => !local_time_type.is_dst(),
        TransitionRule::Alternate(rule) => !rule.std().is_dst() && rule.dst().is_dst(),
    }
}

/// The text of each line denotes the rule after ` | `.
fn expect_rules(rt: &impl Abort, alloc: Global, rows: &str, extended: bool) -> Result<(), Fail> {
    for row in rows.lines() {
        let (text, expected) = parts_of(row)?;
        let rule = rule_of(alloc, text, extended)?.ok_or("no rule")?;
        expect_eq_at(rt, &text, &has_flags(&rule), &true);
        let found = rule_text(alloc, &rule)?;
        expect_eq_at(rt, &text, &found.as_str(), &expected);
    }
    Ok(())
}
