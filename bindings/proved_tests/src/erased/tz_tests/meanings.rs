// Tests from crates/tz_tests/src/meanings.rt by bindings/erase. Change that file instead.
//! What local times mean: how often clocks show them or are set forward over them, and the one date
//! time by each choice.

use crate::erased::tz_samples::tz_strings::extended_zone;
use crate::erased::tz_samples::zones::{CROSSING, plain_zone, two_hours_forward_at, zone_of};
use crate::erased::tz_tests::expect::expect_eq;
use crate::erased::tz_tests::searches::{Reading, name, parts_of};
use crate::kit::process::Abort;
use crate::kit::test::Fail;
use crate::kit::{self, String, format_in};
use crate::utc;
use tz::proved::tz::datetime::{DateTime, Disambiguation, Meaning, UtcDateTime};
use tz::proved::tz_base::error::TzError;
use tz::proved::tz_zone::timezone::{TimeZone, TimeZoneRef};
use tz::shim::alloc::Global;

/// The choices, in the order in which rows have what they choose.
static CHOICES: [Disambiguation; 4] = [
    Disambiguation::Compatible,
    Disambiguation::Earlier,
    Disambiguation::Later,
    Disambiguation::Reject,
];

/// A date time and the name of its type.
fn shown(alloc: Global, date_time: &DateTime) -> Result<String, TzError> {
    let name = name(date_time);
    Ok(format_in!(alloc; "{date_time} {name}")?)
}

/// What a call chooses: a date time, `none`, or why there is no answer.
fn choice_text(
    alloc: Global,
    answer: Result<Option<DateTime>, TzError>,
) -> Result<String, TzError> {
    let text = match answer {
        Ok(Some(date_time)) => return shown(alloc, &date_time),
        Ok(None) => "none",
        Err(TzError::OutOfRange) => "OutOfRange",
        Err(TzError::NoAvailableLocalTimeType) => "NoType",
        Err(error) => return Err(error),
    };
    Ok(String::from_str(alloc, text)?)
}

/// A meaning: its date times or their number, or that there is no answer.
fn meaning_text(alloc: Global, answer: &Result<Meaning, TzError>) -> Result<String, TzError> {
    Ok(match answer {
        Ok(Meaning::Nothing) => String::from_str(alloc, "no meaning")?,
        Ok(Meaning::Once(date_time)) => {
            let only = shown(alloc, date_time)?;
            format_in!(alloc; "once {only}")?
        }
        Ok(Meaning::Twice { first, last }) => format_in!(alloc; "twice {first} {last}")?,
        Ok(Meaning::Skipped {
            before_transition,
            after_transition,
        }) => format_in!(alloc; "skipped {before_transition} {after_transition}")?,
        Ok(Meaning::More(count)) => format_in!(alloc; "more {count}")?,
        Err(_) => String::from_str(alloc, "no list")?,
    })
}

/// What both calls answer to a local time and seven nanoseconds, each answer ended by `;`: the one
/// that takes the fields, and the one that takes them as one value. First its meaning, and then
/// what each choice chooses.
fn texts(
    alloc: Global,
    zone: TimeZoneRef<'_>,
    reading: Reading,
) -> Result<(String, String), TzError> {
    let (year, month, month_day, hour, minute, second) = reading;
    let local = UtcDateTime::new(year, month, month_day, hour, minute, second, 7)?;
    let meaning = DateTime::meaning(year, month, month_day, hour, minute, second, 7, zone);
    let mut by_fields = meaning_text(alloc, &meaning)?;
    let meaning = DateTime::meaning_local(local, zone);
    let mut by_value = meaning_text(alloc, &meaning)?;
    for &choice in CHOICES.iter() {
        let answer = DateTime::find_one(
            year, month, month_day, hour, minute, second, 7, choice, zone,
        );
        by_fields.push(';')?;
        by_fields.push_str(choice_text(alloc, answer)?.as_str())?;
        let answer = DateTime::from_local(local, choice, zone);
        by_value.push(';')?;
        by_value.push_str(choice_text(alloc, answer)?.as_str())?;
    }
    Ok((by_fields, by_value))
}

/// Both calls answer what stands after ` | ` to the local time before it.
fn expect_meaning(
    rt: &impl Abort,
    alloc: Global,
    zone: TimeZoneRef<'_>,
    row: &str,
) -> Result<(), Fail> {
    let (reading, expected) = parts_of(row)?;
    let (by_fields, by_value) = texts(alloc, zone, reading)?;
    expect_eq(rt, &by_fields.as_str(), &expected);
    expect_eq(rt, &by_value, &by_fields);
    Ok(())
}

/// So they do for each row.
fn expect_meanings(
    rt: &impl Abort,
    alloc: Global,
    zone: &TimeZone,
    rows: &str,
) -> Result<(), Fail> {
    for row in rows.lines() {
        expect_meaning(rt, alloc, zone.as_ref(), row)?;
    }
    Ok(())
}

/// Clocks are set forward at 2:00 on March 8th, and back at 2:00 on November 1st. Second 60 reads
/// as the next second, over which clocks may be set forward; what they show elsewhere has no second
/// 60.
#[test]
fn new_york_in_2026() -> Result<(), Fail> {
    let rt = kit::HostRuntime;

    static ROWS: &str = "\
2026-03-08T02:30:00 | skipped 2026-03-08T02:00:00.000000007-05:00 2026-03-08T03:00:00.000000007-04:00;\
    2026-03-08T03:30:00.000000007-04:00 EDT;2026-03-08T01:30:00.000000007-05:00 EST;\
    2026-03-08T03:30:00.000000007-04:00 EDT;none
2026-11-01T01:30:00 | twice 2026-11-01T01:30:00.000000007-04:00 2026-11-01T01:30:00.000000007-05:00;\
    2026-11-01T01:30:00.000000007-04:00 EDT;2026-11-01T01:30:00.000000007-04:00 EDT;\
    2026-11-01T01:30:00.000000007-05:00 EST;none
2026-07-01T12:00:00 | once 2026-07-01T12:00:00.000000007-04:00 EDT;\
    2026-07-01T12:00:00.000000007-04:00 EDT;2026-07-01T12:00:00.000000007-04:00 EDT;\
    2026-07-01T12:00:00.000000007-04:00 EDT;2026-07-01T12:00:00.000000007-04:00 EDT
2026-03-08T01:59:60 | skipped 2026-03-08T02:00:00.000000007-05:00 2026-03-08T03:00:00.000000007-04:00;\
    2026-03-08T03:00:00.000000007-04:00 EDT;2026-03-08T01:00:00.000000007-05:00 EST;\
    2026-03-08T03:00:00.000000007-04:00 EDT;none
2026-03-08T02:59:60 | once 2026-03-08T02:59:60.000000007-04:00 EDT;\
    2026-03-08T02:59:60.000000007-04:00 EDT;2026-03-08T02:59:60.000000007-04:00 EDT;\
    2026-03-08T02:59:60.000000007-04:00 EDT;2026-03-08T02:59:60.000000007-04:00 EDT
2026-11-01T01:30:60 | twice 2026-11-01T01:30:60.000000007-04:00 2026-11-01T01:30:60.000000007-05:00;\
    2026-11-01T01:30:60.000000007-04:00 EDT;2026-11-01T01:30:60.000000007-04:00 EDT;\
    2026-11-01T01:30:60.000000007-05:00 EST;none
";
    let zone = extended_zone(rt.alloc(), "EST5EDT,M3.2.0,M11.1.0")?;
    expect_meanings(&rt, rt.alloc(), &zone, ROWS)
}

/// Clocks are set forward at 2:00, over 2:45, and back at 3:30, and so come to show it.
#[test]
fn a_local_time_that_is_jumped_over_and_then_shown() -> Result<(), Fail> {
    let rt = kit::HostRuntime;

    static ROW: &str = "2000-01-01T02:45:00 | more 2;\
        2000-01-01T02:45:00.000000007Z AAA;2000-01-01T01:45:00.000000007Z AAA;2000-01-01T02:45:00.000000007Z AAA;none";
    let zone = extended_zone(rt.alloc(), "AAA0BBB,J1/2,J1/3:30")?;
    expect_meanings(&rt, rt.alloc(), &zone, ROW)
}

/// Clocks show a local time three times; are set forward over one and then show it twice; show one
/// once between two jumps; show one twice before a jump; and have no type any more.
#[test]
fn three_instants_and_jumps() -> Result<(), Fail> {
    let rt = kit::HostRuntime;

    static ROWS: &str = "\
1970-01-01T01:30:00 | more 3;\
    1970-01-01T01:30:00.000000007Z -;1970-01-01T01:30:00.000000007Z -;1970-01-01T01:30:00.000000007-05:30 -;none
1970-01-01T02:00:00 | more 3;\
    1970-01-01T02:00:00.000000007-03:00 -;1970-01-01T01:00:00.000000007Z -;1970-01-01T02:00:00.000000007-05:30 -;none
1970-01-01T02:45:00 | more 3;\
    1970-01-01T02:45:00.000000007-03:00 -;1970-01-01T01:45:00.000000007Z -;1970-01-01T03:45:00.000000007-04:30 -;none
1970-01-01T03:00:00 | more 3;\
    1970-01-01T03:00:00.000000007+01:00 -;1970-01-01T03:00:00.000000007+01:00 -;1970-01-01T04:00:00.000000007-04:30 -;none
1970-01-01T23:59:00 | no meaning;none;none;none;none
";
    let zone = zone_of(rt.alloc(), &CROSSING)?;
    expect_meanings(&rt, rt.alloc(), &zone, ROWS)
}

/// Clocks are set forward over 2:30 twice, and never show it.
#[test]
fn two_jumps_alone() -> Result<(), Fail> {
    let rt = kit::HostRuntime;

    static TRANSITIONS: [(i64, usize); 3] = [(7200, 1), (14_400, 2), (16_200, 3)];
    static ROW: &str = "1970-01-01T02:30:00 | more 2;\
        1970-01-01T04:30:00.000000007-01:00 -;1970-01-01T01:30:00.000000007Z -;1970-01-01T04:30:00.000000007-01:00 -;none";
    let zone = plain_zone(
        rt.alloc(),
        &[0, 3600, -10_800, -3600],
        &TRANSITIONS,
        Some(-3600),
    )?;
    expect_meanings(&rt, rt.alloc(), &zone, ROW)
}

/// What the clock shows at the instant that is meant lies past an end of the years of 32 bits, or
/// the jump itself does, and then there is no list.
#[test]
fn jumps_near_the_ends() -> Result<(), Fail> {
    let rt = kit::HostRuntime;

    // When clocks of UTC are set two hours forward.
    static ROWS: [(i64, &str); 4] = [
        (
            utc!(2147483647-12-31 21:30:00),
            "2147483647-12-31T23:00:00 | \
             skipped 2147483647-12-31T21:30:00.000000007Z 2147483647-12-31T23:30:00.000000007+02:00;\
             OutOfRange;2147483647-12-31T21:00:00.000000007Z -;OutOfRange;none",
        ),
        (
            utc!(-2147483648-01-01 00:30:00),
            "-2147483648-01-01T01:00:00 | \
             skipped -2147483648-01-01T00:30:00.000000007Z -2147483648-01-01T02:30:00.000000007+02:00;\
             -2147483648-01-01T03:00:00.000000007+02:00 -;OutOfRange;-2147483648-01-01T03:00:00.000000007+02:00 -;none",
        ),
        (
            utc!(-2147483649-12-31 23:00:00),
            "-2147483648-01-01T00:30:00 | no list;OutOfRange;OutOfRange;OutOfRange;OutOfRange",
        ),
        (
            utc!(2147483647-12-31 23:00:00),
            "2147483647-12-31T23:30:00 | no list;OutOfRange;OutOfRange;OutOfRange;OutOfRange",
        ),
    ];
    for (forward, row) in &ROWS {
        let zone = two_hours_forward_at(rt.alloc(), *forward)?;
        expect_meanings(&rt, rt.alloc(), &zone, row)?;
    }
    Ok(())
}

/// Clocks are set forward from 2:00 to 3:00, and have no type from 3:13:20 on.
#[test]
fn the_clock_has_no_type_at_the_instant_that_is_meant() -> Result<(), Fail> {
    let rt = kit::HostRuntime;

    static ROW: &str = "1970-01-01T02:30:00 | \
        skipped 1970-01-01T02:00:00.000000007Z 1970-01-01T03:00:00.000000007+01:00;\
        NoType;1970-01-01T01:30:00.000000007Z -;NoType;none";
    let zone = plain_zone(rt.alloc(), &[0, 3600], &[(7200, 1), (8000, 0)], None)?;
    expect_meanings(&rt, rt.alloc(), &zone, ROW)
}

/// What a clock shows once is what is meant, whichever year it is in UTC.
#[test]
fn date_times_past_the_ends_of_utc() -> Result<(), Fail> {
    let rt = kit::HostRuntime;

    static ROWS: [(i32, &str, &str); 2] = [
        (3600, "-2147483648-01-01T00:30:00", "+01:00"),
        (-3600, "2147483647-12-31T23:30:00", "-01:00"),
    ];
    for (ut_offset, local, offset) in &ROWS {
        let zone = TimeZone::fixed(rt.alloc(), *ut_offset)?;
        let shown = format_in!(rt.alloc(); "{local}.000000007{offset} -")?;
        let row = format_in!(rt.alloc(); "{local} | once {shown};{shown};{shown};{shown};{shown}")?;
        expect_meanings(&rt, rt.alloc(), &zone, row.as_str())?;
    }
    const PAST_ALL_YEARS: i64 = utc!(2147483648-01-01 00:00:00);
    let utc = TimeZoneRef::utc();
    for &choice in CHOICES.iter() {
        let last = DateTime::find_one(i32::MAX, 12, 31, 23, 59, 60, 0, choice, utc)?;
        let last = last.map(|date_time| (date_time.unix_time(), date_time.second()));
        expect_eq(&rt, &last, &Some((PAST_ALL_YEARS, 60)));
    }
    Ok(())
}
