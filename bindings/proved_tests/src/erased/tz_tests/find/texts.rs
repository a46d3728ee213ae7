// Tests from crates/tz_tests/src/find/texts.rt by bindings/erase. Change that file instead.
//! Searches whose entries are compared as texts, with their fields and the names of their types.

use super::*;
use crate::erased::tz_samples::files::JERUSALEM_V3;
use crate::erased::tz_samples::tz_strings::extended_zone;
use crate::erased::tz_samples::zones::ONE_EFFECT;
use crate::erased::tz_tests::expect::expect_eq;
use crate::erased::tz_tests::searches::name;
use crate::kit::{self, String, format_in};

/// An entry: its Unix time, and the text and the name of each side.
fn text_of(alloc: Global, kind: &FoundDateTimeKind) -> Result<String, AllocError> {
    match kind {
        FoundDateTimeKind::Normal(date_time) => {
            let unix_time = date_time.unix_time();
            let name = name(date_time);
            format_in!(alloc; "N {unix_time} {date_time} {name};")
        }
        FoundDateTimeKind::Skipped {
            before_transition,
            after_transition,
        } => {
            let unix_time = before_transition.unix_time();
            let before = name(before_transition);
            let after = name(after_transition);
            format_in!(alloc;
                "S {unix_time} {before_transition} {before} {after_transition} {after};"
            )
        }
    }
}

/// What `find` finds of a reading and seven nanoseconds, each entry ended by `;`.
fn texts(alloc: Global, zone: TimeZoneRef<'_>, reading: Reading) -> Result<String, TzError> {
    let (year, month, month_day, hour, minute, second) = reading;
    let list = kit::find(alloc, year, month, month_day, hour, minute, second, 7, zone)?;
    let mut text = String::new(alloc);
    for kind in list.into_inner().iter() {
        text.push_str(text_of(alloc, kind)?.as_str())?;
    }
    Ok(text)
}

/// What `find_n` finds of a reading and seven nanoseconds, in three slots.
fn texts_of_slots(
    alloc: Global,
    zone: TimeZoneRef<'_>,
    reading: Reading,
) -> Result<String, TzError> {
    let (year, month, month_day, hour, minute, second) = reading;
    let mut buf = [None, None, None];
    let list = DateTime::find_n(
        &mut buf, year, month, month_day, hour, minute, second, 7, zone,
    )?;
    let mut text = String::new(alloc);
    for slot in list.data() {
        let Some(kind) = slot else {
            continue;
        };
        text.push_str(text_of(alloc, kind)?.as_str())?;
    }
    Ok(text)
}

/// The searches find the text.
pub(super) fn expect_text_at(
    rt: &impl Abort,
    alloc: Global,
    zone: TimeZoneRef<'_>,
    reading: Reading,
    expected: &str,
) -> Result<(), TzError> {
    expect_eq(rt, &texts(alloc, zone, reading)?.as_str(), &expected);
    let in_slots = texts_of_slots(alloc, zone, reading)?;
    expect_eq(rt, &in_slots.as_str(), &expected);
    Ok(())
}

/// The searches find the text after ` | ` of the local time before it.
pub(super) fn expect_text(
    rt: &impl Abort,
    alloc: Global,
    zone: TimeZoneRef<'_>,
    row: &str,
) -> Result<(), Fail> {
    let (reading, expected) = parts_of(row)?;
    expect_text_at(rt, alloc, zone, reading, expected)?;
    Ok(())
}

/// The searches find the text of each row.
pub(super) fn expect_texts(
    rt: &impl Abort,
    alloc: Global,
    zone: TimeZoneRef<'_>,
    rows: &str,
) -> Result<(), Fail> {
    for row in rows.lines() {
        expect_text(rt, alloc, zone, row)?;
    }
    Ok(())
}

/// They find them in the zone of a TZ string.
pub(super) fn expect_texts_by_rule(
    rt: &impl Abort,
    alloc: Global,
    rule: &str,
    rows: &str,
) -> Result<(), Fail> {
    let zone = extended_zone(alloc, rule)?;
    expect_texts(rt, alloc, zone.as_ref(), rows)
}

/// They find them in the zone of the row.
pub(super) fn expect_texts_in(
    rt: &impl Abort,
    alloc: Global,
    row: &ZoneRow,
    rows: &str,
) -> Result<(), Fail> {
    let zone = zone_of(alloc, row)?;
    expect_texts(rt, alloc, zone.as_ref(), rows)
}

#[test]
fn an_hour_left_out_and_an_hour_twice() -> Result<(), Fail> {
    let rt = kit::HostRuntime;

    static ROWS: &str = "\
2000-03-26T02:30:00 | S 954032400 2000-03-26T02:00:00.000000007+01:00 CET 2000-03-26T03:00:00.000000007+02:00 CEST;
2000-10-29T02:30:00 | N 972779400 2000-10-29T02:30:00.000000007+02:00 CEST;N 972783000 2000-10-29T02:30:00.000000007+01:00 CET;
2400-03-26T02:30:00 | S 13576813200 2400-03-26T02:00:00.000000007+01:00 CET 2400-03-26T03:00:00.000000007+02:00 CEST;
";
    expect_texts_by_rule(&rt, rt.alloc(), "CET-1CEST,M3.5.0,M10.5.0/3", ROWS)
}

#[test]
fn transitions_of_a_day() -> Result<(), Fail> {
    let rt = kit::HostRuntime;

    static ZONE: ZoneRow = ZoneRow {
        types: &[(0, false, Some(b"STD")), (3600, true, Some(b"DST"))],
        transitions: &[(3600, 1), (86_400, 0), (i64::MAX, 0)],
        leap_seconds: &[],
        extra_rule: None,
    };
    static ROWS: &str = "\
1970-01-02T00:30:00 | N 84600 1970-01-02T00:30:00.000000007+01:00 DST;N 88200 1970-01-02T00:30:00.000000007Z STD;
1970-01-01T01:30:00 | S 3600 1970-01-01T01:00:00.000000007Z STD 1970-01-01T02:00:00.000000007+01:00 DST;
";
    expect_texts_in(&rt, rt.alloc(), &ZONE, ROWS)
}

#[test]
fn jumps_that_cross() -> Result<(), Fail> {
    let rt = kit::HostRuntime;

    static ROWS: &str = "\
1970-01-01T02:30:00 | S 7200 1970-01-01T02:00:00.000000007Z - 1970-01-01T03:00:00.000000007+01:00 -;\
    N 19800 1970-01-01T02:30:00.000000007-03:00 -;\
    S 28800 1970-01-01T02:30:00.000000007-05:30 - 1970-01-01T03:30:00.000000007-04:30 -;
1970-01-01T05:00:00 | nothing
";
    expect_texts_in(&rt, rt.alloc(), &CROSSING, ROWS)
}

#[test]
fn a_jump_over_years() -> Result<(), Fail> {
    let rt = kit::HostRuntime;

    static ROWS: &str = "\
1970-01-01T03:30:00 | S 3600 1970-01-01T01:00:00.000000007Z - 2038-01-19T04:14:07.000000007+596523:14:07 -;\
    S 10800 1970-01-01T03:00:00.000000007Z - 1970-01-01T04:00:00.000000007+01:00 -;
";
    expect_texts_in(&rt, rt.alloc(), &FAR_OFFSET, ROWS)
}

#[test]
fn two_transitions_at_one_instant() -> Result<(), Fail> {
    let rt = kit::HostRuntime;

    static ROWS: &str = "\
1970-01-01T01:08:20 | S 100 1970-01-01T00:01:40.000000007Z - 1970-01-01T02:01:40.000000007+02:00 -;
";
    expect_texts_in(&rt, rt.alloc(), &ONE_EFFECT, ROWS)
}

#[test]
fn second_60_is_printed() -> Result<(), Fail> {
    let rt = kit::HostRuntime;

    static ROWS: &str = "\
2016-12-31T23:59:60 | N 1483228800 2016-12-31T23:59:60.000000007Z -;
";
    expect_texts(&rt, rt.alloc(), TimeZoneRef::utc(), ROWS)
}

/// Transitions and a rule with types of one offset, told apart by their names.
#[test]
fn types_of_one_offset() -> Result<(), Fail> {
    let rt = kit::HostRuntime;

    const STANDARD: TypeRow = (0, false, Some(b"STD2"));
    const DAYLIGHT: TypeRow = (0, true, Some(b"DST2"));
    static ZONE: ZoneRow = ZoneRow {
        types: &[
            (0, false, Some(b"STD1")),
            (0, true, Some(b"DST1")),
            STANDARD,
            DAYLIGHT,
        ],
        transitions: &[(3600, 1), (7200, 2)],
        leap_seconds: &[],
        extra_rule: Some(ExtraRule::Alternate((
            STANDARD,
            DAYLIGHT,
            (Day::Julian0(0), 10_800),
            (Day::Julian0(0), 14_400),
        ))),
    };
    static ROWS: &str = "\
1970-01-01T00:30:00 | N 1800 1970-01-01T00:30:00.000000007Z STD1;
1970-01-01T01:30:00 | N 5400 1970-01-01T01:30:00.000000007Z DST1;
1970-01-01T02:30:00 | N 9000 1970-01-01T02:30:00.000000007Z STD2;
1970-01-01T03:30:00 | N 12600 1970-01-01T03:30:00.000000007Z DST2;
1970-01-01T04:30:00 | N 16200 1970-01-01T04:30:00.000000007Z STD2;
";
    expect_texts_in(&rt, rt.alloc(), &ZONE, ROWS)
}

#[test]
fn a_rule_of_a_file() -> Result<(), Fail> {
    let rt = kit::HostRuntime;

    static ROWS: &str = "\
2040-03-23T02:30:00 | S 2216073600 2040-03-23T02:00:00.000000007+02:00 IST 2040-03-23T03:00:00.000000007+03:00 IDT;
2037-07-01T00:00:00 | N 2130012000 2037-07-01T00:00:00.000000007+02:00 IST;
";
    let zone = TimeZone::from_tz_data(rt.alloc(), JERUSALEM_V3)?;
    expect_texts(&rt, rt.alloc(), zone.as_ref(), ROWS)
}

#[test]
fn a_rule_for_all_the_year() -> Result<(), Fail> {
    let rt = kit::HostRuntime;

    static ROWS: &str = "\
2000-01-01T00:30:00 | N 946701000 2000-01-01T00:30:00.000000007-04:00 EDT;
";
    expect_texts_by_rule(&rt, rt.alloc(), "EST5EDT,0/0,J365/25", ROWS)?;
    // Each end comes a day after the next start.
    static OVERLAPPED: &str = "\
2001-01-01T00:30:00 | N 978305400 2001-01-01T00:30:00.000000007+01:00 B;
";
    expect_texts_by_rule(&rt, rt.alloc(), "A0B,J1/0,J365/48", OVERLAPPED)
}

/// Each end that belongs to a start comes one second before it, so no daylight saving time has any
/// length.
#[test]
fn a_rule_with_empty_spans() -> Result<(), Fail> {
    let rt = kit::HostRuntime;

    static ROWS: &str = "\
2001-01-01T00:59:58 | N 978310798 2001-01-01T00:59:58.000000007Z A;
2001-01-01T00:59:59 | N 978310799 2001-01-01T00:59:59.000000007Z A;
2001-01-01T01:30:00 | N 978312600 2001-01-01T01:30:00.000000007Z A;
2001-01-01T01:59:58 | N 978314398 2001-01-01T01:59:58.000000007Z A;
2001-01-01T01:59:59 | N 978314399 2001-01-01T01:59:59.000000007Z A;
2000-07-01T00:00:00 | N 962409600 2000-07-01T00:00:00.000000007Z A;
";
    expect_texts_by_rule(&rt, rt.alloc(), "A0B,J365/24:59:59,0/1:59:58", ROWS)
}

/// Each end comes an hour after the next start, so daylight saving time never ends.
#[test]
fn a_rule_with_overlapping_spans() -> Result<(), Fail> {
    let rt = kit::HostRuntime;

    static ROWS: &str = "\
2000-12-31T23:59:59 | N 978307199 2000-12-31T23:59:59.000000007Z B;
2000-12-31T23:59:60 | N 978307200 2000-12-31T23:59:60.000000007Z B;
2001-01-01T00:00:00 | N 978307200 2001-01-01T00:00:00.000000007Z B;
2001-01-01T00:59:58 | N 978310798 2001-01-01T00:59:58.000000007Z B;
2001-01-01T00:59:59 | N 978310799 2001-01-01T00:59:59.000000007Z B;
2001-01-01T01:00:00 | N 978310800 2001-01-01T01:00:00.000000007Z B;
2000-07-01T00:00:00 | N 962409600 2000-07-01T00:00:00.000000007Z B;
";
    expect_texts_by_rule(&rt, rt.alloc(), "A0B0,0/0,J365/24:59:59", ROWS)
}

/// In years that are not leap both days are March 1st: the end is then paired with the start a year
/// before, as in leap years.
#[test]
fn a_rule_with_a_tie() -> Result<(), Fail> {
    let rt = kit::HostRuntime;

    static ROWS: &str = "\
2001-01-01T00:00:00 | N 978307200 2001-01-01T00:00:00.000000007Z B;
2001-03-01T00:00:00 | N 983404800 2001-03-01T00:00:00.000000007Z B;
2000-02-29T12:00:00 | N 951825600 2000-02-29T12:00:00.000000007Z A;
";
    expect_texts_by_rule(&rt, rt.alloc(), "A0B0,J60/0,59/0", ROWS)
}
