// Tests from crates/tz_tests/src/find.rt by bindings/erase. Change that file instead.
//! Searches in zones whose date times are known.

use crate::kit::process::Abort;
use crate::kit::test::Fail;
use crate::kit::{self, Vec};
use tz::proved::tz::datetime::{
    DateTime, FoundDateTimeKind, FoundDateTimeList, FoundDateTimeListRefMut,
};
use tz::proved::tz_base::error::TzError;
use tz::proved::tz_zone::timezone::{
    LocalTimeType, TimeZone, TimeZoneRef, Transition, TransitionRule,
};
use tz::shim::alloc::{AllocError, Allocator, Global};

mod ends;
mod leap_tables;
mod looks;
mod memory;
mod texts;
mod windows;

use crate::erased::tz_samples::rules::{Day, RuleRow, TypeRow, central_europe, rule_of};
use crate::erased::tz_samples::zones::{
    CROSSING, ExtraRule, FAR_OFFSET, ZoneRow, plain_zone, zone_of, zone_of_rule,
};
use crate::erased::tz_tests::expect::{expect_debug, expect_eq};
use crate::erased::tz_tests::searches::{
    Reading, Summary, entries_of, find, parts_of, summaries, summary,
};
use crate::utc;

fn find_n<'a>(
    buf: &'a mut [Option<FoundDateTimeKind>],
    zone: TimeZoneRef<'_>,
    reading: Reading,
) -> Result<FoundDateTimeListRefMut<'a>, TzError> {
    let (year, month, month_day, hour, minute, second) = reading;
    DateTime::find_n(buf, year, month, month_day, hour, minute, second, 0, zone)
}

/// The counted search finds these, as many as there are slots for. Its looks.
fn expect_counted(
    rt: &impl Abort,
    buf: &mut [Option<FoundDateTimeKind>],
    zone: TimeZoneRef<'_>,
    reading: Reading,
    expected: &[Summary],
) -> Result<u64, TzError> {
    let slots = buf.len();
    let (year, month, month_day, hour, minute, second) = reading;
    let (list, looks) =
        DateTime::find_n_counted(buf, year, month, month_day, hour, minute, second, 0, zone)?;
    let counts = (list.count(), list.data().len());
    expect_eq(rt, &counts, &(expected.len(), slots.min(expected.len())));
    for (slot, entry) in list.data().iter().zip(expected.iter()) {
        expect_eq(rt, &slot.as_ref().map(summary), &Some(*entry));
    }
    Ok(looks)
}

/// The searches find these.
fn expect_found(
    rt: &impl Abort,
    alloc: Global,
    zone: TimeZoneRef<'_>,
    reading: Reading,
    expected: &[Summary],
) -> Result<(), TzError> {
    let found = summaries(alloc, find(alloc, zone, reading)?)?;
    expect_eq(rt, &found.as_slice(), &expected);
    let _looks = expect_counted(rt, &mut [None; 3], zone, reading, expected)?;
    Ok(())
}

/// The searches find the entries after ` | ` of the local time before it.
fn expect_row(
    rt: &impl Abort,
    alloc: Global,
    zone: TimeZoneRef<'_>,
    row: &str,
) -> Result<(), Fail> {
    let (reading, entries) = parts_of(row)?;
    let expected = entries_of(alloc, entries)?;
    expect_found(rt, alloc, zone, reading, expected.as_slice())?;
    Ok(())
}

/// The searches find the entries of each row, separated by `, `: each an instant with the offset
/// there, or with the two offsets of a jump.
fn expect_rows(
    rt: &impl Abort,
    alloc: Global,
    zone: TimeZoneRef<'_>,
    rows: &str,
) -> Result<(), Fail> {
    for row in rows.lines() {
        expect_row(rt, alloc, zone, row)?;
    }
    Ok(())
}

/// What is found of half past two in the zone with jumps that cross.
static CROSSED: [Summary; 3] = [
    (7200, 0, 3600),
    (19_800, -10_800, -10_800),
    (28_800, -19_800, -16_200),
];

#[test]
fn jumps_that_cross() -> Result<(), Fail> {
    let rt = kit::HostRuntime;

    static ROWS: &str = "\
1970-01-01T00:00:00 | 0 0
1970-01-01T01:00:00 | 3600 0, 14400 -10800
1970-01-01T01:15:00 | 4500 0, 15300 -10800
1970-01-01T01:30:00 | 5400 0, 16200 -10800, 25200 -19800
1970-01-01T01:45:00 | 6300 0, 17100 -10800, 26100 -19800
1970-01-01T02:00:00 | 7200 0 3600, 18000 -10800, 27000 -19800
1970-01-01T02:15:00 | 7200 0 3600, 18900 -10800, 27900 -19800
1970-01-01T02:45:00 | 7200 0 3600, 20700 -10800, 28800 -19800 -16200
1970-01-01T03:00:00 | 7200 3600, 21600 -10800, 28800 -19800 -16200
1970-01-01T03:15:00 | 8100 3600, 22500 -10800, 28800 -19800 -16200
1970-01-01T03:30:00 | 9000 3600, 23400 -10800, 28800 -16200
1970-01-01T03:45:00 | 9900 3600, 24300 -10800, 29700 -16200
1970-01-01T04:00:00 | 10800 3600, 30600 -16200
1970-01-01T04:15:00 | 11700 3600, 31500 -16200
1970-01-01T04:30:00 | 12600 3600
1970-01-01T04:45:00 | 13500 3600
1970-01-01T23:59:00 | nothing
";
    let zone = zone_of(rt.alloc(), &CROSSING)?;
    expect_rows(&rt, rt.alloc(), zone.as_ref(), ROWS)
}

#[test]
fn a_rule_goes_on_after_the_last_transition() -> Result<(), Fail> {
    let rt = kit::HostRuntime;

    const IN_1960: &str = "1960-01-01T00:00:00 | 1959-12-31T23:00:00Z 3600";
    const IN_1980: &str = "1980-01-01T00:00:00 | 1979-12-31T23:00:00Z 3600";
    const IN_2000: &str = "2000-01-01T00:00:00 | 1999-12-31T23:00:00Z 3600";
    // Transitions of a zone of one type, an hour east, and the offset of its rule.
    static ROWS: [(&[(i64, usize)], Option<i32>, &str); 5] = [
        (&[], None, IN_2000),
        (&[], Some(3600), IN_2000),
        (&[(0, 0)], Some(3600), IN_1960),
        (&[(0, 0)], Some(3600), IN_1980),
        (&[(0, 0)], None, "1980-01-01T00:00:00 | nothing"),
    ];
    for (transitions, rule, row) in &ROWS {
        let zone = plain_zone(rt.alloc(), &[3600], transitions, *rule)?;
        expect_row(&rt, rt.alloc(), zone.as_ref(), row)?;
    }
    Ok(())
}

/// A date time of a slot that no search of these tests finds, and its summary.
fn held() -> Result<FoundDateTimeKind, TzError> {
    let utc = LocalTimeType::utc();
    Ok(FoundDateTimeKind::Normal(DateTime::new(
        1234, 5, 6, 7, 8, 9, 0, utc,
    )?))
}

const HELD: Summary = (utc!(1234-05-06 07:08:09), 0, 0);

/// A list with nothing found leaves the slots as they are once it is gone.
fn lend(buf: &mut [Option<FoundDateTimeKind>]) {
    let _list = FoundDateTimeListRefMut::new(buf);
}

#[test]
fn an_empty_list_leaves_the_slots() -> Result<(), Fail> {
    let rt = kit::HostRuntime;

    let held = Some(held()?);
    let mut buf = [None, held];
    lend(&mut buf);
    assert!(matches!(&buf, [None, kept] if *kept == held));
    Ok(())
}

/// Lists are printed with what they hold alone.
#[test]
fn lists_are_printed() -> Result<(), Fail> {
    let rt = kit::HostRuntime;

    let alloc = rt.alloc();
    let utc = TimeZoneRef::utc();
    let midnight = (2000, 1, 1, 0, 0, 0);
    let list = "FoundDateTimeList([Normal(DateTime { year: 2000, month: 1, month_day: 1, hour: 0, minute: 0, second: 0, \
        local_time_type: LocalTimeType { ut_offset: 0, is_dst: false, time_zone_designation: None }, \
        unix_time: 946684800, nanoseconds: 0 })])";
    expect_debug(&rt, alloc, &find(alloc, utc, midnight)?, list)?;
    let list = "FoundDateTimeListRefMut { buf: [Some(Normal(DateTime { year: 2000, month: 1, month_day: 1, hour: 0, minute: 0, second: 0, \
        local_time_type: LocalTimeType { ut_offset: 0, is_dst: false, time_zone_designation: None }, \
        unix_time: 946684800, nanoseconds: 0 })), None], current_index: 1, count: 1 }";
    expect_debug(&rt, alloc, &find_n(&mut [None, None], utc, midnight)?, list)?;
    let list = "FoundDateTimeListRefMut { buf: [], current_index: 0, count: 1 }";
    expect_debug(&rt, alloc, &find_n(&mut [], utc, midnight)?, list)?;
    Ok(())
}

/// A clock that is set back a minute after each minute, as many times, and then stays so: it shows
/// the first minute after each of them.
fn set_back(alloc: Global, times: u16) -> Result<TimeZone, TzError> {
    let mut transitions = Vec::new(alloc);
    let mut types = Vec::new(alloc);
    for minute in 0..times {
        transitions.push(Transition::new(60 * i64::from(minute), usize::from(minute)))?;
        types.push(LocalTimeType::with_ut_offset(-60 * i32::from(minute))?)?;
    }
    let last = types.last().map(|last| TransitionRule::Fixed(*last));
    TimeZone::new(transitions, types, Vec::new(alloc), last)
}

/// Half past each of the first minutes, by the clock that is set back.
fn half_minutes(alloc: Global, times: u16) -> Result<Vec<Summary>, AllocError> {
    let mut expected = Vec::new(alloc);
    for minute in 0..times {
        let ut_offset = -60 * i32::from(minute);
        expected.push((60 * i64::from(minute) + 30, ut_offset, ut_offset))?;
    }
    Ok(expected)
}

/// A list grows as often as it has to.
#[test]
fn many_are_found() -> Result<(), Fail> {
    let rt = kit::HostRuntime;

    static TIMES: [u16; 4] = [40, 41, 65, 1000];
    for times in &TIMES {
        let zone = set_back(rt.alloc(), *times)?;
        let expected = half_minutes(rt.alloc(), *times)?;
        let reading = (1970, 1, 1, 0, 0, 30);
        expect_found(&rt, rt.alloc(), zone.as_ref(), reading, &expected)?;
    }
    Ok(())
}

/// The first of January by a clock that is set forward from 2:00 to 3:00 and back from 3:30 to
/// 2:30.
#[test]
fn a_rule_of_one_morning() -> Result<(), Fail> {
    let rt = kit::HostRuntime;

    static RULE: RuleRow = (
        (0, false, None),
        (3600, false, None),
        (Day::Julian1(1), 7200),
        (Day::Julian1(1), 12_600),
    );
    static ROWS: &str = "\
2000-01-01T01:45:00 | 2000-01-01T01:45:00Z 0
2000-01-01T02:15:00 | 2000-01-01T02:00:00Z 0 3600
2000-01-01T02:45:00 | 2000-01-01T02:00:00Z 0 3600, 2000-01-01T02:45:00Z 0
2000-01-01T03:15:00 | 2000-01-01T02:15:00Z 3600, 2000-01-01T03:15:00Z 0
2000-01-01T03:45:00 | 2000-01-01T03:45:00Z 0
2010-01-01T01:45:00 | 2010-01-01T01:45:00Z 0
2010-01-01T02:15:00 | 2010-01-01T02:00:00Z 0 3600
2010-01-01T02:45:00 | 2010-01-01T02:00:00Z 0 3600, 2010-01-01T02:45:00Z 0
2010-01-01T03:15:00 | 2010-01-01T02:15:00Z 3600, 2010-01-01T03:15:00Z 0
2010-01-01T03:45:00 | 2010-01-01T03:45:00Z 0
";
    let zone = zone_of_rule(rt.alloc(), rule_of(&RULE)?)?;
    expect_rows(&rt, rt.alloc(), zone.as_ref(), ROWS)
}

/// The first hours before and after a jump over 68 years, and a time to which it leads.
#[test]
fn the_morning_of_a_far_jump() -> Result<(), Fail> {
    let rt = kit::HostRuntime;

    static ROWS: &str = "\
1970-01-01T00:30:00 | 1800 0
1970-01-01T01:30:00 | 3600 0 2147483647
1970-01-01T02:30:00 | 3600 0 2147483647, 9000 0
1970-01-01T04:30:00 | 3600 0 2147483647, 12600 3600
2038-01-19T05:00:00 | 6353 2147483647, 2038-01-19T04:00:00Z 3600
";
    let zone = zone_of(rt.alloc(), &FAR_OFFSET)?;
    expect_rows(&rt, rt.alloc(), zone.as_ref(), ROWS)
}

/// The rule holds in years that the jump passes over, and after it: clocks are set back on March
/// 31st and forward on October 27th.
#[test]
fn a_rule_under_and_after_a_far_jump() -> Result<(), Fail> {
    let rt = kit::HostRuntime;

    static ROWS: &str = "\
1970-02-01T00:00:00 | 3600 0 2147483647, 1970-01-31T23:00:00Z 3600
1970-03-31T00:30:00 | 3600 0 2147483647, 1970-03-30T23:30:00Z 3600, 1970-03-31T00:30:00Z 0
1970-06-01T00:00:00 | 3600 0 2147483647, 1970-06-01T00:00:00Z 0
1970-10-27T00:30:00 | 3600 0 2147483647, 1970-10-27T00:00:00Z 0 3600
1970-11-01T00:00:00 | 3600 0 2147483647, 1970-10-31T23:00:00Z 3600
2000-02-01T00:00:00 | 3600 0 2147483647, 2000-01-31T23:00:00Z 3600
2000-03-31T00:30:00 | 3600 0 2147483647, 2000-03-30T23:30:00Z 3600, 2000-03-31T00:30:00Z 0
2000-06-01T00:00:00 | 3600 0 2147483647, 2000-06-01T00:00:00Z 0
2000-10-27T00:30:00 | 3600 0 2147483647, 2000-10-27T00:00:00Z 0 3600
2000-11-01T00:00:00 | 3600 0 2147483647, 2000-10-31T23:00:00Z 3600
2030-02-01T00:00:00 | 3600 0 2147483647, 2030-01-31T23:00:00Z 3600
2030-03-31T00:30:00 | 3600 0 2147483647, 2030-03-30T23:30:00Z 3600, 2030-03-31T00:30:00Z 0
2030-06-01T00:00:00 | 3600 0 2147483647, 2030-06-01T00:00:00Z 0
2030-10-27T00:30:00 | 3600 0 2147483647, 2030-10-27T00:00:00Z 0 3600
2030-11-01T00:00:00 | 3600 0 2147483647, 2030-10-31T23:00:00Z 3600
2038-02-01T00:00:00 | 2038-01-31T23:00:00Z 3600
2038-03-31T00:30:00 | 2038-03-30T23:30:00Z 3600, 2038-03-31T00:30:00Z 0
2038-06-01T00:00:00 | 2038-06-01T00:00:00Z 0
2038-10-27T00:30:00 | 2038-10-27T00:00:00Z 0 3600
2038-11-01T00:00:00 | 2038-10-31T23:00:00Z 3600
";
    let zone = zone_of(rt.alloc(), &FAR_OFFSET)?;
    expect_rows(&rt, rt.alloc(), zone.as_ref(), ROWS)
}

#[test]
fn nothing_is_found_after_the_last_transition_without_a_rule() -> Result<(), Fail> {
    let rt = kit::HostRuntime;

    static ROWS: &str = "\
1969-12-31T23:59:59 | -1 0
1969-12-31T23:59:60 | nothing
1970-01-01T00:00:00 | nothing
";
    let zone = plain_zone(rt.alloc(), &[0], &[(0, 0)], None)?;
    expect_rows(&rt, rt.alloc(), zone.as_ref(), ROWS)
}
