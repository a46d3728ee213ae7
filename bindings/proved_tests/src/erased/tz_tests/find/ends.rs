// Tests from crates/tz_tests/src/find/ends.rt by bindings/erase. Change that file instead.
//! Searches at the bounds of offsets and leap seconds, and near the ends of the years of 32 bits.

use super::texts::{
    expect_text, expect_text_at, expect_texts, expect_texts_by_rule, expect_texts_in,
};
use super::*;
use crate::erased::tz_samples::zones::two_hours_forward_at;
use crate::erased::tz_tests::expect::expect_eq;
use crate::kit::{self};

/// The zone of a rule with the greatest and the least offset and the latest and the earliest times
/// that a rule may have. No TZ string denotes it.
fn widest(alloc: Global) -> Result<TimeZone, TzError> {
    static WIDEST: RuleRow = (
        (93_599, false, Some(b"A")),
        (-89_999, true, Some(b"B")),
        (Day::Julian1(1), -604_799),
        (Day::Julian1(180), 604_799),
    );
    zone_of_rule(alloc, rule_of(&WIDEST)?)
}

#[test]
fn lookups_of_the_widest_rule() -> Result<(), Fail> {
    let rt = kit::HostRuntime;

    static ROWS: [(i64, i32); 4] = [
        (-698_399, 93_599),
        (-698_398, -89_999),
        (16_160_397, -89_999),
        (16_160_398, 93_599),
    ];
    let zone = widest(rt.alloc())?;
    for (unix_time, offset) in &ROWS {
        let local_time_type = zone.find_local_time_type(*unix_time)?;
        expect_eq(&rt, &local_time_type.ut_offset(), offset);
    }
    Ok(())
}

/// From the third year from an end on, the list of such a rule is promised.
#[test]
fn searches_by_the_widest_rule() -> Result<(), Fail> {
    let rt = kit::HostRuntime;

    static ROWS: &str = "\
1970-07-07T00:00:00 | S 16160398 1970-07-05T23:59:59.000000007-24:59:59 B 1970-07-08T02:59:57.000000007+25:59:59 A;
-2147483645-01-01T00:00:00 | N -67768100473186801 -2147483645-01-01T00:00:00.000000007-24:59:59 B;
-2147483645-12-24T00:00:00 | N -67768100442525599 -2147483645-12-24T00:00:00.000000007+25:59:59 A;\
    N -67768100442342001 -2147483645-12-24T00:00:00.000000007-24:59:59 B;
2147483644-07-07T00:00:00 | S 67767976123549198 2147483644-07-05T23:59:59.000000007-24:59:59 B 2147483644-07-08T02:59:57.000000007+25:59:59 A;
2147483644-12-31T23:59:60 | N 67767976139014799 2147483644-12-31T23:59:60.000000007-24:59:59 B;
";
    let zone = widest(rt.alloc())?;
    expect_texts(&rt, rt.alloc(), zone.as_ref(), ROWS)
}

/// The transition takes effect at the first instant at which its leap time is reached, which the
/// leap second delays by a second.
#[test]
fn a_jump_at_a_negative_leap_second() -> Result<(), Fail> {
    let rt = kit::HostRuntime;

    static ZONE: ZoneRow = ZoneRow {
        types: &[(0, false, None), (3600, false, None)],
        transitions: &[(100, 1)],
        leap_seconds: &[(100, -1)],
        extra_rule: Some(ExtraRule::Fixed((3600, false, None))),
    };
    static ROWS: &str = "\
1970-01-01T00:01:40 | N 100 1970-01-01T00:01:40.000000007Z -;
1970-01-01T00:01:41 | S 101 1970-01-01T00:01:41.000000007Z - 1970-01-01T01:01:41.000000007+01:00 -;
";
    expect_texts_in(&rt, rt.alloc(), &ZONE, ROWS)
}

#[test]
fn transitions_at_the_ends_of_64_bits() -> Result<(), Fail> {
    let rt = kit::HostRuntime;

    static AT_BOTH_ENDS: [(i64, usize); 2] = [(i64::MIN, 0), (i64::MAX, 0)];
    static BEFORE_A_LEAP_SECOND: ZoneRow = ZoneRow {
        types: &[(0, false, None)],
        transitions: &[(i64::MAX, 0)],
        leap_seconds: &[(0, 1)],
        extra_rule: None,
    };
    static SHOWN: &str = "2000-01-01T00:00:00 | N 946684800 2000-01-01T00:00:00.000000007Z -;";
    static NOT_SHOWN: &str = "2000-01-01T00:00:00 | nothing";
    let zone = plain_zone(rt.alloc(), &[0], &AT_BOTH_ENDS, None)?;
    expect_text(&rt, rt.alloc(), zone.as_ref(), SHOWN)?;
    expect_texts_in(&rt, rt.alloc(), &BEFORE_A_LEAP_SECOND, SHOWN)?;
    let over = plain_zone(rt.alloc(), &[0], &[(i64::MIN, 0)], None)?;
    expect_text(&rt, rt.alloc(), over.as_ref(), NOT_SHOWN)?;
    let refused = over.find_local_time_type(0).err();
    assert!(matches!(refused, Some(TzError::NoAvailableLocalTimeType)));
    Ok(())
}

#[test]
fn a_rule_200_years_from_the_ends() -> Result<(), Fail> {
    let rt = kit::HostRuntime;

    static ROWS: &str = "\
-2147483448-03-26T02:30:00 | S -67768094249190000 -2147483448-03-26T02:00:00.000000007+01:00 CET -2147483448-03-26T03:00:00.000000007+02:00 CEST;
2147483447-03-28T02:30:00 | S 67767969897997200 2147483447-03-28T02:00:00.000000007+01:00 CET 2147483447-03-28T03:00:00.000000007+02:00 CEST;
-2147483645-01-01T00:30:00 | N -67768100473278600 -2147483645-01-01T00:30:00.000000007+01:00 CET;
";
    expect_texts_by_rule(&rt, rt.alloc(), "CET-1CEST,M3.5.0,M10.5.0/3", ROWS)
}

#[test]
fn the_first_and_the_last_second_of_utc() -> Result<(), Fail> {
    let rt = kit::HostRuntime;

    static ROWS: &str = "\
-2147483648-01-01T00:00:00 | N -67768100567971200 -2147483648-01-01T00:00:00.000000007Z -;
2147483644-12-31T23:59:59 | N 67767976138924799 2147483644-12-31T23:59:59.000000007Z -;
2147483647-12-31T23:59:59 | N 67767976233532799 2147483647-12-31T23:59:59.000000007Z -;
";
    static LAST: &str = "N 67767976233532800 2147483647-12-31T23:59:60.000000007Z -;";
    expect_texts(&rt, rt.alloc(), TimeZoneRef::utc(), ROWS)?;
    expect_text_at(&rt, rt.alloc(), TimeZoneRef::utc(), LAST_SECOND, LAST)?;
    Ok(())
}

/// The rule has no type in the year in which the instant lies.
#[test]
fn a_year_without_an_answer_of_the_rule() -> Result<(), Fail> {
    let rt = kit::HostRuntime;

    static ROW: &str = "2147483645-12-31T23:59:60 | nothing";
    expect_texts_by_rule(&rt, rt.alloc(), "A5B,0/0,J365/23", ROW)
}

/// Whether each slot holds what it held, or the entry at its place of a list.
fn are_untouched_or_listed(slots: &[Option<FoundDateTimeKind>], listed: &[Summary]) -> bool {
    let mut places = slots.iter().enumerate();
    places.all(|(place, slot)| {
        let found = slot.as_ref().map(summary);
        found == Some(HELD) || found == listed.get(place).copied()
    })
}

/// Both searches into slots are refused as out of range, and write nothing but entries of the list.
fn expect_out_of_range_in(
    rt: &impl Abort,
    slots: &mut [Option<FoundDateTimeKind>],
    zone: TimeZoneRef<'_>,
    reading: Reading,
    listed: &[Summary],
) {
    let refused = find_n(slots, zone, reading).err();
    assert!(matches!(refused, Some(TzError::OutOfRange)));
    assert!(are_untouched_or_listed(slots, listed));
    let (year, month, month_day, hour, minute, second) = reading;
    let refused =
        DateTime::find_n_counted(slots, year, month, month_day, hour, minute, second, 0, zone)
            .err();
    assert!(matches!(refused, Some(TzError::OutOfRange)));
    assert!(are_untouched_or_listed(slots, listed));
}

/// All searches of a reading are refused as out of range, whose list has these entries that can be
/// made.
fn expect_out_of_range(
    rt: &impl Abort,
    alloc: Global,
    zone: TimeZoneRef<'_>,
    reading: Reading,
    listed: &[Summary],
) -> Result<(), TzError> {
    let refused = find(alloc, zone, reading).err();
    assert!(matches!(refused, Some(TzError::OutOfRange)));
    for count in 0..4usize {
        let mut slots = [Some(held()?); 3];
        expect_out_of_range_in(rt, &mut slots[..count], zone, reading, listed);
    }
    Ok(())
}

/// The first half hour of all, the last one, and the last second 60.
const FIRST: Reading = (i32::MIN, 1, 1, 0, 30, 0);

const LAST: Reading = (i32::MAX, 12, 31, 23, 30, 0);

const LAST_SECOND: Reading = (i32::MAX, 12, 31, 23, 59, 60);

/// A jump can't be listed where the local time before it or after it lies outside the years of 32
/// bits.
#[test]
fn jumps_past_the_ends_are_out_of_range() -> Result<(), Fail> {
    let rt = kit::HostRuntime;

    // When clocks of UTC are set two hours forward.
    static REFUSED: [(i64, Reading); 5] = [
        // From 23:00 of the year before the first one to 01:00, and from the second before the
        // first one of all.
        (utc!(-2147483649-12-31 23:00:00), FIRST),
        (utc!(-2147483649-12-31 23:59:59), FIRST),
        // From 23:00 to 01:00 of the year after the last one, and to the second after the last one
        // of all.
        (utc!(2147483647-12-31 23:00:00), LAST),
        (utc!(2147483647-12-31 22:00:00), LAST),
        // From that second on: both sides lie outside, and second 60 between them.
        (utc!(2147483648-01-01 00:00:00), LAST_SECOND),
    ];
    for (forward, reading) in &REFUSED {
        let zone = two_hours_forward_at(rt.alloc(), *forward)?;
        expect_out_of_range(&rt, rt.alloc(), zone.as_ref(), *reading, &[])?;
    }
    // The clock shows the half hour, is set back by two hours and then forward by four.
    static BACK_AND_FORWARD: [(i64, usize); 2] = [
        (utc!(2147483647-12-31 23:45:00), 1),
        (utc!(2147483648-01-01 00:30:00), 2),
    ];
    static SHOWN: [Summary; 1] = [(utc!(2147483647-12-31 23:30:00), 0, 0)];
    let zone = plain_zone(rt.alloc(), &[0, -7200, 7200], &BACK_AND_FORWARD, Some(7200))?;
    expect_out_of_range(&rt, rt.alloc(), zone.as_ref(), LAST, &SHOWN)?;
    Ok(())
}

/// What a clock shows can be listed, whichever year it is in UTC.
#[test]
fn date_times_past_the_ends_of_utc_are_found() -> Result<(), Fail> {
    let rt = kit::HostRuntime;

    static ROWS: [(i32, &str); 2] = [
        (
            3600,
            "-2147483648-01-01T00:30:00 | N -67768100567973000 -2147483648-01-01T00:30:00.000000007+01:00 -;",
        ),
        (
            -3600,
            "2147483647-12-31T23:30:00 | N 67767976233534600 2147483647-12-31T23:30:00.000000007-01:00 -;",
        ),
    ];
    for (ut_offset, row) in &ROWS {
        let zone = TimeZone::fixed(rt.alloc(), *ut_offset)?;
        expect_text(&rt, rt.alloc(), zone.as_ref(), row)?;
    }
    Ok(())
}

/// A jump with both sides in the years of 32 bits is found, and what is shown beside one that can't
/// be listed.
#[test]
fn jumps_up_to_the_ends_are_found() -> Result<(), Fail> {
    let rt = kit::HostRuntime;

    // When clocks of UTC are set two hours forward.
    static ROWS: [(i64, &str); 4] = [
        (
            utc!(-2147483649-12-31 23:00:00),
            "-2147483648-01-01T01:00:00 | N -67768100567974800 -2147483648-01-01T01:00:00.000000007+02:00 -;",
        ),
        (
            utc!(2147483647-12-31 23:00:00),
            "2147483647-12-31T22:30:00 | N 67767976233527400 2147483647-12-31T22:30:00.000000007Z -;",
        ),
        (
            utc!(-2147483648-01-01 00:00:00),
            "-2147483648-01-01T00:30:00 | \
             S -67768100567971200 -2147483648-01-01T00:00:00.000000007Z - -2147483648-01-01T02:00:00.000000007+02:00 -;",
        ),
        (
            utc!(2147483647-12-31 21:59:59),
            "2147483647-12-31T23:30:00 | \
             S 67767976233525599 2147483647-12-31T21:59:59.000000007Z - 2147483647-12-31T23:59:59.000000007+02:00 -;",
        ),
    ];
    for (forward, row) in &ROWS {
        let zone = two_hours_forward_at(rt.alloc(), *forward)?;
        expect_text(&rt, rt.alloc(), zone.as_ref(), row)?;
    }
    Ok(())
}
