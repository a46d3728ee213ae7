// Tests from crates/tz_query_tests/src/search.rt by bindings/erase. Change that file instead.
//! `F` lines over zones whose answers are known.

use crate::erased::tz_query_tests::expect::{
    expect_rows, expect_rows_by_parts, expect_rows_in_central_europe,
};
use crate::erased::tz_samples::rules::Day;
use crate::erased::tz_samples::zones::{CROSSING, ExtraRule, ZoneRow};
use crate::kit::test::Fail;
use crate::kit::{self};
use crate::utc;
use tz::proved::tz::TimeZoneRef;

#[test]
fn a_rule_skips_and_repeats_an_hour() -> Result<(), Fail> {
    let rt = kit::HostRuntime;

    static ROWS: &str = "\
F 2000 3 26 2 30 0 0 | F 1, S 2000-03-26T02:00:00.000000000+01:00 CET 2000-03-26T03:00:00.000000000+02:00 CEST
F 2000 10 29 2 30 0 0 | F 2, N 2000-10-29T02:30:00.000000000+02:00 CEST, N 2000-10-29T02:30:00.000000000+01:00 CET
F 2000 7 1 12 0 0 5 | F 1, N 2000-07-01T12:00:00.000000005+02:00 CEST
";
    expect_rows_in_central_europe(&rt, rt.alloc(), ROWS)
}

#[test]
fn jumps_that_cross() -> Result<(), Fail> {
    let rt = kit::HostRuntime;

    static ROWS: &str = "\
F 1970 1 1 2 30 0 0 | F 3, S 1970-01-01T02:00:00.000000000Z - 1970-01-01T03:00:00.000000000+01:00 -, N 1970-01-01T02:30:00.000000000-03:00 -, \
    S 1970-01-01T02:30:00.000000000-05:30 - 1970-01-01T03:30:00.000000000-04:30 -
F 1970 1 1 5 0 0 0 | F 0
";
    expect_rows_by_parts(&rt, rt.alloc(), &CROSSING, ROWS)
}

/// A zone with transitions has no clock before its leap seconds begin.
#[test]
fn a_zone_whose_leap_seconds_begin_later() -> Result<(), Fail> {
    let rt = kit::HostRuntime;

    static ZONE: ZoneRow = ZoneRow {
        types: &[(0, false, Some(b"A")), (3600, false, Some(b"B"))],
        transitions: &[(1_500_000_027, 1)],
        leap_seconds: &[(utc!(2017-01-01 00:00:00) + 26, 27)],
        extra_rule: Some(ExtraRule::Fixed((3600, false, Some(b"B")))),
    };
    static ROWS: &str = "\
T 1483228798 0 | E OutOfRange
T 1483228799 0 | 2016-12-31T23:59:59.000000000Z A
T 1499999999 0 | 2017-07-14T02:39:59.000000000Z A
T 1500000000 0 | 2017-07-14T03:40:00.000000000+01:00 B
F 2016 12 31 23 59 58 0 | F 0
F 2016 12 31 23 59 59 0 | F 1, N 2016-12-31T23:59:59.000000000Z A
F 2017 7 14 2 40 0 0 | F 1, S 2017-07-14T02:40:00.000000000Z A 2017-07-14T03:40:00.000000000+01:00 B
";
    expect_rows_by_parts(&rt, rt.alloc(), &ZONE, ROWS)
}

#[test]
fn fields_are_kept_or_refused_by_name() -> Result<(), Fail> {
    let rt = kit::HostRuntime;

    static ROWS: &str = "\
F 2016 12 31 23 59 60 0 | F 1, N 2016-12-31T23:59:60.000000000Z -
T 0 | E Line
T 0 1000000000 | E InvalidNanoseconds
T 9223372036854775807 1000000000 | E InvalidNanoseconds
T 9223372036854775807 999999999 | E OutOfRange
F 2001 300 1 0 0 0 0 | E Line
F 2001 13 1 0 0 0 0 | E InvalidMonth
F 2000 -0 1 0 0 0 0 | E InvalidMonth
F 2001 2 29 24 0 0 0 | E InvalidHour
F 2001 2 29 0 0 0 0 | E InvalidMonthDay
F 2001 2 28 0 60 0 0 | E InvalidMinute
F 2001 2 28 0 0 61 0 | E InvalidSecond
F 2001 2 28 0 0 0 1000000000 | E InvalidNanoseconds
F -02001 0002 28 -0 -00 0 000000000000000000000000000000 | F 1, N -2001-02-28T00:00:00.000000000Z -
";
    expect_rows(&rt, rt.alloc(), TimeZoneRef::utc(), ROWS)
}

/// A rule with the greatest and the least offset and the latest and the earliest times that a rule
/// may have. No TZ string denotes it.
static WIDEST: ZoneRow = ZoneRow {
    types: &[(93_599, false, Some(b"A")), (-89_999, true, Some(b"B"))],
    transitions: &[],
    leap_seconds: &[],
    extra_rule: Some(ExtraRule::Alternate((
        (93_599, false, Some(b"A")),
        (-89_999, true, Some(b"B")),
        (Day::Julian1(1), -604_799),
        (Day::Julian1(180), 604_799),
    ))),
};

#[test]
fn a_jump_by_the_widest_rule() -> Result<(), Fail> {
    let rt = kit::HostRuntime;

    static ROWS: &str = "\
F 1970 7 7 0 0 0 0 | F 1, S 1970-07-05T23:59:59.000000000-24:59:59 B 1970-07-08T02:59:57.000000000+25:59:59 A
";
    expect_rows_by_parts(&rt, rt.alloc(), &WIDEST, ROWS)
}

#[test]
fn a_rule_in_far_years() -> Result<(), Fail> {
    let rt = kit::HostRuntime;

    static ROWS: &str = "\
F 2400 3 26 2 30 0 0 | F 1, S 2400-03-26T02:00:00.000000000+01:00 CET 2400-03-26T03:00:00.000000000+02:00 CEST
F 2147483447 3 28 2 30 0 0 | F 1, S 2147483447-03-28T02:00:00.000000000+01:00 CET 2147483447-03-28T03:00:00.000000000+02:00 CEST
F -2147483645 1 1 0 30 0 0 | F 1, N -2147483645-01-01T00:30:00.000000000+01:00 CET
";
    expect_rows_in_central_europe(&rt, rt.alloc(), ROWS)
}

#[test]
fn years_of_32_bits_are_asked_for() -> Result<(), Fail> {
    let rt = kit::HostRuntime;

    static ROWS: &str = "\
F 2147483447 12 31 23 59 60 1 | F 1, N 2147483447-12-31T23:59:60.000000001Z -
F -2147483448 1 1 0 0 0 0 | F 1, N -2147483448-01-01T00:00:00.000000000Z -
F 2147483644 12 31 23 59 59 0 | F 1, N 2147483644-12-31T23:59:59.000000000Z -
F 2147483648 1 1 0 0 0 0 | E Line
F -2147483649 1 1 0 0 0 0 | E Line
";
    expect_rows(&rt, rt.alloc(), TimeZoneRef::utc(), ROWS)
}

/// What a clock shows at an instant, a search finds, also where it is another year in UTC.
#[test]
fn what_is_shown_at_the_ends_is_found() -> Result<(), Fail> {
    let rt = kit::HostRuntime;

    static ZONE: ZoneRow = ZoneRow {
        types: &[(3600, false, Some(b"BST"))],
        transitions: &[],
        leap_seconds: &[],
        extra_rule: None,
    };
    static ROWS: &str = "\
T -67768100567974800 0 | -2147483648-01-01T00:00:00.000000000+01:00 BST
F -2147483648 1 1 0 0 0 0 | F 1, N -2147483648-01-01T00:00:00.000000000+01:00 BST
T 67767976233529199 0 | 2147483647-12-31T23:59:59.000000000+01:00 BST
F 2147483647 12 31 23 59 59 0 | F 1, N 2147483647-12-31T23:59:59.000000000+01:00 BST
F 2147483647 12 31 23 59 60 0 | F 1, N 2147483647-12-31T23:59:60.000000000+01:00 BST
W 1 2147483647 12 31 23 59 60 0 | W 1, F 1, N 2147483647-12-31T23:59:60.000000000+01:00 BST
";
    expect_rows_by_parts(&rt, rt.alloc(), &ZONE, ROWS)
}

/// A jump from the last day of all to the year after it can't be listed, nor can one from the year
/// before the first day.
#[test]
fn jumps_past_the_ends_are_out_of_range() -> Result<(), Fail> {
    let rt = kit::HostRuntime;

    static ZONE: ZoneRow = ZoneRow {
        types: &[
            (-3600, false, Some(b"A")),
            (0, false, Some(b"B")),
            (7200, false, Some(b"C")),
        ],
        transitions: &[
            (utc!(-2147483648-01-01 00:30:00), 1),
            (utc!(2147483647-12-31 23:00:00), 2),
        ],
        leap_seconds: &[],
        extra_rule: Some(ExtraRule::Fixed((7200, false, Some(b"C")))),
    };
    static ROWS: &str = "\
F -2147483648 1 1 0 0 0 0 | E OutOfRange
F -2147483648 1 1 0 30 0 0 | F 1, N -2147483648-01-01T00:30:00.000000000Z B
F 2147483647 12 31 22 59 59 0 | F 1, N 2147483647-12-31T22:59:59.000000000Z B
F 2147483647 12 31 23 0 0 0 | E OutOfRange
W 2 2147483647 12 24 23 0 0 0 | W 2, F 1, N 2147483647-12-24T23:00:00.000000000Z B, E OutOfRange
";
    expect_rows_by_parts(&rt, rt.alloc(), &ZONE, ROWS)
}
