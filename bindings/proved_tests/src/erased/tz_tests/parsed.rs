// Tests from crates/tz_tests/src/parsed.rt by bindings/erase. Change that file instead.
//! Date times read from texts. Rows are from RFC 3339, section 5.8, and otherwise counted by hand.

use crate::erased::tz_tests::date_times::parts_of_utc;
use crate::erased::tz_tests::expect::{expect_debug, expect_eq};
use crate::kit::process::Abort;
use crate::kit::test::Fail;
use crate::kit::{self, format_in};
use tz::proved::tz::ParsedDateTime;
use tz::shim::alloc::Global;

/// Each text is read as what stands after ` | `: year, month and day, hour, minute and second,
/// nanoseconds and the offset.
fn expect_read(rt: &impl Abort, alloc: Global, rows: &str) -> Result<(), Fail> {
    for row in rows.lines() {
        let (text, expected) = row.split_once(" | ").ok_or("no ` | ` in a row")?;
        let parsed = ParsedDateTime::parse(text.as_bytes())?;
        let (parts, ut_offset) = (parts_of_utc(parsed.local()), parsed.ut_offset());
        let found = format_in!(alloc; "{parts:?} {ut_offset:?}")?;
        expect_eq(rt, &found.as_str(), &expected);
    }
    Ok(())
}

/// RFC 3339, section 5.8.
#[test]
fn reads_the_examples_of_the_standard() -> Result<(), Fail> {
    let rt = kit::HostRuntime;

    static ROWS: &str = "\
1985-04-12T23:20:50.52Z | (1985, 4, 12, (23, 20, 50), 520000000) Some(0)
1996-12-19T16:39:57-08:00 | (1996, 12, 19, (16, 39, 57), 0) Some(-28800)
1990-12-31T23:59:60Z | (1990, 12, 31, (23, 59, 60), 0) Some(0)
1990-12-31T15:59:60-08:00 | (1990, 12, 31, (15, 59, 60), 0) Some(-28800)
1937-01-01T12:00:27.87+00:20 | (1937, 1, 1, (12, 0, 27), 870000000) Some(1200)
";
    expect_read(&rt, rt.alloc(), ROWS)
}

#[test]
fn reads_years_fractions_and_offsets_of_every_length() -> Result<(), Fail> {
    let rt = kit::HostRuntime;

    static ROWS: &str = "\
-2147483648-01-01T12:00:00 | (-2147483648, 1, 1, (12, 0, 0), 0) None
2147483647-12-31T12:00:00 | (2147483647, 12, 31, (12, 0, 0), 0) None
-0001-03-01T12:00:00 | (-1, 3, 1, (12, 0, 0), 0) None
0-01-01t12:00:00z | (0, 1, 1, (12, 0, 0), 0) Some(0)
0000000000000000000000002024-02-29T12:00:00 | (2024, 2, 29, (12, 0, 0), 0) None
2024-05-06 07:08:09.0012-00:00 | (2024, 5, 6, (7, 8, 9), 1200000) Some(0)
2024-05-06T07:08:09.00000012 | (2024, 5, 6, (7, 8, 9), 120) None
2024-05-06T07:08:09.999999999+01:00 | (2024, 5, 6, (7, 8, 9), 999999999) Some(3600)
2024-05-06T07:08:09-03:30:52 | (2024, 5, 6, (7, 8, 9), 0) Some(-12652)
2024-05-06T07:08:09+100:00 | (2024, 5, 6, (7, 8, 9), 0) Some(360000)
2024-05-06T07:08:09-596523:14:07 | (2024, 5, 6, (7, 8, 9), 0) Some(-2147483647)
";
    expect_read(&rt, rt.alloc(), ROWS)
}

/// Each place of a text at which something else stands, or nothing.
#[test]
fn says_what_is_missing_and_where() -> Result<(), Fail> {
    let rt = kit::HostRuntime;

    static ROWS: &str = "\
x | expected a year of four digits or more at byte 0
024-05-06T07:08:09Z | expected a year of four digits or more at byte 0
2147483648-01-01T00:00:00Z | expected a year of four digits or more at byte 0
18446744073709553640-01-01T00:00:00Z | expected a year of four digits or more at byte 0
2024 | expected `-` at byte 4
2024-13 | expected a month from 01 to 12 at byte 5
2024-05 | expected `-` at byte 7
2023-02-29 | expected a day of the month at byte 8
2024-05-06 | expected `T` or a space at byte 10
2024-05-06T24 | expected an hour from 00 to 23 at byte 11
2024-05-06T07 | expected `:` at byte 13
2024-05-06T07:60 | expected a minute from 00 to 59 at byte 14
2024-05-06T07:08 | expected `:` at byte 16
2024-05-06T07:08:61 | expected a second from 00 to 60 at byte 17
2147483647-12-31T23:59:60Z | expected a second from 00 to 60 at byte 23
2024-05-06T07:08:09. | expected a fraction of one to nine digits at byte 19
2024-05-06T07:08:09.1234567890Z | expected a fraction of one to nine digits at byte 19
2024-05-06T07:08:09  | expected `Z`, the sign of an offset or the end at byte 19
2024-05-06T07:08:09+ | expected the hours of an offset in two digits at byte 20
2024-05-06T07:08:09-596524:00 | expected the hours of an offset in two digits at byte 20
2024-05-06T07:08:09+0100 | expected `:` at byte 24
2024-05-06T07:08:09+01:60 | expected the minutes of an offset from 00 to 59 at byte 23
2024-05-06T07:08:09+01:00:60 | expected the seconds of an offset from 00 to 59 at byte 25
2024-05-06T07:08:09+596523:14:08 | expected the seconds of an offset from 00 to 59 at byte 29
2024-05-06T07:08:09Z! | expected the end at byte 20
";
    for row in ROWS.lines() {
        let (text, message) = row.split_once(" | ").ok_or("no ` | ` in a row")?;
        let error = ParsedDateTime::parse(text.as_bytes()).err();
        let printed = format_in!(rt.alloc(); "{}", error.ok_or("read")?)?;
        expect_eq(&rt, &printed.as_str(), &message);
    }
    let error = ParsedDateTime::parse(b"2024").err();
    let text = "Some(ParseDateTimeError { expected: Hyphen, position: 4 })";
    Ok(expect_debug(&rt, rt.alloc(), &error, text)?)
}
