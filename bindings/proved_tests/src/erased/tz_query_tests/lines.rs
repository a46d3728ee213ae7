// Tests from crates/tz_query_tests/src/lines.rt by bindings/erase. Change that file instead.
//! Query lines, by rows and by another program's answers.

use crate::erased::tz_query_tests::expect::{expect_eq, expect_rows};
use crate::kit::process::Abort;
use crate::kit::test::Fail;
use crate::kit::{self, Resized, Vec};
use crate::proved::tz_query::query::answer;
use tz::proved::tz::{TimeZone, TimeZoneRef};
use tz::shim::alloc::Global;

/// The queries have these answers over UTC.
fn expect_answered(
    rt: &impl Abort,
    alloc: Global,
    queries: &[u8],
    answers: &[u8],
) -> Result<(), Fail> {
    let found = answer(alloc, TimeZoneRef::utc(), queries)?;
    expect_eq(rt, &found.as_slice(), &answers);
    Ok(())
}

/// Offsets, and under each of them lines at the limits of their numbers, of years and of offsets,
/// with what tz-rs answers to them.
static LIMITS: &str = "\
0
T 0 0 | 1970-01-01T00:00:00.000000000Z -
T -1 999999999 | 1969-12-31T23:59:59.999999999Z -
T 951868799 1 | 2000-02-29T23:59:59.000000001Z -
T 951868800 10 | 2000-03-01T00:00:00.000000010Z -
T 67767976233532799 999999999 | 2147483647-12-31T23:59:59.999999999Z -
T 67767976233532800 0 | E OutOfRange
T -67768100567971200 0 | -2147483648-01-01T00:00:00.000000000Z -
T -67768100567971201 999999999 | E OutOfRange
T -62135596800 0 | 1-01-01T00:00:00.000000000Z -
T -62135596801 0 | 0-12-31T23:59:59.000000000Z -
T -62167219200 0 | 0-01-01T00:00:00.000000000Z -
T -62167219201 0 | -1-12-31T23:59:59.000000000Z -
T 253402300799 999999999 | 9999-12-31T23:59:59.999999999Z -
T 253402300800 0 | 10000-01-01T00:00:00.000000000Z -
T 9223372036854775807 0 | E OutOfRange
T -9223372036854775808 0 | E OutOfRange
T 9223372036854775808 0 | E Line
T -9223372036854775809 0 | E Line
T 5 4294967296 | E Line
T 5 -1 | E Line
T -0 -000 | 1970-01-01T00:00:00.000000000Z -
T 4107542400 0 | 2100-03-01T00:00:00.000000000Z -
T 4107542399 0 | 2100-02-28T23:59:59.000000000Z -
T 68169600 0 | 1972-02-29T00:00:00.000000000Z -

3600
T 67767976233529199 0 | 2147483647-12-31T23:59:59.000000000+01:00 -
T 67767976233529200 0 | E OutOfRange
T -67768100567974800 0 | -2147483648-01-01T00:00:00.000000000+01:00 -
T -67768100567974801 0 | E OutOfRange
T -3600 0 | 1970-01-01T00:00:00.000000000+01:00 -
T 1078012799 123456789 | 2004-02-29T00:59:59.123456789+01:00 -
T 1078012800 0 | 2004-02-29T01:00:00.000000000+01:00 -

-3600
T 946684800 123456789 | 1999-12-31T23:00:00.123456789-01:00 -
T 67767976233536399 1 | 2147483647-12-31T23:59:59.000000001-01:00 -
T 67767976233536400 0 | E OutOfRange
T -67768100567967600 0 | -2147483648-01-01T00:00:00.000000000-01:00 -
T -67768100567967601 0 | E OutOfRange

1
T -1 0 | 1970-01-01T00:00:00.000000000+00:00:01 -
T -2 0 | 1969-12-31T23:59:59.000000000+00:00:01 -
T -62167219201 0 | 0-01-01T00:00:00.000000000+00:00:01 -
T 67767976233532798 0 | 2147483647-12-31T23:59:59.000000000+00:00:01 -
T 67767976233532799 0 | E OutOfRange

-1
T 1 0 | 1970-01-01T00:00:00.000000000-00:00:01 -
T 0 100000000 | 1969-12-31T23:59:59.100000000-00:00:01 -
T 0 10000000 | 1969-12-31T23:59:59.010000000-00:00:01 -
T 67767976233532799 0 | 2147483647-12-31T23:59:58.000000000-00:00:01 -
T -67768100567971199 0 | -2147483648-01-01T00:00:00.000000000-00:00:01 -
T -67768100567971200 0 | E OutOfRange

86399
T 1 0 | 1970-01-02T00:00:00.000000000+23:59:59 -
T 0 0 | 1970-01-01T23:59:59.000000000+23:59:59 -
T -86400 0 | 1969-12-31T23:59:59.000000000+23:59:59 -

-34200
T 34200 0 | 1970-01-01T00:00:00.000000000-09:30 -
T 34199 999999999 | 1969-12-31T23:59:59.999999999-09:30 -

359999
T 0 0 | 1970-01-05T03:59:59.000000000+99:59:59 -
T -360000 0 | 1969-12-31T23:59:59.000000000+99:59:59 -

360000
T 0 0 | 1970-01-05T04:00:00.000000000+100:00 -

2147483647
T -2147483647 0 | 1970-01-01T00:00:00.000000000+596523:14:07 -
T 67767974086049152 0 | 2147483647-12-31T23:59:59.000000000+596523:14:07 -
T 67767974086049153 0 | E OutOfRange
T 9223372036854775807 0 | E OutOfRange

-2147483647
T 2147483647 0 | 1970-01-01T00:00:00.000000000-596523:14:07 -
T -67768098420487553 0 | -2147483648-01-01T00:00:00.000000000-596523:14:07 -
T -67768098420487554 0 | E OutOfRange
T -9223372036854775808 0 | E OutOfRange
";

#[test]
fn answers_at_the_limits_as_tz_rs() -> Result<(), Fail> {
    let rt = kit::HostRuntime;

    for group in LIMITS.split("\n\n") {
        let (ut_offset, rows) = group.split_once('\n').ok_or("no rows under an offset")?;
        let zone = TimeZone::fixed(rt.alloc(), ut_offset.parse::<i32>()?)?;
        expect_rows(&rt, rt.alloc(), zone.as_ref(), rows)?;
    }
    Ok(())
}

/// Lines that are none of the grammar, with `;` between them.
static NO_LINES: &str = "\
    T +1 5;T 1  5;T 1 5 ;; T 1 5;T  1 5;T 1 5 6;T 1;T;t 1 5;T 1 5\r;T -1 --5;T - 5;T 1 -;T 1\t5;\
    T1 5;T 1e3 5;T 1 5x;W 1 5;F;f 2000 1 1 0 0 0 0;F2000 1 1 0 0 0 0;F  2000 1 1 0 0 0 0;\
    F 2000 1 1 0 0 0;F 2000 1 1 0 0 0 0 0;F 2000 1 1 0 0 0 0 ;F 2000 1 1 0 0 0  0;\
    F +2000 1 1 0 0 0 0;F 2000 256 1 0 0 0 0;F 2000 -1 1 0 0 0 0;F 2000 1 1 0 0 0 -1;\
    F 2000 1 1 0 0 0 4294967296;F 2000 1 1 0 0 0 0x;F 2000-1-1 0 0 0 0; F 2000 1 1 0 0 0 0";

/// The line with an LF is refused.
fn expect_no_line(rt: &impl Abort, alloc: Global, line: &str) -> Result<(), Fail> {
    let mut queries = Vec::new(alloc);
    queries.extend_from_slice(line.as_bytes())?;
    queries.push(b'\n')?;
    expect_answered(rt, alloc, queries.as_slice(), b"E Line\n")
}

#[test]
fn reads_only_the_grammar() -> Result<(), Fail> {
    let rt = kit::HostRuntime;

    for line in NO_LINES.split(';') {
        expect_no_line(&rt, rt.alloc(), line)?;
    }
    expect_answered(
        &rt,
        rt.alloc(),
        b"T 1 \xFF\n\xC3\x28\nT 1 5\0\nT 00000000000000000000001 5",
        b"E Line\nE Line\nE Line\n1970-01-01T00:00:01.000000005Z -\n",
    )
}

#[test]
fn reads_a_million_digits() -> Result<(), Fail> {
    let rt = kit::HostRuntime;

    let mut zeros = Vec::new(rt.alloc());
    zeros.extend_from_slice(b"T ")?;
    zeros.resize(1_000_000, b'0')?;
    zeros.extend_from_slice(b"7 5\nT 0 ")?;
    zeros.resize(2_000_000, b'9')?;
    expect_answered(
        &rt,
        rt.alloc(),
        zeros.as_slice(),
        b"1970-01-01T00:00:07.000000005Z -\nE Line\n",
    )
}
