// Tests from crates/tz_query_tests/src/meetings.rt by bindings/erase. Change that file instead.
//! `W` lines over zones whose answers are known.

use crate::erased::tz_query_tests::expect::expect_rows;
use crate::erased::tz_query_tests::growths::expect_each_growth_can_be_refused;
use crate::erased::tz_samples::tz_strings::central_europe_zone;
use crate::kit::test::Fail;
use crate::kit::{self};
use tz::proved::tz::TimeZoneRef;

/// Three weeks over a jump of the clock of Central Europe, and their answer.
const OVER_A_JUMP: &str = "W 3 2000 3 19 2 30 0 0";

const JUMPED: &str = "W 3\n\
    F 1\n\
    N 2000-03-19T02:30:00.000000000+01:00 CET\n\
    F 1\n\
    S 2000-03-26T02:00:00.000000000+01:00 CET 2000-03-26T03:00:00.000000000+02:00 CEST\n\
    F 1\n\
    N 2000-04-02T02:30:00.000000000+02:00 CEST\n";

#[test]
fn meetings_have_these_answers() -> Result<(), Fail> {
    let rt = kit::HostRuntime;

    static ROWS: &str = "\
W 2 2016 12 31 23 59 60 0 | W 2, F 1, N 2016-12-31T23:59:60.000000000Z -, F 1, N 2017-01-07T23:59:60.000000000Z -
W 0 2001 2 28 0 0 0 0 | W 0
W 003 2001 13 1 0 0 0 0 | E InvalidMonth
W 001 2001 2 22 0 0 0 7 | W 1, F 1, N 2001-02-22T00:00:00.000000007Z -
W 0 2001 2 29 0 0 0 0 | E InvalidMonthDay
W 1 2001 2 28 0 0 61 0 | E InvalidSecond
W 1 2001 2 29 0 0 60 0 | E InvalidMonthDay
W 256 2001 2 28 0 0 0 0 | E Line
W -1 2001 2 28 0 0 0 0 | E Line
W 2001 2 28 0 0 0 0 | E Line
W 2 2147483647 12 31 0 0 0 0 | W 2, F 1, N 2147483647-12-31T00:00:00.000000000Z -, E OutOfRange
W 1 2147483647 12 31 23 59 60 0 | W 1, F 1, N 2147483647-12-31T23:59:60.000000000Z -
W 1 -2147483648 1 1 0 0 0 0 | W 1, F 1, N -2147483648-01-01T00:00:00.000000000Z -
";
    expect_rows(&rt, rt.alloc(), TimeZoneRef::utc(), ROWS)
}

#[test]
fn each_growth_of_a_meeting_can_be_refused() -> Result<(), Fail> {
    let rt = kit::HostRuntime;

    let zone = central_europe_zone(rt.alloc())?;
    expect_each_growth_can_be_refused(
        &rt,
        rt.alloc(),
        zone.as_ref(),
        OVER_A_JUMP.as_bytes(),
        JUMPED.as_bytes(),
        2..40,
    );
    Ok(())
}
