// Tests from crates/tz_tests/src/find/leap_tables.rt by bindings/erase. Change that file instead.
//! Searches around the start of leap-second tables.

use super::*;
use crate::kit::{self};

/// The last second before the table begins is not found, and a jump after it is.
#[test]
fn a_table_from_2016() -> Result<(), Fail> {
    let rt = kit::HostRuntime;

    static ZONE: ZoneRow = ZoneRow {
        types: &[(0, false, Some(b"AAA")), (3600, false, Some(b"BBB"))],
        transitions: &[(1_500_000_027, 1)],
        leap_seconds: &[(utc!(2017-01-01 00:00:00) + 26, 27)],
        extra_rule: Some(ExtraRule::Fixed((3600, false, Some(b"BBB")))),
    };
    static ROWS: &str = "\
2016-12-31T23:59:58 | nothing
2016-12-31T23:59:59 | 2016-12-31T23:59:59Z 0
2017-07-14T02:40:00 | 1500000000 0 3600
";
    let zone = zone_of(rt.alloc(), &ZONE)?;
    expect_rows(&rt, rt.alloc(), zone.as_ref(), ROWS)
}

/// The table begins past all date times of the years of 32 bits.
#[test]
fn a_table_that_begins_too_late() -> Result<(), Fail> {
    let rt = kit::HostRuntime;

    const LATE: ZoneRow = ZoneRow {
        types: &[(0, false, None)],
        transitions: &[],
        leap_seconds: &[(i64::MAX, 3)],
        extra_rule: Some(ExtraRule::Fixed((0, false, None))),
    };
    const WITH_TRANSITION: ZoneRow = ZoneRow {
        transitions: &[(0, 0)],
        ..LATE
    };
    static ROWS: [(ZoneRow, &str); 2] = [
        (LATE, "2000-01-01T00:00:00 | 2000-01-01T00:00:00Z 0"),
        (WITH_TRANSITION, "2000-01-01T00:00:00 | nothing"),
    ];
    for (zone, row) in &ROWS {
        let zone = zone_of(rt.alloc(), zone)?;
        expect_row(&rt, rt.alloc(), zone.as_ref(), row)?;
    }
    Ok(())
}
