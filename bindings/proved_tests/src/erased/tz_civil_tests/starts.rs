// Tests from crates/tz_civil_tests/src/starts.rt by bindings/erase. Change that file instead.
//! When dates begin in zones, by rows: the date time that clocks show first, that they skip the
//! date, or why there is no answer. Zones are those of tzdata around the date, and made ones.

use crate::erased::tz_civil_tests::expect::expect_eq;
use crate::erased::tz_samples::rules::central_europe;
use crate::erased::tz_samples::zones::{ExtraRule, ZoneRow, plain_zone, zone_of, zone_of_rule};
use crate::kit::process::Abort;
use crate::kit::test::Fail;
use crate::kit::{self, String, format_in};
use crate::utc;
use tz::proved::tz_base::error::TzError;
use tz::proved::tz_civil::{Date, start_of_day};
use tz::proved::tz_zone::timezone::{TimeZone, TimeZoneRef};
use tz::shim::alloc::Global;

/// The answer as a text.
fn start_text(
    alloc: Global,
    zone: TimeZoneRef<'_>,
    parts: (i32, u8, u8),
) -> Result<String, TzError> {
    let date = Date::new(parts.0, parts.1, parts.2)?;
    let text = match start_of_day(&zone, date) {
        Ok(Some(start)) => return Ok(format_in!(alloc; "{start}")?),
        Ok(None) => "skipped",
        Err(TzError::OutOfRange) => "OutOfRange",
        Err(TzError::NoAvailableLocalTimeType) => "NoType",
        Err(error) => return Err(error),
    };
    Ok(String::from_str(alloc, text)?)
}

/// In the zone each date begins as its row says.
fn expect_starts(
    rt: &impl Abort,
    alloc: Global,
    zone: &TimeZone,
    rows: &[((i32, u8, u8), &str)],
) -> Result<(), Fail> {
    for &(date, expected) in rows.iter() {
        let text = start_text(alloc, zone.as_ref(), date)?;
        expect_eq(rt, &text.as_str(), &expected);
    }
    Ok(())
}

/// Clocks that skip midnight.
#[test]
fn changes_near_midnight() -> Result<(), Fail> {
    let rt = kit::HostRuntime;

    let sao_paulo = plain_zone(
        rt.alloc(),
        &[-10_800, -7200],
        &[
            (utc!(2018-11-04 03:00:00), 1),
            (utc!(2019-02-17 02:00:00), 0),
        ],
        Some(-10_800),
    )?;
    expect_starts(
        &rt,
        rt.alloc(),
        &sao_paulo,
        &[
            ((2018, 11, 3), "2018-11-03T00:00:00.000000000-03:00"),
            ((2018, 11, 4), "2018-11-04T01:00:00.000000000-02:00"),
            ((2018, 11, 5), "2018-11-05T00:00:00.000000000-02:00"),
        ],
    )?;
    let toronto = plain_zone(
        rt.alloc(),
        &[-18_000, -14_400],
        &[
            (utc!(1919-03-31 04:30:00), 1),
            (utc!(1919-10-26 04:00:00), 0),
        ],
        Some(-18_000),
    )?;
    expect_starts(
        &rt,
        rt.alloc(),
        &toronto,
        &[((1919, 3, 31), "1919-03-31T00:30:00.000000000-04:00")],
    )?;
    let casey = plain_zone(
        rt.alloc(),
        &[28_800, 39_600],
        &[(utc!(2016-10-21 16:00:00), 1)],
        Some(39_600),
    )?;
    expect_starts(
        &rt,
        rt.alloc(),
        &casey,
        &[((2016, 10, 22), "2016-10-22T03:00:00.000000000+11:00")],
    )
}

/// Clocks that go back over midnight, from 0:01 to 23:01 and from 1:00 to 0:00.
#[test]
fn midnights_twice() -> Result<(), Fail> {
    let rt = kit::HostRuntime;

    let st_johns = plain_zone(
        rt.alloc(),
        &[-12_600, -9000],
        &[
            (utc!(2010-03-14 03:31:00), 1),
            (utc!(2010-11-07 02:31:00), 0),
        ],
        Some(-12_600),
    )?;
    expect_starts(
        &rt,
        rt.alloc(),
        &st_johns,
        &[
            ((2010, 11, 6), "2010-11-06T00:00:00.000000000-02:30"),
            ((2010, 11, 7), "2010-11-07T00:00:00.000000000-02:30"),
            ((2010, 11, 8), "2010-11-08T00:00:00.000000000-03:30"),
        ],
    )?;
    let havana = plain_zone(
        rt.alloc(),
        &[-18_000, -14_400],
        &[
            (utc!(2025-03-09 05:00:00), 1),
            (utc!(2025-11-02 05:00:00), 0),
        ],
        Some(-18_000),
    )?;
    expect_starts(
        &rt,
        rt.alloc(),
        &havana,
        &[((2025, 11, 2), "2025-11-02T00:00:00.000000000-04:00")],
    )
}

/// Islands that cross the date line, and a clock that crosses midnight at 23:30 and goes back at
/// 0:40.
#[test]
fn skipped_dates_and_a_crossing() -> Result<(), Fail> {
    let rt = kit::HostRuntime;

    let kwajalein = plain_zone(
        rt.alloc(),
        &[-43_200, 43_200],
        &[(utc!(1993-08-21 12:00:00), 1)],
        Some(43_200),
    )?;
    expect_starts(
        &rt,
        rt.alloc(),
        &kwajalein,
        &[
            ((1993, 8, 20), "1993-08-20T00:00:00.000000000-12:00"),
            ((1993, 8, 21), "skipped"),
            ((1993, 8, 22), "1993-08-22T00:00:00.000000000+12:00"),
        ],
    )?;
    let kiritimati = plain_zone(
        rt.alloc(),
        &[-36_000, 50_400],
        &[(utc!(1994-12-31 10:00:00), 1)],
        Some(50_400),
    )?;
    expect_starts(
        &rt,
        rt.alloc(),
        &kiritimati,
        &[
            ((1994, 12, 31), "skipped"),
            ((1995, 1, 1), "1995-01-01T00:00:00.000000000+14:00"),
        ],
    )?;
    let crossing = plain_zone(
        rt.alloc(),
        &[0, 3600],
        &[
            (utc!(2024-10-03 23:30:00), 1),
            (utc!(2024-10-03 23:40:00), 0),
        ],
        Some(0),
    )?;
    expect_starts(
        &rt,
        rt.alloc(),
        &crossing,
        &[
            ((2024, 10, 3), "2024-10-03T00:00:00.000000000Z"),
            ((2024, 10, 4), "2024-10-04T00:30:00.000000000+01:00"),
        ],
    )
}

/// A zone whose leap seconds begin late: before them no instant has a type.
static CUT_OFF: ZoneRow = ZoneRow {
    types: &[(0, false, None), (3600, false, None)],
    transitions: &[(utc!(1993-06-01 00:00:00) + 15, 1)],
    leap_seconds: &[(utc!(1990-01-01 00:00:00) + 14, 15)],
    extra_rule: Some(ExtraRule::Fixed((3600, false, None))),
};

/// So it is too after a table that ends without a rule.
#[test]
fn instants_without_a_type() -> Result<(), Fail> {
    let rt = kit::HostRuntime;

    let ended = plain_zone(
        rt.alloc(),
        &[-10_800, -7200],
        &[
            (utc!(2018-11-04 03:00:00), 1),
            (utc!(2019-02-17 02:00:00), 0),
        ],
        None,
    )?;
    expect_starts(
        &rt,
        rt.alloc(),
        &ended,
        &[
            ((2019, 2, 16), "2019-02-16T00:00:00.000000000-02:00"),
            ((2019, 2, 17), "NoType"),
        ],
    )?;
    let cut_off = zone_of(rt.alloc(), &CUT_OFF)?;
    expect_starts(
        &rt,
        rt.alloc(),
        &cut_off,
        &[
            ((1989, 12, 30), "OutOfRange"),
            ((1989, 12, 31), "1989-12-31T23:59:59.000000000Z"),
            ((1990, 1, 1), "1990-01-01T00:00:00.000000000Z"),
            ((1993, 6, 1), "1993-06-01T01:00:00.000000000+01:00"),
        ],
    )
}

/// The ends of the years, by a fixed offset and by a rule, which stops two years short of them.
#[test]
fn ends_of_the_years() -> Result<(), Fail> {
    let rt = kit::HostRuntime;

    let fixed = plain_zone(rt.alloc(), &[50_400], &[], None)?;
    expect_starts(
        &rt,
        rt.alloc(),
        &fixed,
        &[
            (
                (-2_147_483_648, 1, 1),
                "-2147483648-01-01T00:00:00.000000000+14:00",
            ),
            (
                (2_147_483_647, 12, 31),
                "2147483647-12-31T00:00:00.000000000+14:00",
            ),
        ],
    )?;
    let central_europe = zone_of_rule(rt.alloc(), central_europe()?)?;
    expect_starts(
        &rt,
        rt.alloc(),
        &central_europe,
        &[
            ((2_147_483_647, 12, 31), "OutOfRange"),
            ((2026, 3, 29), "2026-03-29T00:00:00.000000000+01:00"),
        ],
    )
}
