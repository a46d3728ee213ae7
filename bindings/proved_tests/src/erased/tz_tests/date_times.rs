// Tests from crates/tz_tests/src/date_times.rt by bindings/erase. Change that file instead.
//! Date times of instants from outside, each call once, and printing.

use crate::erased::tz_tests::expect::{expect_debug, expect_eq};
use crate::kit::process::Abort;
use crate::kit::test::Fail;
use crate::kit::{self, format_in};
use crate::utc;
use std::fmt::Display;
use std::time::Duration;
use tz::proved::tz::datetime::{DateTime, UtcDateTime};
use tz::proved::tz_base::error::TzError;
use tz::proved::tz_zone::timezone::{LocalTimeType, TimeZone};
use tz::shim::alloc::{AllocError, Global};

/// The date time prints as the text.
fn expect_text(
    rt: &impl Abort,
    alloc: Global,
    date_time: &impl Display,
    text: &str,
) -> Result<(), AllocError> {
    let printed = format_in!(alloc; "{date_time}")?;
    expect_eq(rt, &printed.as_str(), &text);
    let padded = format_in!(alloc; "{date_time:60}")?;
    expect_eq(rt, &padded.as_str(), &text);
    Ok(())
}

/// A year, a month, a day of the month, hour, minute and second, and nanoseconds.
type Parts = (i32, u8, u8, (u8, u8, u8), u32);

/// The parts of a local date time, and the offset.
type Local = (Parts, i32);

/// The parts of a date time of UTC.
pub(crate) fn parts_of_utc(d: UtcDateTime) -> Parts {
    let time = (d.hour(), d.minute(), d.second());
    (d.year(), d.month(), d.month_day(), time, d.nanoseconds())
}

/// The date time of UTC with these parts.
fn utc_of(parts: Parts) -> Result<UtcDateTime, TzError> {
    let (year, month, month_day, (hour, minute, second), nanoseconds) = parts;
    UtcDateTime::new(year, month, month_day, hour, minute, second, nanoseconds)
}

/// The date time with these parts, and an offset.
fn local_of(local: Local) -> Result<DateTime, TzError> {
    let ((year, month, month_day, (hour, minute, second), nanoseconds), ut_offset) = local;
    let local_time_type = LocalTimeType::with_ut_offset(ut_offset)?;
    DateTime::new(
        year,
        month,
        month_day,
        hour,
        minute,
        second,
        nanoseconds,
        local_time_type,
    )
}

/// Unix times with the date of UTC at 12:01:06.
static NOONS: [(i64, i32, u8, u8); 14] = [
    (-93750523134, -1001, 3, 1),
    (-11670955134, 1600, 2, 29),
    (-11670868734, 1600, 3, 1),
    (-8515195134, 1700, 3, 1),
    (-8483659134, 1701, 3, 1),
    (-8389051134, 1704, 2, 29),
    (-8388964734, 1704, 3, 1),
    (951825666, 2000, 2, 29),
    (951912066, 2000, 3, 1),
    (983448066, 2001, 3, 1),
    (1078056066, 2004, 2, 29),
    (1078142466, 2004, 3, 1),
    (4107585666, 2100, 3, 1),
    (32540356866, 3001, 3, 1),
];

#[test]
fn utc_date_times_have_the_parts_of_their_instant() -> Result<(), Fail> {
    let rt = kit::HostRuntime;

    for (nanoseconds, &(unix_time, year, month, month_day)) in (10u32..).zip(NOONS.iter()) {
        let parts = (year, month, month_day, (12, 1, 6), nanoseconds);
        let total = i128::from(unix_time) * 1_000_000_000 + i128::from(nanoseconds);
        let date_time = UtcDateTime::from_timespec(unix_time, nanoseconds)?;
        expect_eq(&rt, &parts_of_utc(date_time), &parts);
        expect_eq(
            &rt,
            &date_time,
            &UtcDateTime::from_timespec(unix_time, nanoseconds)?,
        );
        expect_eq(
            &rt,
            &date_time,
            &UtcDateTime::from_total_nanoseconds(total)?,
        );
        expect_eq(&rt, &date_time, &utc_of(parts)?);
        expect_eq(&rt, &date_time.unix_time(), &unix_time);
        expect_eq(&rt, &date_time.total_nanoseconds(), &total);
    }
    Ok(())
}

/// Two o'clock by each call that makes a local date time.
#[test]
fn local_date_times_are_made() -> Result<(), Fail> {
    let rt = kit::HostRuntime;

    const NOON: i64 = utc!(2000-02-29 12:00:00);
    const TOTAL: i128 = NOON as i128 * 1_000_000_000 + 7;
    let local_time_type = LocalTimeType::with_ut_offset(7200)?;
    let owned = TimeZone::fixed(rt.alloc(), 7200)?;
    let zone = owned.as_ref();
    let noon = UtcDateTime::from_timespec(NOON, 7)?;
    let local = local_of(((2000, 2, 29, (14, 0, 0), 7), 7200))?;
    for made in [
        DateTime::from_timespec(NOON, 7, zone)?,
        DateTime::from_timespec(NOON, 7, zone)?,
        DateTime::from_total_nanoseconds(TOTAL, zone)?,
        DateTime::from_timespec_and_local(NOON, 7, local_time_type)?,
        DateTime::from_total_nanoseconds_and_local(TOTAL, local_time_type)?,
        noon.project(zone)?,
        local.project(zone)?,
    ] {
        expect_text(
            &rt,
            rt.alloc(),
            &made,
            "2000-02-29T14:00:00.000000007+02:00",
        )?;
        expect_eq(&rt, &made, &local);
        expect_eq(&rt, &made.total_nanoseconds(), &TOTAL);
        expect_eq(&rt, &UtcDateTime::try_from(made)?, &noon);
    }
    Ok(())
}

#[test]
fn durations_move_date_times() -> Result<(), Fail> {
    let rt = kit::HostRuntime;

    let day = Duration::new(86_400, 1);
    let [_, epoch, _] = constants();
    let next_day = utc_of((1970, 1, 2, (0, 0, 0), 1))?;
    expect_eq(&rt, &epoch.checked_add(day), &Some(next_day));
    expect_eq(&rt, &next_day.checked_sub(day), &Some(epoch));
    expect_eq(&rt, &next_day.duration_since(epoch), &Ok(day));
    let (local, later) = (
        local_of(((1970, 1, 1, (1, 0, 0), 0), 3600))?,
        local_of(((1970, 1, 2, (0, 0, 0), 1), 0))?,
    );
    expect_eq(&rt, &local.duration_since(later), &Err(day));
    Ok(())
}

#[test]
fn the_first_second_of_2000() -> Result<(), Fail> {
    let rt = kit::HostRuntime;

    let date_time = UtcDateTime::new(2000, 1, 1, 0, 0, 0, 123_456_789)?;
    expect_eq(&rt, &date_time.week_day(), &6);
    expect_eq(&rt, &date_time.year_day(), &0);
    const NEW_YEAR: i64 = utc!(2000-01-01 00:00:00);
    expect_eq(&rt, &date_time.unix_time(), &NEW_YEAR);
    let alloc = rt.alloc();
    expect_text(&rt, alloc, &date_time, "2000-01-01T00:00:00.123456789Z")?;
    let zone = TimeZone::fixed(alloc, -3600)?;
    let local = date_time.project(zone.as_ref())?;
    expect_eq(&rt, &local.week_day(), &5);
    expect_eq(&rt, &local.year_day(), &364);
    expect_text(&rt, alloc, &local, "1999-12-31T23:00:00.123456789-01:00")?;
    const EARLIER: i64 = utc!(-1001-03-01 12:01:06);
    let before = UtcDateTime::from_timespec(EARLIER, 10)?;
    Ok(expect_text(
        &rt,
        alloc,
        &before,
        "-1001-03-01T12:01:06.000000010Z",
    )?)
}

/// The days from one date to the next that has the week day of another one. By the ranges that the
/// calls promise nothing wraps here and below, without a proof of the caller's own.
fn days_to_week_day(from: &UtcDateTime, to: &DateTime) -> u8 {
    (7 + to.week_day() - from.week_day()) % 7
}

/// The days of leap years that are left after a date of each.
fn days_left_of_leap_years(date: &UtcDateTime, local: &DateTime) -> u16 {
    365 - date.year_day() + (365 - local.year_day())
}

/// The seconds that are added to what the date time shows for UTC.
fn seconds_to_utc(date_time: &DateTime) -> i32 {
    -date_time.local_time_type().ut_offset()
}

/// From a Saturday to a Thursday, which is the leap day of 2024.
#[test]
fn callers_count_by_the_ranges() -> Result<(), Fail> {
    let rt = kit::HostRuntime;

    let new_year = utc_of((2000, 1, 1, (0, 0, 0), 0))?;
    let leap_day = local_of(((2024, 2, 29, (0, 0, 0), 0), i32::MIN + 1))?;
    expect_eq(&rt, &days_to_week_day(&new_year, &leap_day), &5);
    let days = days_left_of_leap_years(&new_year, &leap_day);
    expect_eq(&rt, &days, &(365 + 306));
    expect_eq(&rt, &seconds_to_utc(&leap_day), &i32::MAX);
    Ok(())
}

/// The first and the last date time, and the one from which Unix time counts.
fn constants() -> [UtcDateTime; 3] {
    [UtcDateTime::MIN, UtcDateTime::UNIX_EPOCH, UtcDateTime::MAX]
}

const FIRST: i64 = utc!(-2147483648-01-01 00:00:00);

const LAST: i64 = utc!(2147483647-12-31 23:59:59);

#[test]
fn the_years_end() -> Result<(), Fail> {
    let rt = kit::HostRuntime;

    let [first, epoch, last] = constants();
    expect_eq(&rt, &UtcDateTime::from_timespec(FIRST, 0)?, &first);
    expect_eq(&rt, &UtcDateTime::from_timespec(0, 0)?, &epoch);
    expect_eq(&rt, &UtcDateTime::from_timespec(LAST, 999_999_999)?, &last);
    let alloc = rt.alloc();
    expect_text(&rt, alloc, &first, "-2147483648-01-01T00:00:00.000000000Z")?;
    expect_text(&rt, alloc, &last, "2147483647-12-31T23:59:59.999999999Z")?;
    Ok(())
}

/// Date times are printed as their fields, one after the other.
#[test]
fn parts_are_printed() -> Result<(), Fail> {
    let rt = kit::HostRuntime;

    let alloc = rt.alloc();
    let utc = UtcDateTime::new(2000, 1, 2, 3, 4, 5, 6)?;
    let text = "UtcDateTime { year: 2000, month: 1, month_day: 2, hour: 3, minute: 4, second: 5, nanoseconds: 6 }";
    expect_debug(&rt, alloc, &utc, text)?;
    let cet = LocalTimeType::new(3600, false, Some(b"CET"))?;
    let local = DateTime::new(2000, 1, 2, 3, 4, 5, 6, cet)?;
    expect_debug(
        &rt,
        alloc,
        &local,
        "DateTime { year: 2000, month: 1, month_day: 2, hour: 3, minute: 4, second: 5, \
            local_time_type: LocalTimeType { ut_offset: 3600, is_dst: false, time_zone_designation: Some(\"CET\") }, \
            unix_time: 946778645, nanoseconds: 6 }",
    )?;
    Ok(())
}

#[test]
fn second_60_is_before_the_next_minute() -> Result<(), Fail> {
    let rt = kit::HostRuntime;

    let second_60 = UtcDateTime::new(2016, 12, 31, 23, 59, 60, 0)?;
    let new_year = UtcDateTime::new(2017, 1, 1, 0, 0, 0, 0)?;
    assert!(second_60 < new_year);
    const NEW_YEAR: i64 = utc!(2017-01-01 00:00:00);
    expect_eq(&rt, &second_60.unix_time(), &NEW_YEAR);
    expect_eq(&rt, &new_year.unix_time(), &NEW_YEAR);
    let text = "2016-12-31T23:59:60.000000000Z";
    Ok(expect_text(&rt, rt.alloc(), &second_60, text)?)
}
