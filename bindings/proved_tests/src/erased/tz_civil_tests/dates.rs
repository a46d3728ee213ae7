// Tests from crates/tz_civil_tests/src/dates.rt by bindings/erase. Change that file instead.
//! Dates by their parts, and as texts.

use crate::erased::tz_civil_tests::expect::expect_eq;
use crate::kit::test::Fail;
use crate::kit::{self, format_in};
use tz::proved::tz::datetime::{DateTime, UtcDateTime};
use tz::proved::tz_base::error::{DateTimeError, TzError};
use tz::proved::tz_civil::calendar::{days_in_month, is_leap_year};
use tz::proved::tz_civil::{Date, start_of_day};
use tz::proved::tz_zone::timezone::{LocalTimeType, TimeZoneRef};

/// Dates that do not exist, and why.
static FAULTS: [((i32, u8, u8), DateTimeError); 7] = [
    ((2024, 0, 1), DateTimeError::InvalidMonth),
    ((2024, 13, 0), DateTimeError::InvalidMonth),
    ((2024, 1, 0), DateTimeError::InvalidMonthDay),
    ((2024, 1, 32), DateTimeError::InvalidMonthDay),
    ((2024, 4, 31), DateTimeError::InvalidMonthDay),
    ((2023, 2, 29), DateTimeError::InvalidMonthDay),
    ((1900, 2, 29), DateTimeError::InvalidMonthDay),
];

#[test]
fn dates_that_do_not_exist() -> Result<(), Fail> {
    let rt = kit::HostRuntime;

    for &((year, month, month_day), expected) in FAULTS.iter() {
        let fault = match Date::new(year, month, month_day) {
            Err(TzError::DateTime(fault)) => Some(fault),
            _ => None,
        };
        expect_eq(&rt, &fault, &Some(expected));
    }
    Ok(())
}

/// Dates, their numbers, their week days and the last days of their months, and how they are
/// printed.
static DATES: [((i32, u8, u8), i64, u8, u8, &str); 7] = [
    ((1970, 1, 1), 0, 4, 31, "1970-01-01"),
    ((1969, 12, 31), -1, 3, 31, "1969-12-31"),
    ((2024, 2, 9), 19_762, 5, 29, "2024-02-09"),
    ((1, 1, 1), -719_162, 1, 31, "1-01-01"),
    ((-1, 2, 28), -719_835, 0, 28, "-1-02-28"),
    (
        (-2_147_483_648, 1, 1),
        -784_353_015_833,
        2,
        31,
        "-2147483648-01-01",
    ),
    (
        (2_147_483_647, 12, 31),
        784_351_576_776,
        2,
        31,
        "2147483647-12-31",
    ),
];

#[test]
fn numbers_week_days_and_texts() -> Result<(), Fail> {
    let rt = kit::HostRuntime;

    for &((year, month, month_day), number, week_day, last, text) in DATES.iter() {
        let date = Date::new(year, month, month_day)?;
        expect_eq(&rt, &date.day_number(), &number);
        expect_eq(&rt, &Date::from_day_number(number), &Some(date));
        expect_eq(&rt, &date.week_day(), &week_day);
        expect_eq(&rt, &date.last_of_month().month_day(), &last);
        expect_eq(&rt, &days_in_month(year, month), &Some(last));
        let printed = format_in!(rt.alloc(); "{date}")?;
        expect_eq(&rt, &printed.as_str(), &text);
        expect_eq(&rt, &Date::parse(text.as_bytes()).ok(), &Some(date));
    }
    expect_eq(&rt, &Date::from_day_number(784_351_576_777), &None);
    expect_eq(&rt, &Date::from_day_number(-784_353_015_834), &None);
    expect_eq(&rt, &days_in_month(2024, 13), &None);
    expect_eq(&rt, &days_in_month(2024, 0), &None);
    expect_eq(
        &rt,
        &(is_leap_year(2000), is_leap_year(1900)),
        &(true, false),
    );
    Ok(())
}

/// Second 60 is one of its own date, and reads as the next one's first.
#[test]
fn dates_of_date_times() -> Result<(), Fail> {
    let rt = kit::HostRuntime;

    let date = Date::new(2016, 12, 31)?;
    let last = date.at(23, 59, 60, 5)?;
    expect_eq(&rt, &last, &UtcDateTime::new(2016, 12, 31, 23, 59, 60, 5)?);
    expect_eq(&rt, &Date::of(&last), &date);
    let next = start_of_day(&TimeZoneRef::utc(), Date::new(2017, 1, 1)?)?;
    let next = next.ok_or("skipped")?;
    expect_eq(&rt, &next.unix_time(), &last.unix_time());
    let tokyo = LocalTimeType::with_ut_offset(32_400)?;
    let shown = DateTime::from_timespec_and_local(1_483_196_400, 0, tokyo)?;
    expect_eq(&rt, &Date::of_date_time(&shown), &Date::new(2017, 1, 1)?);
    let fault = match date.at(24, 0, 0, 0) {
        Err(TzError::DateTime(fault)) => Some(fault),
        _ => None,
    };
    expect_eq(&rt, &fault, &Some(DateTimeError::InvalidHour));
    let last = Date::new(2_147_483_647, 12, 31)?;
    let past = match last.at(23, 59, 60, 0) {
        Err(TzError::OutOfRange) => true,
        _ => false,
    };
    expect_eq(&rt, &past, &true);
    Ok(())
}
