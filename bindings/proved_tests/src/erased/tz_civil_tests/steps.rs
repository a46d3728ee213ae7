// Tests from crates/tz_civil_tests/src/steps.rt by bindings/erase. Change that file instead.
//! Steps from date to date, by rows. Expected dates are of Python's `datetime` and `calendar`, with
//! years moved by cycles of 400 at the ends.

use crate::erased::tz_civil_tests::expect::expect_eq;
use crate::kit::test::Fail;
use crate::kit::{self};
use tz::proved::tz_civil::Date;

/// The year, the month and the day of the month.
type Parts = (i32, u8, u8);

fn parts_of(date: Date) -> Parts {
    (date.year(), date.month(), date.month_day())
}

fn date_of(parts: Parts) -> Option<Date> {
    Date::new(parts.0, parts.1, parts.2).ok()
}

/// Days later, or none.
static DAYS: [(Parts, i64, Option<Parts>); 9] = [
    ((2024, 2, 28), 1, Some((2024, 2, 29))),
    ((2024, 3, 1), -1, Some((2024, 2, 29))),
    ((2023, 12, 31), 366, Some((2024, 12, 31))),
    ((1970, 1, 1), -719_162, Some((1, 1, 1))),
    (
        (-2_147_483_648, 1, 1),
        1_568_704_592_609,
        Some((2_147_483_647, 12, 31)),
    ),
    ((-2_147_483_648, 1, 1), -1, None),
    ((2_147_483_647, 12, 31), 1, None),
    ((2024, 2, 28), 9_223_372_036_854_775_807, None),
    ((1969, 12, 31), -9_223_372_036_854_775_808, None),
];

#[test]
fn days_later() -> Result<(), Fail> {
    let rt = kit::HostRuntime;

    for &(parts, days, expected) in DAYS.iter() {
        let date = date_of(parts).ok_or("no date")?;
        expect_eq(&rt, &date.checked_add_days(days).map(parts_of), &expected);
        if let Some(later) = date.checked_add_days(days) {
            expect_eq(&rt, &later.days_since(date), &days);
        }
    }
    Ok(())
}

/// Months later, or none.
static MONTHS: [(Parts, i32, Option<Parts>); 15] = [
    ((2023, 1, 31), 1, Some((2023, 2, 28))),
    ((2024, 1, 31), 1, Some((2024, 2, 29))),
    ((2024, 1, 31), 2, Some((2024, 3, 31))),
    ((2024, 1, 31), -11, Some((2023, 2, 28))),
    ((2024, 1, 31), 2_147_483_647, Some((178_958_994, 8, 31))),
    ((2024, 1, 31), -2_147_483_648, Some((-178_954_947, 5, 31))),
    ((2024, 2, 29), 12, Some((2025, 2, 28))),
    ((2024, 2, 29), 48, Some((2028, 2, 29))),
    ((2024, 12, 15), 1, Some((2025, 1, 15))),
    ((2025, 1, 15), -1, Some((2024, 12, 15))),
    ((2025, 1, 15), 0, Some((2025, 1, 15))),
    ((2_147_483_647, 11, 30), 1, Some((2_147_483_647, 12, 30))),
    ((2_147_483_647, 12, 1), 1, None),
    ((-2_147_483_648, 2, 29), -1, Some((-2_147_483_648, 1, 29))),
    ((-2_147_483_648, 1, 31), -1, None),
];

#[test]
fn months_later() -> Result<(), Fail> {
    let rt = kit::HostRuntime;

    for &(parts, months, expected) in MONTHS.iter() {
        let date = date_of(parts).ok_or("no date")?;
        expect_eq(
            &rt,
            &date.checked_add_months(months).map(parts_of),
            &expected,
        );
    }
    Ok(())
}

/// The next date with a week day, or none.
static NEXT: [(Parts, u8, Option<Parts>); 6] = [
    ((2025, 11, 27), 4, Some((2025, 12, 4))),
    ((2025, 11, 27), 5, Some((2025, 11, 28))),
    ((2025, 11, 27), 3, Some((2025, 12, 3))),
    ((2025, 11, 27), 7, None),
    ((2_147_483_647, 12, 31), 3, None),
    ((-2_147_483_648, 1, 1), 1, Some((-2_147_483_648, 1, 7))),
];

#[test]
fn next_week_days() -> Result<(), Fail> {
    let rt = kit::HostRuntime;

    for &(parts, week_day, expected) in NEXT.iter() {
        let date = date_of(parts).ok_or("no date")?;
        expect_eq(&rt, &date.next_week_day(week_day).map(parts_of), &expected);
    }
    Ok(())
}

/// Year, month, n and week day, and the day of the month, or none.
static NTH: [(i32, u8, i8, u8, Option<u8>); 20] = [
    (2025, 11, 4, 4, Some(27)),
    (2025, 11, -1, 4, Some(27)),
    (2025, 11, -4, 4, Some(6)),
    (2025, 11, 5, 4, None),
    (2025, 11, -5, 4, None),
    (2025, 3, -1, 0, Some(30)),
    (2025, 3, 5, 0, Some(30)),
    (2025, 3, -5, 0, Some(2)),
    (2024, 2, 5, 4, Some(29)),
    (2023, 2, 5, 4, None),
    (2015, 2, 1, 0, Some(1)),
    (2015, 2, -4, 0, Some(1)),
    (2015, 2, 5, 0, None),
    (2025, 11, 0, 4, None),
    (2025, 11, 6, 4, None),
    (2025, 11, 127, 4, None),
    (2025, 11, -128, 4, None),
    (2025, 0, 1, 4, None),
    (2025, 13, 1, 4, None),
    (2025, 11, 1, 7, None),
];

#[test]
fn nth_week_days() -> Result<(), Fail> {
    let rt = kit::HostRuntime;

    for &(year, month, n, week_day, expected) in NTH.iter() {
        let found = Date::nth_week_day(year, month, n, week_day);
        let expected = expected.map(|month_day| (year, month, month_day));
        expect_eq(&rt, &found.map(parts_of), &expected);
    }
    Ok(())
}
