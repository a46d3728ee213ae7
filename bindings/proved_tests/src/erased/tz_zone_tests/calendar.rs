// Tests from crates/tz_zone_tests/src/calendar.rt by bindings/erase. Change that file instead.
//! Days and readings from outside.

use crate::kit::process::Abort;
use crate::kit::test::Fail;
use crate::kit::{self};
use tz::proved::tz_base::fields::{Fields, is_reading};

/// Fields at midnight.
fn midnight(year: i32, month: u8, month_day: u8) -> Fields {
    Fields {
        year,
        month,
        month_day,
        hour: 0,
        minute: 0,
        second: 0,
        nanoseconds: 0,
    }
}

/// The reading, the week day and the day of the year, if the fields are valid.
fn facts(fields: Fields) -> Option<(i64, u8, u16)> {
    fields.check().ok()?;
    Some((fields.reading(), fields.week_day(), fields.year_day()))
}

/// The civil fields, if the reading has some.
fn civil(reading: i64) -> Option<Fields> {
    if is_reading(reading) {
        Some(Fields::from_reading(reading, 0))
    } else {
        None
    }
}

/// The week day of the day with this number.
fn week_day_at(day: i64) -> u8 {
    (day.wrapping_add(4).rem_euclid(7) & 7) as u8
}

/// Whether the calendar finds the day by its number, and the number by the day.
fn agrees(fields: Fields, day: i64, year_day: u16) -> bool {
    let reading = day.wrapping_mul(86_400);
    facts(fields) == Some((reading, week_day_at(day), year_day)) && civil(reading) == Some(fields)
}

/// Years, and the numbers of the first days of their months and of the next year.
static YEARS: &str = "\
-2147483648 | -784353015833 -784353015802 -784353015773 -784353015742 -784353015712 -784353015681 -784353015651 -784353015620 -784353015589 -784353015559 -784353015528 -784353015498 -784353015467
1600 | -135140 -135109 -135080 -135049 -135019 -134988 -134958 -134927 -134896 -134866 -134835 -134805 -134774
1700 | -98615 -98584 -98556 -98525 -98495 -98464 -98434 -98403 -98372 -98342 -98311 -98281 -98250
1999 | 10592 10623 10651 10682 10712 10743 10773 10804 10835 10865 10896 10926 10957
2000 | 10957 10988 11017 11048 11078 11109 11139 11170 11201 11231 11262 11292 11323
2004 | 12418 12449 12478 12509 12539 12570 12600 12631 12662 12692 12723 12753 12784
2100 | 47482 47513 47541 47572 47602 47633 47663 47694 47725 47755 47786 47816 47847
2147483647 | 784351576412 784351576443 784351576471 784351576502 784351576532 784351576563 784351576593 784351576624 784351576655 784351576685 784351576716 784351576746 784351576777
";

/// The calendar finds the day by its number, and the number by the day.
fn expect_agrees(rt: &impl Abort, fields: Fields, day: i64, year_day: u16) {
    let (year, month) = (fields.year, fields.month);
    assert!(agrees(fields, day, year_day), "{year}-{month}");
}

/// The months of a year begin with these days, and end before the next of them.
fn expect_months(rt: &impl Abort, year: i32, firsts: &str) -> Result<(), Fail> {
    let mut firsts = firsts.split(' ');
    let mut first = firsts.next().ok_or("no day")?.parse::<i64>()?;
    let mut year_day = 0u16;
    for (month, next) in (1u8..).zip(firsts) {
        let next = next.parse::<i64>()?;
        expect_agrees(rt, midnight(year, month, 1), first, year_day);
        let length = u8::try_from(next.wrapping_sub(first)).unwrap_or(0);
        let last = midnight(year, month, length);
        year_day = year_day.wrapping_add(u16::from(length));
        expect_agrees(rt, last, next.wrapping_sub(1), year_day.wrapping_sub(1));
        first = next;
    }
    Ok(())
}

#[test]
fn months_begin_and_end() -> Result<(), Fail> {
    let rt = kit::HostRuntime;

    for row in YEARS.lines() {
        let (year, firsts) = row.split_once(" | ").ok_or("no ` | ` in a row")?;
        expect_months(&rt, year.parse::<i32>()?, firsts)?;
    }
    Ok(())
}
