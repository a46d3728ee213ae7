//! Calls beside slower or other ways to the same answer.

use tz::error::timezone::TransitionRuleError;
use tz::timezone::{
    AlternateTime, Julian0WithLeap, Julian1WithoutLeap, MonthWeekDay, RuleDay, TransitionRule,
};
use tz::{LocalTimeType, ParsedDateTime, TimeZoneRef, UtcDateTime};

/// Numbers that look random (Knuth's linear congruential generator).
struct Numbers(u64);

impl Numbers {
    fn below(&mut self, count: u64) -> u64 {
        self.0 = self.0.wrapping_mul(6_364_136_223_846_793_005);
        self.0 = self.0.wrapping_add(1_442_695_040_888_963_407);
        (self.0 >> 33) % count
    }

    fn between(&mut self, least: i64, greatest: i64) -> i64 {
        least + self.below((greatest - least + 1) as u64) as i64
    }
}

/// A year may have any number of zeros before it, and texts with the usual number of digits are
/// read by a way of their own: both ways read the same, or miss the same part at the same place.
#[test]
fn a_zero_before_the_year_changes_nothing() {
    let texts = [
        "2024-02-29T07:58:09.123456789Z",
        "2024-02-29T07:58:09.123456789+01:30",
        "2023-12-31T23:59:60.000000000-23:59",
        "2024-02-29T07:58:09.123456789",
        "2024-02-29T07:58:09Z",
        "2024-02-29 07:58",
    ];
    for text in texts {
        for place in 4..text.len() {
            for byte in 0..=u8::MAX {
                let mut bytes = text.as_bytes().to_vec();
                bytes[place] = byte;
                let found = ParsedDateTime::parse(&bytes);
                bytes.insert(0, b'0');
                match (found, ParsedDateTime::parse(&bytes)) {
                    (Ok(found), Ok(other)) => {
                        assert_eq!(found.local(), other.local());
                        assert_eq!(found.ut_offset(), other.ut_offset());
                        assert_eq!(found.unix_time(), other.unix_time());
                    }
                    (Err(found), Err(other)) => {
                        assert_eq!(found.expected, other.expected);
                        assert_eq!(found.position + 1, other.position);
                    }
                    (found, other) => panic!("{text} {place} {byte}: {found:?}, {other:?}"),
                }
            }
        }
    }
}

#[test]
fn nanoseconds_print_as_nine_digits() {
    for nanoseconds in (0..1_000_000_000).step_by(99_991) {
        let date_time = UtcDateTime::from_timespec(0, nanoseconds).unwrap();
        let text = format!("1970-01-01T00:00:00.{nanoseconds:09}Z");
        assert_eq!(date_time.to_string(), text);
    }
}

#[test]
fn utc_has_one_type_and_no_rule() {
    let zone = TimeZoneRef::utc();
    assert!(zone.transitions().is_empty());
    assert!(zone.leap_seconds().is_empty());
    assert_eq!(zone.extra_rule(), &None::<TransitionRule>);
    let [only] = zone.local_time_types() else {
        panic!("not one type");
    };
    assert_eq!(only, &LocalTimeType::utc());
    assert_eq!((only.ut_offset(), only.is_dst()), (0, false));
    assert_eq!(only.time_zone_designation(), "");
}

/// A day of a rule.
#[derive(Clone, Copy, Debug)]
enum Day {
    Julian1(u16),
    Julian0(u16),
    Month(u8, u8, u8),
}

const MONTH_DAYS: [i64; 12] = [31, 28, 31, 30, 31, 30, 31, 31, 30, 31, 30, 31];

fn is_leap(year: i64) -> bool {
    year % 4 == 0 && (year % 100 != 0 || year % 400 == 0)
}

/// The days from 1970-01-01 to January 1st of a year after it.
fn new_year(year: i64) -> i64 {
    (1970..year).map(|it| 365 + i64::from(is_leap(it))).sum()
}

impl Day {
    /// One of about the days after New Year by this number.
    fn near(numbers: &mut Numbers, days: i64) -> Day {
        match numbers.below(3) {
            0 => Day::Julian1(days.clamp(1, 365) as u16),
            1 => Day::Julian0(days.clamp(0, 365) as u16),
            _ => {
                let month = (days.clamp(0, 365) / 31) as u8 + 1;
                let week_day = numbers.below(7) as u8;
                Day::Month(month, numbers.between(1, 5) as u8, week_day)
            }
        }
    }

    fn made(self) -> RuleDay {
        match self {
            Day::Julian1(day) => RuleDay::Julian1WithoutLeap(Julian1WithoutLeap::new(day).unwrap()),
            Day::Julian0(day) => RuleDay::Julian0WithLeap(Julian0WithLeap::new(day).unwrap()),
            Day::Month(month, week, week_day) => {
                RuleDay::MonthWeekDay(MonthWeekDay::new(month, week, week_day).unwrap())
            }
        }
    }

    /// The days from 1970-01-01 to the day in a year.
    fn in_year(self, year: i64) -> i64 {
        let leap = i64::from(is_leap(year));
        match self {
            Day::Julian1(day) => new_year(year) + i64::from(day) - 1 + leap * i64::from(day >= 60),
            Day::Julian0(day) => new_year(year) + i64::from(day),
            Day::Month(month, week, week_day) => {
                let month = usize::from(month) - 1;
                let days = |month| MONTH_DAYS[month] + leap * i64::from(month == 1);
                let first = new_year(year) + (0..month).map(days).sum::<i64>();
                let last = first + days(month) - 1;
                // 1970 began on a Thursday.
                let is_week_day = |day: &i64| (day + 4) % 7 == i64::from(week_day);
                let found: Vec<i64> = (first..=last).filter(is_week_day).collect();
                found[found.len().min(usize::from(week)) - 1]
            }
        }
    }
}

/// The years that are looked at. Each kind of year, and each kind of two years that follow one
/// another, is among them.
const YEARS: std::ops::Range<i64> = 1972..2002;

/// The days of a rule's start and end, near each other or on both sides of a New Year.
fn near_days(numbers: &mut Numbers) -> (Day, Day) {
    let days = match numbers.below(4) {
        0 => numbers.between(0, 365),
        _ => numbers.between(-9, 9),
    };
    let (start, end) = (days + numbers.between(-9, 9), days + numbers.between(-9, 9));
    (
        Day::near(numbers, start.rem_euclid(366)),
        Day::near(numbers, end.rem_euclid(366)),
    )
}

/// A rule is consistent if its start and its end, of the same year or of years that follow one
/// another, have the same order in all years.
#[test]
fn rules_are_consistent_if_their_order_never_changes() {
    const WEEK: i64 = 604_799;
    let mut numbers = Numbers(91);
    let utc = LocalTimeType::utc();
    let least = if cfg!(debug_assertions) { 2000 } else { 12_000 };
    let mut answers = [0, 0];
    while answers[0] < least || answers[1] < least {
        let (start, end) = near_days(&mut numbers);
        // In some year the end is where the start is, or a second beside it.
        let year = numbers.between(YEARS.start, YEARS.end - 1);
        let distance = numbers.between(-1, 1);
        let apart = start.in_year(year) - end.in_year(year + distance);
        let start_time = numbers.between(-WEEK, WEEK);
        let end_time = start_time + 86_400 * apart + numbers.between(-1, 1);
        if end_time.abs() > WEEK {
            continue;
        }
        let years = YEARS.start - 1..YEARS.end + 1;
        let starts: Vec<i64> = years
            .clone()
            .map(|it| 86_400 * start.in_year(it) + start_time)
            .collect();
        let ends: Vec<i64> = years
            .map(|it| 86_400 * end.in_year(it) + end_time)
            .collect();
        let is_consistent = (0..3).all(|shift| {
            let apart = || {
                starts[1..]
                    .iter()
                    .zip(&ends[shift..])
                    .map(|(start, end)| start - end)
            };
            apart().all(|it| it <= 0) || apart().all(|it| it >= 0)
        });
        let (start_time, end_time) = (start_time as i32, end_time as i32);
        let (start, end) = (start.made(), end.made());
        let rule = AlternateTime::new(utc, utc, start, start_time, end, end_time);
        let wanted = match is_consistent {
            true => Ok(()),
            false => Err(TransitionRuleError::InconsistentRule),
        };
        let found = rule.map(|_| ());
        assert_eq!(found, wanted, "{start:?}/{start_time}, {end:?}/{end_time}");
        match AlternateTime::conflict(utc, utc, start, start_time, end, end_time) {
            None => assert!(is_consistent),
            Some((later, earlier, distance)) => {
                let apart = |year: i32| {
                    let place = (i64::from(year) - YEARS.start + 1) as usize;
                    starts[place] - ends[(place as i32 + distance) as usize]
                };
                assert!(apart(later) > 0 && apart(earlier) < 0);
            }
        }
        answers[usize::from(is_consistent)] += 1;
    }
}
