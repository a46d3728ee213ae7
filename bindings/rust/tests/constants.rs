//! Every `const fn` of tz-rs, and of this crate, in a constant; and the constants of the calendar.

use std::time::Duration;
use tz::calendar::{days_in_month, is_leap_year};
use tz::constants::*;
use tz::format::{FormattedDateTime, FormattedUtcDateTime, Pattern, UtcPattern};
use tz::timezone::{
    AlternateTime, Julian0WithLeap, Julian1WithoutLeap, LeapSecond, MonthWeekDay, RuleDay,
    Transition, TransitionRule,
};
use tz::{Change, Date, DateTime, LocalTimeType, Segment, TimeZoneRef, UtcDateTime, WeekDate};

/// A result's value, in a constant.
macro_rules! made {
    ($result:expr) => {
        match $result {
            Ok(value) => value,
            Err(_) => panic!("refused"),
        }
    };
}

/// An option's value, in a constant.
macro_rules! there {
    ($option:expr) => {
        match $option {
            Some(value) => value,
            None => panic!("none"),
        }
    };
}

// Parts of zones.
const CET: LocalTimeType = made!(LocalTimeType::new(3600, false, Some(b"CET")));
const CEST: LocalTimeType = made!(LocalTimeType::new(7200, true, Some(b"CEST")));
const WET: LocalTimeType = made!(LocalTimeType::with_ut_offset(0));
const START: MonthWeekDay = made!(MonthWeekDay::new(3, 5, 0));
const DAY: Julian1WithoutLeap = made!(Julian1WithoutLeap::new(365));
const ZERO_DAY: Julian0WithLeap = made!(Julian0WithLeap::new(0));
const RULE: AlternateTime = made!(AlternateTime::new(
    CET,
    CEST,
    RuleDay::MonthWeekDay(START),
    7200,
    RuleDay::MonthWeekDay(made!(MonthWeekDay::new(10, 5, 0))),
    10_800,
));
const EXTRA: Option<TransitionRule> = Some(TransitionRule::Alternate(RULE));
const TRANSITIONS: &[Transition] = &[Transition::new(0, 1), Transition::new(954_032_400 + 22, 2)];
const TYPES: &[LocalTimeType] = &[WET, CET, CEST];
const LEAPS: &[LeapSecond] = &[
    LeapSecond::new(78_796_800, 22),
    LeapSecond::new(94_694_401, 23),
];
const ZONE: TimeZoneRef<'static> = made!(TimeZoneRef::new(
    &[Transition::new(0, 1), Transition::new(954_032_400, 2)],
    TYPES,
    &[],
    &EXTRA,
));
const UTC: TimeZoneRef<'static> = TimeZoneRef::utc();

// Readings of parts.
const PARTS: (i64, usize, i64, i32) = (
    TRANSITIONS[1].unix_leap_time(),
    TRANSITIONS[1].local_time_type_index(),
    LEAPS[1].unix_leap_time(),
    LEAPS[1].correction(),
);
const TYPE_PARTS: (i32, bool, &str) = (
    CEST.ut_offset(),
    CEST.is_dst(),
    CEST.time_zone_designation(),
);
const DAYS: (u8, u8, u8, u16, u16) = (
    START.month(),
    START.week(),
    START.week_day(),
    DAY.get(),
    ZERO_DAY.get(),
);
const RULE_PARTS: (&LocalTimeType, &LocalTimeType, &RuleDay, i32, &RuleDay, i32) = (
    RULE.std(),
    RULE.dst(),
    RULE.dst_start(),
    RULE.dst_start_time(),
    RULE.dst_end(),
    RULE.dst_end_time(),
);
const ZONE_PARTS: (
    &[Transition],
    &[LocalTimeType],
    &[LeapSecond],
    &Option<TransitionRule>,
) = (
    ZONE.transitions(),
    ZONE.local_time_types(),
    ZONE.leap_seconds(),
    ZONE.extra_rule(),
);
const FOUND: &LocalTimeType = made!(ZONE.find_local_time_type(1_000_000_000));

// Date times.
const MOON: UtcDateTime = made!(UtcDateTime::new(1969, 7, 20, 20, 17, 40, 5));
const LATER: UtcDateTime = made!(UtcDateTime::from_timespec(1_000_000_000, 7));
const SAME: UtcDateTime = made!(UtcDateTime::from_total_nanoseconds(
    LATER.total_nanoseconds()
));
const SUM: UtcDateTime = there!(MOON.checked_add(Duration::from_secs(1)));
const DIFFERENCE: UtcDateTime = there!(MOON.checked_sub(Duration::from_secs(1)));
const BETWEEN: Duration = made!(LATER.duration_since(MOON));
const UTC_PARTS: (i32, u8, u8, u8, u8, u8, u32, u8, u16, i64) = (
    MOON.year(),
    MOON.month(),
    MOON.month_day(),
    MOON.hour(),
    MOON.minute(),
    MOON.second(),
    MOON.nanoseconds(),
    MOON.week_day(),
    MOON.year_day(),
    MOON.unix_time(),
);
const SHOWN: DateTime = made!(LATER.project(ZONE));
const NEW: DateTime = made!(DateTime::new(2001, 9, 9, 3, 46, 40, 7, CEST));
const IN_TYPE: DateTime = made!(DateTime::from_timespec_and_local(1_000_000_000, 7, CEST));
const IN_ZONE: DateTime = made!(DateTime::from_timespec(1_000_000_000, 7, ZONE));
const TOTAL: i128 = IN_ZONE.total_nanoseconds();
const OF_TOTAL_IN_TYPE: DateTime = made!(DateTime::from_total_nanoseconds_and_local(TOTAL, CEST));
const OF_TOTAL: DateTime = made!(DateTime::from_total_nanoseconds(TOTAL, ZONE));
const IN_UTC: DateTime = made!(IN_ZONE.project(UTC));
const NO_TIME: Duration = made!(IN_ZONE.duration_since(IN_UTC));
const DATE_TIME_PARTS: (i32, u8, u8, u8, u8, u8, u32, u8, u16, i64, &LocalTimeType) = (
    IN_ZONE.year(),
    IN_ZONE.month(),
    IN_ZONE.month_day(),
    IN_ZONE.hour(),
    IN_ZONE.minute(),
    IN_ZONE.second(),
    IN_ZONE.nanoseconds(),
    IN_ZONE.week_day(),
    IN_ZONE.year_day(),
    IN_ZONE.unix_time(),
    IN_ZONE.local_time_type(),
);

// Beyond tz-rs.
const SEGMENT: Segment<'static> = ZONE.segment_at(1_000_000_000);
const SEGMENT_PARTS: (i64, i64, Option<&LocalTimeType>, bool) = (
    SEGMENT.from(),
    SEGMENT.last(),
    SEGMENT.local_time_type(),
    SEGMENT.contains(0),
);
const NEXT: Change<'static> = there!(ZONE.following(1_000_000_000));
const PREVIOUS: Change<'static> = there!(ZONE.preceding(1_000_000_000));
const CHANGE_PARTS: (i64, &LocalTimeType, &LocalTimeType) =
    (NEXT.unix_time(), NEXT.before(), NEXT.after());
// March 1st at noon, and the sixtieth day of the year at 18:00, which comes before it in leap years.
const CONFLICT: Option<(i32, i32, i32)> = AlternateTime::conflict(
    CET,
    CEST,
    RuleDay::Julian1WithoutLeap(made!(Julian1WithoutLeap::new(60))),
    43_200,
    RuleDay::Julian0WithLeap(made!(Julian0WithLeap::new(59))),
    64_800,
);

// Dates.
const DATE: Date = made!(Date::new(2001, 9, 9));
const LATER_DATES: (Option<Date>, Option<Date>, Option<Date>) = (
    DATE.checked_add_days(1),
    DATE.checked_add_months(1),
    DATE.next_week_day(1),
);
const FOURTH_THURSDAY: Date = there!(Date::nth_week_day(2025, 11, 4, 4));
const WEEK_DATE: WeekDate = there!(DATE.week_date());
const OF_WEEK_DATE: Option<Date> = Date::from_week_date(WEEK_DATE);
const DATE_PARTS: (i32, u8, u8, i64, u8) = (
    DATE.year(),
    DATE.month(),
    DATE.month_day(),
    DATE.day_number(),
    DATE.week_day(),
);
const LAST_OF_MONTH: Date = DATE.last_of_month();
const DAYS_SINCE: i64 = LAST_OF_MONTH.days_since(DATE);
const OF_NUMBER: Option<Date> = Date::from_day_number(DATE.day_number());
const NOON: UtcDateTime = made!(DATE.at(12, 0, 0, 0));
const DATES_OF: (Date, Date) = (NOON.date(), SHOWN.date());
const START_OF_DAY: DateTime = there!(made!(ZONE.start_of_day(DATE)));
const CALENDAR: (bool, Option<u8>) = (is_leap_year(2000), days_in_month(2000, 2));

// Patterns.
const PATTERN: Pattern<'static> = made!(Pattern::new("%e %B %Y, %R %Z"));
const PATTERN_PARTS: (&str, usize) = (PATTERN.as_str(), PATTERN.max_len());
const UTC_PATTERN: UtcPattern<'static> = UtcPattern::new(PATTERN);
const PRINTED: FormattedDateTime<'static> = UTC_PATTERN.pattern().format(&IN_ZONE);
const PRINTED_IN_UTC: FormattedUtcDateTime<'static> = UTC_PATTERN.format(&MOON);

#[test]
fn patterns_have_the_values_that_calls_have() {
    // 2, 9 for September, 11 for the first years, 5, 10 for an offset, and 5 characters.
    assert_eq!(PATTERN_PARTS, ("%e %B %Y, %R %Z", 42));
    assert_eq!(PRINTED.to_string(), " 9 September 2001, 03:46 CEST");
    assert_eq!(PRINTED_IN_UTC.to_string(), "20 July 1969, 20:17 UTC");
}

#[test]
fn dates_have_the_values_that_calls_have() {
    let later = Date::new(2001, 9, 10).ok();
    assert_eq!(LATER_DATES, (later, Date::new(2001, 10, 9).ok(), later));
    assert_eq!(FOURTH_THURSDAY.to_string(), "2025-11-27");
    assert_eq!((WEEK_DATE.week, OF_WEEK_DATE), (36, Some(DATE)));
    assert_eq!(DATE_PARTS, (2001, 9, 9, 11_574, 0));
    assert_eq!((DAYS_SINCE, OF_NUMBER), (21, Some(DATE)));
    assert_eq!(DATES_OF, (DATE, DATE));
    assert_eq!(
        START_OF_DAY.to_string(),
        "2001-09-09T00:00:00.000000000+02:00"
    );
    assert_eq!(CALENDAR, (true, Some(29)));
}

/// The numbers of the calendar, each of which std's or this crate's calls give, too.
#[test]
fn the_calendar_has_its_numbers() {
    assert_eq!(NANOSECONDS_PER_SECOND, Duration::MAX.subsec_nanos() + 1);
    assert_eq!((SECONDS_PER_MINUTE, MINUTES_PER_HOUR), (60, 60));
    assert_eq!((HOURS_PER_DAY, DAYS_PER_WEEK, MONTHS_PER_YEAR), (24, 7, 12));
    assert_eq!((SECONDS_PER_HOUR, SECONDS_PER_DAY), (3600, 86_400));
    assert_eq!(
        (SECONDS_PER_WEEK, SECONDS_PER_28_DAYS),
        (604_800, 2_419_200)
    );
    let years = [2001, 2000].map(|year| (1..=12).map(move |month| days_in_month(year, month)));
    let [normal, leap] = years.map(|days| days.map(|it| i64::from(it.unwrap())));
    let leap: Vec<i64> = leap.collect();
    let normal: Vec<i64> = normal.collect();
    assert_eq!(normal, DAYS_IN_MONTHS_NORMAL_YEAR);
    for month in 0..12 {
        let (of_normal, of_leap) = (&normal[..month], &leap[..month]);
        assert_eq!(
            CUMUL_DAYS_IN_MONTHS_NORMAL_YEAR[month],
            of_normal.iter().sum::<i64>()
        );
        assert_eq!(
            CUMUL_DAYS_IN_MONTHS_LEAP_YEAR[month],
            of_leap.iter().sum::<i64>()
        );
        assert_eq!(
            DAY_IN_MONTHS_LEAP_YEAR_FROM_MARCH[month],
            leap[(month + 2) % 12]
        );
    }
    let days_of = |years: std::ops::Range<i32>| {
        let leap = years.clone().filter(|&year| is_leap_year(year)).count();
        365 * years.len() as i64 + leap as i64
    };
    assert_eq!(DAYS_PER_NORMAL_YEAR, days_of(2001..2002));
    assert_eq!(DAYS_PER_4_YEARS, days_of(2001..2005));
    assert_eq!(DAYS_PER_100_YEARS, days_of(2001..2101));
    assert_eq!(DAYS_PER_400_YEARS, days_of(2001..2401));
    assert_eq!(SECONDS_PER_NORMAL_YEAR, 86_400 * days_of(2001..2002));
    assert_eq!(SECONDS_PER_LEAP_YEAR, 86_400 * days_of(2000..2001));
    let first = UtcDateTime::new(2000, 3, 1, 0, 0, 0, 0).unwrap();
    assert_eq!(
        (UNIX_OFFSET_SECS, OFFSET_YEAR),
        (first.unix_time(), i64::from(first.year()))
    );
}

#[test]
fn constants_have_the_values_that_calls_have() {
    assert_eq!(PARTS, (954_032_422, 2, 94_694_401, 23));
    assert_eq!(TYPE_PARTS, (7200, true, "CEST"));
    assert_eq!(DAYS, (3, 5, 0, 365, 0));
    assert_eq!((RULE_PARTS.0, RULE_PARTS.1), (&CET, &CEST));
    assert_eq!(RULE_PARTS.2, &RuleDay::MonthWeekDay(START));
    assert_eq!((RULE_PARTS.3, RULE_PARTS.5), (7200, 10_800));
    assert_eq!(
        format!("{:?}", RULE_PARTS.4),
        "MonthWeekDay(MonthWeekDay { month: 10, week: 5, week_day: 0 })"
    );
    assert_eq!(
        (
            ZONE_PARTS.0.len(),
            ZONE_PARTS.1,
            ZONE_PARTS.2.len(),
            ZONE_PARTS.3
        ),
        (2, TYPES, 0, &EXTRA)
    );
    assert_eq!(FOUND, &CEST);
    assert_eq!(UTC_PARTS, (1969, 7, 20, 20, 17, 40, 5, 0, 200, -14_182_940));
    assert_eq!(SAME, LATER);
    assert_eq!((SUM.second(), DIFFERENCE.second()), (41, 39));
    assert_eq!(BETWEEN, Duration::new(1_014_182_940, 2));
    for date_time in [SHOWN, NEW, IN_TYPE, IN_ZONE, OF_TOTAL_IN_TYPE, OF_TOTAL] {
        assert_eq!(date_time.to_string(), "2001-09-09T03:46:40.000000007+02:00");
    }
    assert_eq!(IN_UTC.to_string(), "2001-09-09T01:46:40.000000007Z");
    assert_eq!(NO_TIME, Duration::ZERO);
    assert_eq!(
        DATE_TIME_PARTS,
        (2001, 9, 9, 3, 46, 40, 7, 0, 251, 1_000_000_000, &CEST)
    );
    // 2001-03-25 and 2001-10-28, at 1:00 UTC.
    assert_eq!(
        SEGMENT_PARTS,
        (985_482_000, 1_004_230_799, Some(&CEST), false)
    );
    assert_eq!(CHANGE_PARTS, (1_004_230_800, &CEST, &CET));
    assert_eq!(
        (PREVIOUS.unix_time(), PREVIOUS.after()),
        (985_482_000, &CEST)
    );
    assert!(CONFLICT.is_some());
}
