//! Dates, and their starts in zones of the machine, beside simple slow ways to find them.
#![cfg(feature = "std")]

use tz::datetime::Disambiguation;
use tz::timezone::{LeapSecond, Transition};
use tz::{Date, DateTime, LocalTimeType, TimeZone, TimeZoneRef, TzError, UtcDateTime, WeekDate};

fn date(year: i32, month: u8, month_day: u8) -> Date {
    Date::new(year, month, month_day).unwrap()
}

fn named(name: &str) -> TimeZone {
    TimeZone::named(name).unwrap()
}

/// What a zone's clock shows at the start of a date, or `-` if it skips the date.
fn start(zone: &TimeZone, date: Date) -> String {
    match zone.as_ref().start_of_day(date).unwrap() {
        Some(start) => {
            assert_eq!(start.date(), date);
            start.to_string()
        }
        None => "-".to_string(),
    }
}

#[test]
fn dates_begin_where_clocks_show_them_first() {
    for (name, (year, month, month_day), shown) in [
        (
            "Europe/Paris",
            (2025, 3, 30),
            "2025-03-30T00:00:00.000000000+01:00",
        ),
        (
            "America/Sao_Paulo",
            (2018, 11, 4),
            "2018-11-04T01:00:00.000000000-02:00",
        ),
        (
            "America/Toronto",
            (1919, 3, 31),
            "1919-03-31T00:30:00.000000000-04:00",
        ),
        (
            "America/St_Johns",
            (2010, 11, 6),
            "2010-11-06T00:00:00.000000000-02:30",
        ),
        (
            "America/St_Johns",
            (2010, 11, 7),
            "2010-11-07T00:00:00.000000000-02:30",
        ),
        (
            "Antarctica/Casey",
            (2016, 10, 22),
            "2016-10-22T03:00:00.000000000+11:00",
        ),
        (
            "America/Havana",
            (2025, 11, 2),
            "2025-11-02T00:00:00.000000000-04:00",
        ),
        ("Pacific/Kwajalein", (1993, 8, 21), "-"),
        ("Pacific/Kiritimati", (1994, 12, 31), "-"),
        ("Pacific/Apia", (2011, 12, 30), "-"),
    ] {
        assert_eq!(
            start(&named(name), date(year, month, month_day)),
            shown,
            "{name}"
        );
    }
}

/// Two types, an hour apart.
fn two_types() -> [LocalTimeType; 2] {
    [
        LocalTimeType::utc(),
        LocalTimeType::with_ut_offset(3600).unwrap(),
    ]
}

#[test]
fn a_clock_that_crosses_midnight_and_goes_back_begins_the_date_at_the_jump() {
    // From 23:30 to 00:30, and ten minutes later from 00:40 to 23:40.
    let midnight = 86_400 * 20_000;
    let transitions = [
        Transition::new(midnight - 1800, 1),
        Transition::new(midnight - 1200, 0),
        Transition::new(midnight + 9_000_000, 0),
    ];
    let types = two_types();
    let zone = TimeZoneRef::new(&transitions, &types, &[], &None).unwrap();
    let date = Date::from_day_number(20_000).unwrap();
    let start = zone.start_of_day(date).unwrap().unwrap();
    assert_eq!(start.unix_time(), midnight - 1800);
    // No choice for 00:00 finds that.
    let local = date.at(0, 0, 0, 0).unwrap();
    for choice in [
        Disambiguation::Compatible,
        Disambiguation::Earlier,
        Disambiguation::Later,
    ] {
        let chosen = DateTime::from_local(local, choice, zone).unwrap().unwrap();
        assert_ne!(chosen.unix_time(), start.unix_time());
    }
    // Its table ends without a rule.
    let last = zone.start_of_day(Date::from_day_number(20_104).unwrap());
    assert!(matches!(last, Ok(Some(_))));
    let after = zone.start_of_day(Date::from_day_number(20_106).unwrap());
    assert!(matches!(after, Err(TzError::NoAvailableLocalTimeType)));
}

#[test]
fn a_table_that_ends_on_a_date_skips_the_dates_that_it_cannot_show() {
    // The last instant with a type shows 23:59:59, and the next date is a type short.
    let types = two_types();
    let transitions = [Transition::new(0, 0), Transition::new(86_400, 1)];
    let zone = TimeZoneRef::new(&transitions, &types, &[], &None).unwrap();
    assert!(matches!(zone.start_of_day(date(1970, 1, 1)), Ok(Some(_))));
    assert!(matches!(zone.start_of_day(date(1970, 1, 2)), Ok(None)));
    assert!(matches!(
        zone.start_of_day(date(1970, 1, 3)),
        Err(TzError::NoAvailableLocalTimeType)
    ));
}

#[test]
fn leap_seconds_do_not_move_dates_by_more_than_they_are() {
    // A table whose start is cut off: before it no instant has a leap time.
    let types = two_types();
    let leap_seconds = [
        LeapSecond::new(10_000_000, 5),
        LeapSecond::new(20_000_000, 6),
    ];
    let transitions = [
        Transition::new(30_000_000, 1),
        Transition::new(60_000_000, 0),
    ];
    let zone = TimeZoneRef::new(&transitions, &types, &leap_seconds, &None).unwrap();
    for day in 100..800 {
        let date = Date::from_day_number(day).unwrap();
        let (low, high) = (86_400 * day - 3600, 86_400 * day + 86_399);
        let shown = (low..=high).find(|&unix_time| {
            let shown = DateTime::from_timespec(unix_time, 0, zone);
            shown.is_ok_and(|shown| shown.date() == date)
        });
        match zone.start_of_day(date) {
            Ok(Some(start)) => assert_eq!(Some(start.unix_time()), shown),
            Ok(None) => assert_eq!(shown, None),
            Err(_) => {
                let lookup = |unix_time| zone.find_local_time_type(unix_time).is_err();
                assert!((low..=high).all(lookup));
            }
        }
    }
}

/// Zones of all kinds of dates.
const ZONES: [&str; 50] = [
    "Africa/Cairo",
    "Africa/Casablanca",
    "Africa/Johannesburg",
    "Africa/Monrovia",
    "America/Anchorage",
    "America/Asuncion",
    "America/Caracas",
    "America/Godthab",
    "America/Havana",
    "America/Juneau",
    "America/Manaus",
    "America/Metlakatla",
    "America/Mexico_City",
    "America/New_York",
    "America/Santiago",
    "America/Sao_Paulo",
    "America/Scoresbysund",
    "America/St_Johns",
    "America/Toronto",
    "Antarctica/Casey",
    "Antarctica/Troll",
    "Antarctica/Vostok",
    "Asia/Amman",
    "Asia/Beirut",
    "Asia/Gaza",
    "Asia/Kolkata",
    "Asia/Manila",
    "Asia/Pyongyang",
    "Asia/Shanghai",
    "Asia/Tehran",
    "Asia/Tokyo",
    "Atlantic/Azores",
    "Atlantic/Stanley",
    "Australia/Lord_Howe",
    "Australia/Sydney",
    "Etc/GMT+12",
    "Europe/Amsterdam",
    "Europe/Dublin",
    "Europe/London",
    "Europe/Moscow",
    "Europe/Paris",
    "Pacific/Apia",
    "Pacific/Auckland",
    "Pacific/Chatham",
    "Pacific/Fakaofo",
    "Pacific/Guam",
    "Pacific/Kanton",
    "Pacific/Kiritimati",
    "Pacific/Kwajalein",
    "UTC",
];

/// The first instant at which a clock shows each day of these, by a walk along its segments from long before them.
fn starts_by_walk(zone: TimeZoneRef<'_>, first: i64, last: i64) -> Vec<Option<i64>> {
    let mut starts = vec![None; (last - first + 1) as usize];
    let mut at = 86_400 * (first - 2);
    while at < 86_400 * (last + 3) {
        let segment = zone.segment_at(at);
        let end = segment.last().min(86_400 * (last + 3));
        if let Some(local_time_type) = segment.local_time_type() {
            let offset = i64::from(local_time_type.ut_offset());
            let days = (at + offset).div_euclid(86_400)..=(end + offset).div_euclid(86_400);
            for day in days.filter(|day| (first..=last).contains(day)) {
                let start = &mut starts[(day - first) as usize];
                start.get_or_insert(at.max(86_400 * day - offset));
            }
        }
        at = end + 1;
    }
    starts
}

#[test]
fn each_date_of_fifty_zones_begins_where_a_walk_finds_it_first() {
    let (first, last) = (
        date(1850, 1, 1).day_number(),
        date(2100, 12, 31).day_number(),
    );
    let (mut skipped, mut late) = (0, 0);
    for name in ZONES {
        let zone = named(name);
        let zone = zone.as_ref();
        let starts = starts_by_walk(zone, first, last);
        for (day, walked) in (first..=last).zip(starts) {
            let date = Date::from_day_number(day).unwrap();
            let start = zone.start_of_day(date).unwrap();
            assert_eq!(
                start.map(|start| start.unix_time()),
                walked,
                "{name} {date}"
            );
            match start {
                Some(start) => late += i32::from((start.hour(), start.minute()) != (0, 0)),
                None => skipped += 1,
            }
        }
    }
    assert_eq!((skipped, late > 0), (5, true));
}

/// Clocks with three offsets in turn: the first change is a second before, at or after what would
/// be a midnight of one of them, and the second follows within a day and a second.
#[test]
fn dates_begin_where_a_walk_finds_them_first_if_clocks_change_around_midnight() {
    let offsets = [-3600, 0, 3600, 86_400];
    let around = |seconds: i64| [seconds - 1, seconds, seconds + 1];
    let days = 19_997..=20_003;
    for index in 0..offsets.len().pow(3) {
        let types = [index / 16, index / 4 % 4, index % 4]
            .map(|place| LocalTimeType::with_ut_offset(offsets[place]).unwrap());
        for first in [-3600, 0, 3600].into_iter().flat_map(around) {
            for second in [2, 3600, 7200, 86_400].into_iter().flat_map(around) {
                let change = 86_400 * 20_000 + first;
                let transitions = [
                    Transition::new(change, 1),
                    Transition::new(change + second, 2),
                    Transition::new(change + 9_000_000, 2),
                ];
                let zone = TimeZoneRef::new(&transitions, &types, &[], &None).unwrap();
                let starts = starts_by_walk(zone, *days.start(), *days.end());
                for (day, walked) in days.clone().zip(starts) {
                    let date = Date::from_day_number(day).unwrap();
                    let start = zone.start_of_day(date).unwrap();
                    assert_eq!(
                        start.map(|start| start.unix_time()),
                        walked,
                        "{types:?} {first} {second} {date}"
                    );
                }
            }
        }
    }
}

#[test]
fn each_day_of_a_cycle_has_its_date_and_its_week_date() {
    let mut before: Option<(Date, WeekDate)> = None;
    for day in -800_000..=-800_000 + 146_097 {
        let date = Date::from_day_number(day).unwrap();
        assert_eq!(date.day_number(), day);
        let midnight = UtcDateTime::from_timespec(86_400 * day, 0).unwrap();
        assert_eq!(
            (midnight.date(), midnight.week_day()),
            (date, date.week_day())
        );
        assert_eq!(date.at(0, 0, 0, 0).unwrap(), midnight);
        let week_date = date.week_date().unwrap();
        assert_eq!(Date::from_week_date(week_date), Some(date));
        assert_eq!(week_date.week_day % 7, date.week_day());
        if let Some((yesterday, week_date_before)) = before {
            assert!(yesterday < date && week_date_before < week_date);
            assert_eq!(yesterday.checked_add_days(1), Some(date));
            assert_eq!(date.days_since(yesterday), 1);
            assert_eq!(yesterday.next_week_day(date.week_day()), Some(date));
        }
        before = Some((date, week_date));
    }
}

#[test]
fn printed_dates_are_read_and_other_texts_are_not() {
    for number in (-800_000..800_000).step_by(37) {
        let date = Date::from_day_number(number).unwrap();
        assert_eq!(date.to_string().parse(), Ok(date));
    }
    for date in [Date::MIN, Date::MAX, date(0, 1, 1), date(-1, 12, 31)] {
        assert_eq!(Date::parse(date.to_string().as_bytes()), Ok(date));
    }
    for (text, read) in [
        ("0033-01-02", date(33, 1, 2)),
        ("-0-01-01", date(0, 1, 1)),
        ("00002024-02-29", date(2024, 2, 29)),
    ] {
        assert_eq!(text.parse(), Ok(read), "{text}");
    }
    for (text, message) in [
        ("", "expected a year of four digits or more at byte 0"),
        (
            "033-01-01",
            "expected a year of four digits or more at byte 0",
        ),
        (
            "+2024-01-01",
            "expected a year of four digits or more at byte 0",
        ),
        (
            "2147483648-01-01",
            "expected a year of four digits or more at byte 0",
        ),
        ("2024", "expected `-` at byte 4"),
        ("2024-1-01", "expected a month from 01 to 12 at byte 5"),
        ("2024-13-01", "expected a month from 01 to 12 at byte 5"),
        ("2023-02-29", "expected a day of the month at byte 8"),
        ("2024-02-2", "expected a day of the month at byte 8"),
        ("2024-02-29 ", "expected an hour from 00 to 23 at byte 11"),
        ("2024-02-291", "expected the end at byte 10"),
        ("2024-02-29T00:00:00Z", "expected the end at byte 20"),
    ] {
        let error = text.parse::<Date>().unwrap_err();
        assert_eq!(error.to_string(), message, "{text}");
    }
    let long = format!("{}1-01-01", "0".repeat(94));
    assert_eq!(long[1..].parse(), Ok(date(1, 1, 1)));
    let error = long.parse::<Date>().unwrap_err();
    assert_eq!(error.to_string(), "expected the end at byte 100");
}

#[test]
fn days_later_have_that_number() {
    let ends = [
        (1999, 12),
        (2000, 2),
        (2023, 2),
        (2024, 2),
        (2024, 4),
        (2025, 12),
    ];
    let mut dates: Vec<_> = ends
        .iter()
        .flat_map(|&(year, month)| {
            (20..=31).filter_map(move |day| Date::new(year, month, day).ok())
        })
        .collect();
    dates.extend([
        Date::MIN,
        Date::MAX,
        date(i32::MAX, 12, 4),
        date(1970, 1, 1),
    ]);
    for date in dates {
        for days in (-800..=800).chain([i64::MIN, i64::MAX]) {
            let number = date.day_number().checked_add(days);
            let later = number.and_then(Date::from_day_number);
            assert_eq!(date.checked_add_days(days), later, "{date} {days}");
        }
        for week_day in 0..=6 {
            let next = (1..=7).filter_map(|days| date.checked_add_days(days));
            let next = next.filter(|next| next.week_day() == week_day).min();
            assert_eq!(date.next_week_day(week_day), next, "{date} {week_day}");
        }
    }
}
