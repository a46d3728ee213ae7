//! The traits that tz-rs's types have, and where errors and times come from.
#![cfg(feature = "std")]

use std::error::Error as StdError;
use std::fmt::{Debug, Display};
use std::hash::Hash;
use std::num::ParseIntError;
use std::ops::{Add, AddAssign, Sub, SubAssign};
use std::panic::{RefUnwindSafe, UnwindSafe};
use std::str::{FromStr, Utf8Error};
use std::time::{Duration, SystemTime};
use tz::datetime::{
    Disambiguation, FoundDateTimeKind, FoundDateTimeList, FoundDateTimeListRefMut, Meaning,
};
use tz::error::datetime::DateTimeError;
use tz::error::parse::{ParseDataError, TzFileError, TzStringError};
use tz::error::timezone::{LocalTimeTypeError, TimeZoneError, TransitionRuleError};
use tz::timezone::{
    AlternateTime, Julian0WithLeap, Julian1WithoutLeap, LeapSecond, MonthWeekDay, RuleDay,
    Transition, TransitionRule,
};
use tz::{
    Change, DateTime, DateTimePart, Error, LocalTimeType, ParseDateTimeError, ParsedDateTime,
    Segment, TimeZone, TimeZoneRef, TimeZoneSettings, TzError, UtcDateTime,
};

/// Types and bounds that they have to meet.
macro_rules! have {
    ($($kind:ty: [$($bound:tt)+];)*) => {
        $(const _: fn() = || {
            fn is<T: $($bound)+>() {}
            is::<$kind>()
        };)*
    };
}

have! {
    UtcDateTime: [Copy + Ord + Eq + Hash + Debug + Display + Send + Sync + Unpin + 'static];
    UtcDateTime: [Add<Duration, Output = UtcDateTime> + Sub<Duration, Output = UtcDateTime> + AddAssign<Duration> + SubAssign<Duration>];
    UtcDateTime: [TryFrom<SystemTime, Error = TzError> + TryFrom<DateTime, Error = TzError>];
    SystemTime: [From<UtcDateTime> + From<DateTime>];
    DateTime: [Copy + Ord + Eq + Hash + Debug + Display + Send + Sync + Unpin + 'static];
    FoundDateTimeKind: [Copy + Eq + Debug + Send + Sync + 'static];
    FoundDateTimeList: [Clone + Default + Eq + Debug + Send + Sync + 'static];
    FoundDateTimeListRefMut<'static>: [PartialEq + Debug + Send + Sync];
    LocalTimeType: [Copy + Eq + Hash + Debug + Send + Sync + Unpin + 'static];
    Transition: [Copy + Eq + Hash + Debug + Send + Sync + 'static];
    LeapSecond: [Copy + Eq + Hash + Debug + Send + Sync + 'static];
    Julian1WithoutLeap: [Copy + Eq + Hash + Debug + Send + Sync + 'static];
    Julian0WithLeap: [Copy + Eq + Hash + Debug + Send + Sync + 'static];
    MonthWeekDay: [Copy + Eq + Hash + Debug + Send + Sync + 'static];
    RuleDay: [Copy + Eq + Hash + Debug + Send + Sync + 'static];
    AlternateTime: [Copy + Eq + Hash + Debug + Send + Sync + 'static];
    TransitionRule: [Copy + Eq + Hash + Debug + Send + Sync + 'static];
    Meaning: [Copy + Eq + Debug + Send + Sync + 'static];
    Disambiguation: [Copy + Eq + Hash + Default + Debug + Send + Sync + 'static];
    Change<'static>: [Copy + Eq + Hash + Debug + Send + Sync];
    Segment<'static>: [Copy + Eq + Hash + Debug + Send + Sync];
    ParsedDateTime: [Copy + Eq + FromStr<Err = ParseDateTimeError> + Debug + Send + Sync + 'static];
    ParsedDateTime: [for<'a> TryFrom<&'a str, Error = ParseDateTimeError>];
    UtcDateTime: [FromStr<Err = ParseDateTimeError>];
    UtcDateTime: [for<'a> TryFrom<&'a str, Error = ParseDateTimeError>];
    TimeZoneRef<'static>: [Copy + Eq + Hash + Debug + Send + Sync + Unpin + UnwindSafe + RefUnwindSafe];
    TimeZone: [Clone + Eq + Hash + Debug + Send + Sync + Unpin + UnwindSafe + RefUnwindSafe + 'static];
    TimeZone: [for<'a> TryFrom<TimeZoneRef<'a>, Error = TzError>];
    TimeZoneSettings<'static>: [Debug + Send + Sync + Unpin + UnwindSafe + RefUnwindSafe];
    Error: [StdError + Debug + Display + Send + Sync + 'static];
    Error: [From<TzError> + From<TzFileError> + From<TzStringError> + From<LocalTimeTypeError>];
    Error: [From<TransitionRuleError> + From<TimeZoneError> + From<DateTimeError>];
    TzError: [StdError + Clone + Eq + Debug + Display + Send + Sync + 'static];
    TzError: [From<TzFileError> + From<TzStringError> + From<LocalTimeTypeError>];
    TzError: [From<TransitionRuleError> + From<TimeZoneError> + From<DateTimeError>];
    DateTimeError: [StdError + Debug + Display + Send + Sync + 'static];
    LocalTimeTypeError: [StdError + Debug + Display + Send + Sync + 'static];
    TransitionRuleError: [StdError + Debug + Display + Send + Sync + 'static];
    TimeZoneError: [StdError + Debug + Display + Send + Sync + 'static];
    ParseDataError: [StdError + Debug + Display + Send + Sync + 'static];
    TzStringError: [StdError + Clone + Eq + Debug + Display + Send + Sync + 'static];
    TzStringError: [From<Utf8Error> + From<ParseIntError> + From<ParseDataError>];
    TzFileError: [StdError + Clone + Eq + Debug + Display + Send + Sync + 'static];
    TzFileError: [From<Utf8Error> + From<ParseDataError>];
}

/// A borrowed zone can be taken for a shorter time, and outlive the value that lent it.
#[test]
fn zones_are_covariant() {
    fn shorter<'a>(zone: TimeZoneRef<'static>, _: &'a str) -> TimeZoneRef<'a> {
        zone
    }
    let text = String::from("x");
    let utc = shorter(TimeZoneRef::utc(), &text);
    let types = { utc }.local_time_types();
    assert_eq!(types, [LocalTimeType::utc()]);
}

/// What is equal has one hash, and of these values nothing else has it.
fn expect_hashes<T: Hash + PartialEq>(values: &[T]) {
    use std::hash::{BuildHasher, RandomState};
    let state = RandomState::new();
    for (place, value) in values.iter().enumerate() {
        for other in &values[place..] {
            assert_eq!(
                value == other,
                state.hash_one(value) == state.hash_one(other)
            );
        }
    }
}

#[test]
fn hashes_agree_with_equality() -> Result<(), TzError> {
    let types = [0, 3600].map(LocalTimeType::with_ut_offset);
    let mut date_times = Vec::new();
    let mut utc_date_times = Vec::new();
    for unix_time in [-1, 0, 1, 946_684_800] {
        for nanoseconds in [0, 1] {
            for local_time_type in types {
                let shown =
                    DateTime::from_timespec_and_local(unix_time, nanoseconds, local_time_type?)?;
                date_times.push(shown);
            }
            utc_date_times.push(UtcDateTime::from_timespec(unix_time, nanoseconds)?);
        }
    }
    for (hour, minute, second) in [(23, 59, 60), (23, 59, 59), (12, 0, 60), (12, 1, 0)] {
        utc_date_times.push(UtcDateTime::new(1999, 12, 31, hour, minute, second, 0)?);
    }
    expect_hashes(&date_times);
    expect_hashes(&utc_date_times);
    assert_eq!(Disambiguation::default(), Disambiguation::Compatible);
    Ok(())
}

#[test]
fn rules_hash_by_their_parts() -> Result<(), TzError> {
    let names: [Option<&[u8]>; 3] = [None, Some(b"CET"), Some(b"CEST")];
    let mut types = Vec::new();
    for (offset, is_dst) in [(0, false), (3600, false), (3600, true), (-3600, true)] {
        for name in names {
            types.push(LocalTimeType::new(offset, is_dst, name)?);
        }
    }
    let mut days = Vec::new();
    for day in [1, 2, 60] {
        days.push(RuleDay::Julian1WithoutLeap(Julian1WithoutLeap::new(day)?));
        days.push(RuleDay::Julian0WithLeap(Julian0WithLeap::new(day)?));
    }
    for (month, week, week_day) in [(3, 5, 0), (10, 5, 0), (3, 4, 0), (3, 5, 1)] {
        let day = MonthWeekDay::new(month, week, week_day)?;
        days.push(RuleDay::MonthWeekDay(day));
    }
    let mut rules: Vec<_> = types.iter().copied().map(TransitionRule::Fixed).collect();
    let (spring, autumn) = (days[6], days[7]);
    for (std, dst) in [
        (types[1], types[8]),
        (types[4], types[8]),
        (types[4], types[2]),
    ] {
        for (start_time, end_time) in [(7200, 10800), (7200, 7200), (3600, 7200)] {
            let rule = AlternateTime::new(std, dst, spring, start_time, autumn, end_time)?;
            rules.push(TransitionRule::Alternate(rule));
            let rule = AlternateTime::new(std, dst, autumn, start_time, spring, end_time)?;
            rules.push(TransitionRule::Alternate(rule));
        }
    }
    expect_hashes(&types);
    expect_hashes(&days);
    expect_hashes(&rules);
    expect_hashes(&[(0, 0), (0, 1), (1, 0)].map(|(time, index)| Transition::new(time, index)));
    expect_hashes(&[(0, 0), (0, 1), (1, 0)].map(|(time, by)| LeapSecond::new(time, by)));
    Ok(())
}

#[test]
fn zones_hash_by_their_parts() -> Result<(), Error> {
    let mut zones = Vec::new();
    for text in [
        "CET-1CEST,M3.5.0,M10.5.0/3",
        "CET-1CEST,M3.5.0,M10.4.0/3",
        "CET-1",
        "XXX-1",
    ] {
        zones.push(TimeZone::from_posix_tz(text)?);
    }
    let types = vec![
        LocalTimeType::with_ut_offset(0)?,
        LocalTimeType::with_ut_offset(3600)?,
    ];
    for times in [&[][..], &[0], &[1], &[0, 1]] {
        for leap_seconds in [vec![], vec![LeapSecond::new(78_796_800, 1)]] {
            let transitions = times.iter().map(|&time| Transition::new(time, 1)).collect();
            zones.push(TimeZone::new(
                transitions,
                types.clone(),
                leap_seconds,
                None,
            )?);
        }
    }
    expect_hashes(&zones);
    expect_hashes(&zones.iter().map(TimeZone::as_ref).collect::<Vec<_>>());
    for zone in &zones {
        assert_eq!(TimeZone::try_from(zone.as_ref())?, *zone);
    }
    Ok(())
}

/// An error can be kept twice, and compared with another.
#[test]
fn errors_are_cloned() {
    let error = UtcDateTime::new(2000, 13, 1, 0, 0, 0, 0).unwrap_err();
    assert_eq!(error.clone(), error);
    let other = UtcDateTime::new(2000, 12, 32, 0, 0, 0, 0).unwrap_err();
    assert_ne!(other, error);
}

#[test]
fn texts_are_read_by_traits() {
    let text = "2000-02-29T01:02:03+01:00";
    let parsed = ParsedDateTime::parse(text.as_bytes());
    assert!(parsed.is_ok());
    assert_eq!(text.parse(), parsed);
    assert_eq!(ParsedDateTime::try_from(text), parsed);
    let fault = ParsedDateTime::parse(b"2000-02-30");
    assert!(fault.is_err());
    assert_eq!("2000-02-30".parse(), fault);
    assert_eq!(ParsedDateTime::try_from("2000-02-30"), fault);
}

/// A `UtcDateTime` is read of a text that ends in `Z`, and of no other.
#[test]
fn utc_date_times_are_read_by_traits() -> Result<(), TzError> {
    let leap_second = UtcDateTime::new(1990, 12, 31, 23, 59, 60, 0)?;
    for (text, expected) in [
        ("1970-01-01T00:00:00Z", UtcDateTime::UNIX_EPOCH),
        ("1970-01-01t00:00:00z", UtcDateTime::UNIX_EPOCH),
        ("1970-01-01 00:00:00.000000000Z", UtcDateTime::UNIX_EPOCH),
        // RFC 3339, section 5.8
        (
            "1985-04-12T23:20:50.52Z",
            UtcDateTime::new(1985, 4, 12, 23, 20, 50, 520_000_000)?,
        ),
        ("1990-12-31T23:59:60Z", leap_second),
        ("-2147483648-01-01T00:00:00Z", UtcDateTime::MIN),
        ("2147483647-12-31T23:59:59.999999999Z", UtcDateTime::MAX),
    ] {
        assert_eq!(text.parse(), Ok(expected), "{text}");
        assert_eq!(UtcDateTime::try_from(text), Ok(expected), "{text}");
        assert_eq!(expected.to_string().parse(), Ok(expected), "{text}");
    }
    for (text, expected, position) in [
        ("1970-01-01T00:00:00+00:00", DateTimePart::Offset, 19),
        ("1970-01-01T00:00:00-00:00", DateTimePart::Offset, 19),
        ("1970-01-01T02:00:00.5+02:00", DateTimePart::Offset, 21),
        ("1970-01-01T00:00:00+", DateTimePart::Offset, 19),
        ("1970-01-01T00:00:00", DateTimePart::Offset, 19),
        ("1970-01-01T00:00:00 Z", DateTimePart::Offset, 19),
        ("1970-01-01T00:00:00ZZ", DateTimePart::End, 20),
        ("1970-01-01T00:00:00Z ", DateTimePart::End, 20),
        ("1970-01-01", DateTimePart::Separator, 10),
        ("1970-02-29T00:00:00Z", DateTimePart::MonthDay, 8),
        ("1970-01-01T00:00:61Z", DateTimePart::Second, 17),
        ("2147483647-12-31T23:59:60Z", DateTimePart::Second, 23),
        ("2147483648-01-01T00:00:00Z", DateTimePart::Year, 0),
        ("", DateTimePart::Year, 0),
    ] {
        let fault = Err(ParseDateTimeError { expected, position });
        assert_eq!(text.parse::<UtcDateTime>(), fault, "{text}");
        assert_eq!(UtcDateTime::try_from(text), fault, "{text}");
    }
    Ok(())
}
