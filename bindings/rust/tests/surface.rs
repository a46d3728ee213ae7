//! Every public item of tz-rs 0.7.3 by its name and its signature, an item a line: where one is missing or another, this does not compile.
#![cfg(feature = "std")]
// Whole types are what is compared.
#![allow(clippy::type_complexity)]

use std::error::Error as StdError;
use std::num::ParseIntError;
use std::str::Utf8Error;
use std::time::Duration;
use tz::datetime::{self, FoundDateTimeKind, FoundDateTimeList, FoundDateTimeListRefMut};
use tz::error::datetime::DateTimeError;
use tz::error::parse::{ParseDataError, TzFileError, TzStringError};
use tz::error::timezone::{LocalTimeTypeError, TimeZoneError, TransitionRuleError};
use tz::timezone::{
    self, AlternateTime, Julian0WithLeap, Julian1WithoutLeap, LeapSecond, MonthWeekDay, RuleDay,
    Transition, TransitionRule,
};
use tz::{
    DateTime, Error, LocalTimeType, TimeZone, TimeZoneRef, TimeZoneSettings, TzError, UtcDateTime,
};

/// Items and the types of their values.
macro_rules! items {
    ($($item:expr => $kind:ty;)*) => { $(const _: $kind = $item;)* };
}

/// Calls that a `const fn` can make.
macro_rules! consts {
    ($(($($argument:ident: $kind:ty),*) -> $result:ty { $call:expr })*) => {
        $(const _: () = {
            #[allow(dead_code)]
            const fn calls($($argument: $kind),*) -> $result { $call }
        };)*
    };
}

type Read = fn(&str) -> Result<Vec<u8>, Box<dyn StdError + Send + Sync + 'static>>;
// rustc 1.85 does not see that they are used.
#[allow(dead_code)]
type Seven<T> = fn(i32, u8, u8, u8, u8, u8, u32) -> T;
#[allow(dead_code)]
type SevenWith<A, T> = fn(i32, u8, u8, u8, u8, u8, u32, A) -> T;

// The crate's root and its modules.
items! {
    |x: DateTime| x => fn(datetime::DateTime) -> datetime::DateTime;
    |x: UtcDateTime| x => fn(datetime::UtcDateTime) -> datetime::UtcDateTime;
    |x: Error| x => fn(tz::error::Error) -> tz::error::Error;
    |x: TzError| x => fn(tz::error::TzError) -> tz::error::TzError;
    |x: LocalTimeType| x => fn(timezone::LocalTimeType) -> timezone::LocalTimeType;
    |x: TimeZone| x => fn(timezone::TimeZone) -> timezone::TimeZone;
    |x: &TimeZoneRef<'static>| *x => fn(&timezone::TimeZoneRef<'static>) -> timezone::TimeZoneRef<'static>;
    |x: TimeZoneSettings<'static>| x => fn(timezone::TimeZoneSettings<'static>) -> timezone::TimeZoneSettings<'static>;
}

// Errors.
items! {
    Error::Io => fn(Box<dyn StdError + Send + Sync + 'static>) -> Error;
    Error::Tz => fn(TzError) -> Error;
    TzError::TzFile => fn(TzFileError) -> TzError;
    TzError::TzString => fn(TzStringError) -> TzError;
    TzError::LocalTimeType => fn(LocalTimeTypeError) -> TzError;
    TzError::TransitionRule => fn(TransitionRuleError) -> TzError;
    TzError::TimeZone => fn(TimeZoneError) -> TzError;
    TzError::DateTime => fn(DateTimeError) -> TzError;
    TzError::OutOfRange => TzError;
    TzError::NoAvailableLocalTimeType => TzError;
    DateTimeError::InvalidMonth => DateTimeError;
    DateTimeError::InvalidMonthDay => DateTimeError;
    DateTimeError::InvalidHour => DateTimeError;
    DateTimeError::InvalidMinute => DateTimeError;
    DateTimeError::InvalidSecond => DateTimeError;
    DateTimeError::InvalidNanoseconds => DateTimeError;
    LocalTimeTypeError::InvalidTimeZoneDesignationLength => LocalTimeTypeError;
    LocalTimeTypeError::InvalidTimeZoneDesignationChar => LocalTimeTypeError;
    LocalTimeTypeError::InvalidUtcOffset => LocalTimeTypeError;
    TransitionRuleError::InvalidRuleDayJulianDay => TransitionRuleError;
    TransitionRuleError::InvalidRuleDayMonth => TransitionRuleError;
    TransitionRuleError::InvalidRuleDayWeek => TransitionRuleError;
    TransitionRuleError::InvalidRuleDayWeekDay => TransitionRuleError;
    TransitionRuleError::InvalidStdUtcOffset => TransitionRuleError;
    TransitionRuleError::InvalidDstUtcOffset => TransitionRuleError;
    TransitionRuleError::InvalidDstStartEndTime => TransitionRuleError;
    TransitionRuleError::InconsistentRule => TransitionRuleError;
    TimeZoneError::NoLocalTimeType => TimeZoneError;
    TimeZoneError::InvalidLocalTimeTypeIndex => TimeZoneError;
    TimeZoneError::InvalidTransition => TimeZoneError;
    TimeZoneError::InvalidLeapSecond => TimeZoneError;
    TimeZoneError::InconsistentExtraRule => TimeZoneError;
    ParseDataError::UnexpectedEof => ParseDataError;
    ParseDataError::InvalidData => ParseDataError;
    TzStringError::Utf8 => fn(Utf8Error) -> TzStringError;
    TzStringError::ParseInt => fn(ParseIntError) -> TzStringError;
    TzStringError::ParseData => fn(ParseDataError) -> TzStringError;
    TzStringError::InvalidOffsetHour => TzStringError;
    TzStringError::InvalidOffsetMinute => TzStringError;
    TzStringError::InvalidOffsetSecond => TzStringError;
    TzStringError::InvalidDayTimeHour => TzStringError;
    TzStringError::InvalidDayTimeMinute => TzStringError;
    TzStringError::InvalidDayTimeSecond => TzStringError;
    TzStringError::MissingDstStartEndRules => TzStringError;
    TzStringError::RemainingData => TzStringError;
    TzStringError::Empty => TzStringError;
    TzFileError::Utf8 => fn(Utf8Error) -> TzFileError;
    TzFileError::ParseData => fn(ParseDataError) -> TzFileError;
    TzFileError::InvalidMagicNumber => TzFileError;
    TzFileError::UnsupportedTzFileVersion => TzFileError;
    TzFileError::InvalidHeader => TzFileError;
    TzFileError::InvalidFooter => TzFileError;
    TzFileError::InvalidDstIndicator => TzFileError;
    TzFileError::InvalidTimeZoneDesignationCharIndex => TzFileError;
    TzFileError::InvalidStdWallUtLocal => TzFileError;
    TzFileError::RemainingDataV1 => TzFileError;
}

// UTC date times.
items! {
    UtcDateTime::UNIX_EPOCH => UtcDateTime;
    UtcDateTime::MIN => UtcDateTime;
    UtcDateTime::MAX => UtcDateTime;
    UtcDateTime::new => Seven<Result<UtcDateTime, TzError>>;
    UtcDateTime::from_timespec => fn(i64, u32) -> Result<UtcDateTime, TzError>;
    UtcDateTime::from_total_nanoseconds => fn(i128) -> Result<UtcDateTime, TzError>;
    UtcDateTime::project => fn(&UtcDateTime, TimeZoneRef<'_>) -> Result<DateTime, TzError>;
    UtcDateTime::checked_add => fn(&UtcDateTime, Duration) -> Option<UtcDateTime>;
    UtcDateTime::checked_sub => fn(&UtcDateTime, Duration) -> Option<UtcDateTime>;
    UtcDateTime::duration_since => fn(&UtcDateTime, UtcDateTime) -> Result<Duration, Duration>;
    UtcDateTime::now => fn() -> Result<UtcDateTime, TzError>;
    UtcDateTime::year => fn(&UtcDateTime) -> i32;
    UtcDateTime::month => fn(&UtcDateTime) -> u8;
    UtcDateTime::month_day => fn(&UtcDateTime) -> u8;
    UtcDateTime::hour => fn(&UtcDateTime) -> u8;
    UtcDateTime::minute => fn(&UtcDateTime) -> u8;
    UtcDateTime::second => fn(&UtcDateTime) -> u8;
    UtcDateTime::nanoseconds => fn(&UtcDateTime) -> u32;
    UtcDateTime::week_day => fn(&UtcDateTime) -> u8;
    UtcDateTime::year_day => fn(&UtcDateTime) -> u16;
    UtcDateTime::unix_time => fn(&UtcDateTime) -> i64;
    UtcDateTime::total_nanoseconds => fn(&UtcDateTime) -> i128;
}
consts! {
    (x: &UtcDateTime, y: UtcDateTime) -> Result<Duration, Duration> { x.duration_since(y) }
    (x: &UtcDateTime) -> i32 { x.year() }
    (x: &UtcDateTime) -> u8 { x.month() }
    (x: &UtcDateTime) -> u8 { x.month_day() }
    (x: &UtcDateTime) -> u8 { x.hour() }
    (x: &UtcDateTime) -> u8 { x.minute() }
    (x: &UtcDateTime) -> u8 { x.second() }
    (x: &UtcDateTime) -> u32 { x.nanoseconds() }
    (x: &UtcDateTime) -> i64 { x.unix_time() }
    (x: &UtcDateTime) -> i128 { x.total_nanoseconds() }
}

// Date times.
items! {
    DateTime::new => SevenWith<LocalTimeType, Result<DateTime, TzError>>;
    DateTime::find => fn(i32, u8, u8, u8, u8, u8, u32, TimeZoneRef<'_>) -> Result<FoundDateTimeList, TzError>;
    DateTime::find_n => for<'a> fn(&'a mut [Option<FoundDateTimeKind>], i32, u8, u8, u8, u8, u8, u32, TimeZoneRef<'_>) -> Result<FoundDateTimeListRefMut<'a>, TzError>;
    DateTime::from_timespec_and_local => fn(i64, u32, LocalTimeType) -> Result<DateTime, TzError>;
    DateTime::from_timespec => fn(i64, u32, TimeZoneRef<'_>) -> Result<DateTime, TzError>;
    DateTime::from_total_nanoseconds_and_local => fn(i128, LocalTimeType) -> Result<DateTime, TzError>;
    DateTime::from_total_nanoseconds => fn(i128, TimeZoneRef<'_>) -> Result<DateTime, TzError>;
    DateTime::project => fn(&DateTime, TimeZoneRef<'_>) -> Result<DateTime, TzError>;
    DateTime::duration_since => fn(&DateTime, DateTime) -> Result<Duration, Duration>;
    DateTime::now => fn(TimeZoneRef<'_>) -> Result<DateTime, TzError>;
    DateTime::year => fn(&DateTime) -> i32;
    DateTime::month => fn(&DateTime) -> u8;
    DateTime::month_day => fn(&DateTime) -> u8;
    DateTime::hour => fn(&DateTime) -> u8;
    DateTime::minute => fn(&DateTime) -> u8;
    DateTime::second => fn(&DateTime) -> u8;
    DateTime::nanoseconds => fn(&DateTime) -> u32;
    DateTime::week_day => fn(&DateTime) -> u8;
    DateTime::year_day => fn(&DateTime) -> u16;
    DateTime::local_time_type => fn(&DateTime) -> &LocalTimeType;
    DateTime::unix_time => fn(&DateTime) -> i64;
    DateTime::total_nanoseconds => fn(&DateTime) -> i128;
}
consts! {
    (x: &DateTime, y: DateTime) -> Result<Duration, Duration> { x.duration_since(y) }
    (x: &DateTime) -> i32 { x.year() }
    (x: &DateTime) -> u8 { x.month() }
    (x: &DateTime) -> u8 { x.month_day() }
    (x: &DateTime) -> u8 { x.hour() }
    (x: &DateTime) -> u8 { x.minute() }
    (x: &DateTime) -> u8 { x.second() }
    (x: &DateTime) -> u32 { x.nanoseconds() }
    (x: &DateTime) -> &LocalTimeType { x.local_time_type() }
    (x: &DateTime) -> i64 { x.unix_time() }
    (x: &DateTime) -> i128 { x.total_nanoseconds() }
}

// Found date times.
items! {
    FoundDateTimeKind::Normal => fn(DateTime) -> FoundDateTimeKind;
    |before_transition, after_transition| FoundDateTimeKind::Skipped { before_transition, after_transition } => fn(DateTime, DateTime) -> FoundDateTimeKind;
    FoundDateTimeList::unique => fn(&FoundDateTimeList) -> Option<DateTime>;
    FoundDateTimeList::earliest => fn(&FoundDateTimeList) -> Option<DateTime>;
    FoundDateTimeList::latest => fn(&FoundDateTimeList) -> Option<DateTime>;
    FoundDateTimeList::into_inner => fn(FoundDateTimeList) -> Vec<FoundDateTimeKind>;
    FoundDateTimeListRefMut::new => fn(&'static mut [Option<FoundDateTimeKind>]) -> FoundDateTimeListRefMut<'static>;
    FoundDateTimeListRefMut::unique => fn(&FoundDateTimeListRefMut<'static>) -> Option<DateTime>;
    FoundDateTimeListRefMut::earliest => fn(&FoundDateTimeListRefMut<'static>) -> Option<DateTime>;
    FoundDateTimeListRefMut::latest => fn(&FoundDateTimeListRefMut<'static>) -> Option<DateTime>;
    FoundDateTimeListRefMut::data => for<'b> fn(&'b FoundDateTimeListRefMut<'static>) -> &'b [Option<FoundDateTimeKind>];
    FoundDateTimeListRefMut::count => fn(&FoundDateTimeListRefMut<'static>) -> usize;
    FoundDateTimeListRefMut::is_exhaustive => fn(&FoundDateTimeListRefMut<'static>) -> bool;
}

// Local time types, transitions, leap seconds.
items! {
    LocalTimeType::new => fn(i32, bool, Option<&[u8]>) -> Result<LocalTimeType, LocalTimeTypeError>;
    LocalTimeType::utc => fn() -> LocalTimeType;
    LocalTimeType::with_ut_offset => fn(i32) -> Result<LocalTimeType, LocalTimeTypeError>;
    LocalTimeType::ut_offset => fn(&LocalTimeType) -> i32;
    LocalTimeType::is_dst => fn(&LocalTimeType) -> bool;
    LocalTimeType::time_zone_designation => fn(&LocalTimeType) -> &str;
    Transition::new => fn(i64, usize) -> Transition;
    Transition::unix_leap_time => fn(&Transition) -> i64;
    Transition::local_time_type_index => fn(&Transition) -> usize;
    LeapSecond::new => fn(i64, i32) -> LeapSecond;
    LeapSecond::unix_leap_time => fn(&LeapSecond) -> i64;
    LeapSecond::correction => fn(&LeapSecond) -> i32;
}
consts! {
    () -> LocalTimeType { LocalTimeType::utc() }
    (x: &LocalTimeType) -> i32 { x.ut_offset() }
    (x: &LocalTimeType) -> bool { x.is_dst() }
    (x: &LocalTimeType) -> &str { x.time_zone_designation() }
    (x: i64, y: usize) -> Transition { Transition::new(x, y) }
    (x: &Transition) -> i64 { x.unix_leap_time() }
    (x: &Transition) -> usize { x.local_time_type_index() }
    (x: i64, y: i32) -> LeapSecond { LeapSecond::new(x, y) }
    (x: &LeapSecond) -> i64 { x.unix_leap_time() }
    (x: &LeapSecond) -> i32 { x.correction() }
}

// Rules.
items! {
    Julian1WithoutLeap::new => fn(u16) -> Result<Julian1WithoutLeap, TransitionRuleError>;
    Julian1WithoutLeap::get => fn(&Julian1WithoutLeap) -> u16;
    Julian0WithLeap::new => fn(u16) -> Result<Julian0WithLeap, TransitionRuleError>;
    Julian0WithLeap::get => fn(&Julian0WithLeap) -> u16;
    MonthWeekDay::new => fn(u8, u8, u8) -> Result<MonthWeekDay, TransitionRuleError>;
    MonthWeekDay::month => fn(&MonthWeekDay) -> u8;
    MonthWeekDay::week => fn(&MonthWeekDay) -> u8;
    MonthWeekDay::week_day => fn(&MonthWeekDay) -> u8;
    RuleDay::Julian1WithoutLeap => fn(Julian1WithoutLeap) -> RuleDay;
    RuleDay::Julian0WithLeap => fn(Julian0WithLeap) -> RuleDay;
    RuleDay::MonthWeekDay => fn(MonthWeekDay) -> RuleDay;
    AlternateTime::new => fn(LocalTimeType, LocalTimeType, RuleDay, i32, RuleDay, i32) -> Result<AlternateTime, TransitionRuleError>;
    AlternateTime::std => fn(&AlternateTime) -> &LocalTimeType;
    AlternateTime::dst => fn(&AlternateTime) -> &LocalTimeType;
    AlternateTime::dst_start => fn(&AlternateTime) -> &RuleDay;
    AlternateTime::dst_start_time => fn(&AlternateTime) -> i32;
    AlternateTime::dst_end => fn(&AlternateTime) -> &RuleDay;
    AlternateTime::dst_end_time => fn(&AlternateTime) -> i32;
    TransitionRule::Fixed => fn(LocalTimeType) -> TransitionRule;
    TransitionRule::Alternate => fn(AlternateTime) -> TransitionRule;
}
consts! {
    (x: &Julian1WithoutLeap) -> u16 { x.get() }
    (x: &Julian0WithLeap) -> u16 { x.get() }
    (x: &MonthWeekDay) -> u8 { x.month() }
    (x: &MonthWeekDay) -> u8 { x.week() }
    (x: &MonthWeekDay) -> u8 { x.week_day() }
    (x: &AlternateTime) -> &LocalTimeType { x.std() }
    (x: &AlternateTime) -> &LocalTimeType { x.dst() }
    (x: &AlternateTime) -> &RuleDay { x.dst_start() }
    (x: &AlternateTime) -> i32 { x.dst_start_time() }
    (x: &AlternateTime) -> &RuleDay { x.dst_end() }
    (x: &AlternateTime) -> i32 { x.dst_end_time() }
}

// Time zones and settings.
items! {
    TimeZoneRef::new => fn(&'static [Transition], &'static [LocalTimeType], &'static [LeapSecond], &'static Option<TransitionRule>) -> Result<TimeZoneRef<'static>, TzError>;
    TimeZoneRef::utc => fn() -> TimeZoneRef<'static>;
    TimeZoneRef::transitions => fn(&TimeZoneRef<'static>) -> &'static [Transition];
    TimeZoneRef::local_time_types => fn(&TimeZoneRef<'static>) -> &'static [LocalTimeType];
    TimeZoneRef::leap_seconds => fn(&TimeZoneRef<'static>) -> &'static [LeapSecond];
    TimeZoneRef::extra_rule => fn(&TimeZoneRef<'static>) -> &'static Option<TransitionRule>;
    TimeZoneRef::find_local_time_type => fn(&TimeZoneRef<'static>, i64) -> Result<&'static LocalTimeType, TzError>;
    TimeZone::new => fn(Vec<Transition>, Vec<LocalTimeType>, Vec<LeapSecond>, Option<TransitionRule>) -> Result<TimeZone, TzError>;
    TimeZone::as_ref => for<'a> fn(&'a TimeZone) -> TimeZoneRef<'a>;
    TimeZone::utc => fn() -> TimeZone;
    TimeZone::fixed => fn(i32) -> Result<TimeZone, LocalTimeTypeError>;
    TimeZone::find_local_time_type => fn(&TimeZone, i64) -> Result<&LocalTimeType, TzError>;
    TimeZone::from_tz_data => fn(&[u8]) -> Result<TimeZone, TzError>;
    TimeZone::local => fn() -> Result<TimeZone, Error>;
    TimeZone::from_posix_tz => fn(&str) -> Result<TimeZone, Error>;
    TimeZone::find_current_local_time_type => fn(&TimeZone) -> Result<&LocalTimeType, TzError>;
    TimeZoneSettings::DEFAULT_DIRECTORIES => &'static [&'static str];
    TimeZoneSettings::DEFAULT_READ_FILE_FN => Read;
    TimeZoneSettings::DEFAULT => TimeZoneSettings<'static>;
    TimeZoneSettings::new => fn(&'static [&'static str], Read) -> TimeZoneSettings<'static>;
    TimeZoneSettings::parse_local => fn(&TimeZoneSettings<'static>) -> Result<TimeZone, Error>;
    TimeZoneSettings::parse_posix_tz => fn(&TimeZoneSettings<'static>, &str) -> Result<TimeZone, Error>;
}
consts! {
    () -> TimeZoneRef<'static> { TimeZoneRef::utc() }
    (x: &TimeZoneRef<'static>) -> &'static [Transition] { x.transitions() }
    (x: &TimeZoneRef<'static>) -> &'static [LocalTimeType] { x.local_time_types() }
    (x: &TimeZoneRef<'static>) -> &'static [LeapSecond] { x.leap_seconds() }
    (x: &TimeZoneRef<'static>) -> &'static Option<TransitionRule> { x.extra_rule() }
    (x: Read) -> TimeZoneSettings<'static> { TimeZoneSettings::new(&[], x) }
}
