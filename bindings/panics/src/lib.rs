//! Calls of the Rust crate, each as a function by its name.
#![no_std]

use core::fmt::{self, Write};
use core::panic::PanicInfo;
use core::time::Duration;
use tz::datetime::{Disambiguation, FoundDateTimeKind, FoundDateTimeListRefMut, Meaning};
use tz::error::timezone::{LocalTimeTypeError, TransitionRuleError};
use tz::error::TzError;
use tz::timezone::{
    is_zone_name, AlternateTime, Julian0WithLeap, Julian1WithoutLeap, LeapSecond, MonthWeekDay,
    RuleDay, Transition, TransitionRule,
};
use tz::{
    Change, DateTime, LocalTimeType, ParseDateTimeError, ParsedDateTime, Segment, TimeZoneRef,
    TzString, UtcDateTime,
};

/// All panics come here, by a call that stays one.
#[panic_handler]
#[inline(never)]
fn panic(_: &PanicInfo<'_>) -> ! {
    loop {}
}

macro_rules! calls {
    ($($name:ident $(<$lifetime:lifetime>)? ($($argument:ident: $kind:ty),*) -> $result:ty { $call:expr })*) => {
        $(
            #[no_mangle]
            pub fn $name $(<$lifetime>)? ($($argument: $kind),*) -> $result { $call }
        )*
    };
}

type Zone<'a> = TimeZoneRef<'a>;
type Slots<'a> = &'a mut [Option<FoundDateTimeKind>];
type Made<T> = Result<T, TzError>;

calls! {
    utc_new(y: i32, m: u8, d: u8, h: u8, i: u8, s: u8, n: u32) -> Made<UtcDateTime> { UtcDateTime::new(y, m, d, h, i, s, n) }
    utc_from_timespec(s: i64, n: u32) -> Made<UtcDateTime> { UtcDateTime::from_timespec(s, n) }
    utc_from_total_nanoseconds(n: i128) -> Made<UtcDateTime> { UtcDateTime::from_total_nanoseconds(n) }
    utc_project(x: &UtcDateTime, z: Zone<'_>) -> Made<DateTime> { x.project(z) }
    utc_checked_add(x: &UtcDateTime, y: Duration) -> Option<UtcDateTime> { x.checked_add(y) }
    utc_checked_sub(x: &UtcDateTime, y: Duration) -> Option<UtcDateTime> { x.checked_sub(y) }
    utc_duration_since(x: &UtcDateTime, y: UtcDateTime) -> Result<Duration, Duration> { x.duration_since(y) }
    utc_week_day(x: &UtcDateTime) -> u8 { x.week_day() }
    utc_year_day(x: &UtcDateTime) -> u16 { x.year_day() }
    utc_unix_time(x: &UtcDateTime) -> i64 { x.unix_time() }
    utc_total_nanoseconds(x: &UtcDateTime) -> i128 { x.total_nanoseconds() }
    utc_print(x: &UtcDateTime, out: &mut dyn Write) -> fmt::Result { write!(out, "{x}") }
    utc_of(x: DateTime) -> Made<UtcDateTime> { UtcDateTime::try_from(x) }

    new(y: i32, m: u8, d: u8, h: u8, i: u8, s: u8, n: u32, t: LocalTimeType) -> Made<DateTime> { DateTime::new(y, m, d, h, i, s, n, t) }
    from_timespec(s: i64, n: u32, z: Zone<'_>) -> Made<DateTime> { DateTime::from_timespec(s, n, z) }
    from_timespec_and_local(s: i64, n: u32, t: LocalTimeType) -> Made<DateTime> { DateTime::from_timespec_and_local(s, n, t) }
    from_total_nanoseconds(n: i128, z: Zone<'_>) -> Made<DateTime> { DateTime::from_total_nanoseconds(n, z) }
    from_total_nanoseconds_and_local(n: i128, t: LocalTimeType) -> Made<DateTime> { DateTime::from_total_nanoseconds_and_local(n, t) }
    project(x: &DateTime, z: Zone<'_>) -> Made<DateTime> { x.project(z) }
    duration_since(x: &DateTime, y: DateTime) -> Result<Duration, Duration> { x.duration_since(y) }
    week_day(x: &DateTime) -> u8 { x.week_day() }
    year_day(x: &DateTime) -> u16 { x.year_day() }
    total_nanoseconds(x: &DateTime) -> i128 { x.total_nanoseconds() }
    print(x: &DateTime, out: &mut dyn Write) -> fmt::Result { write!(out, "{x}") }
    find_n<'a>(b: Slots<'a>, y: i32, m: u8, d: u8, h: u8, i: u8, s: u8, n: u32, z: Zone<'_>) -> Made<FoundDateTimeListRefMut<'a>> { DateTime::find_n(b, y, m, d, h, i, s, n, z) }
    find_one(y: i32, m: u8, d: u8, h: u8, i: u8, s: u8, n: u32, c: Disambiguation, z: Zone<'_>) -> Made<Option<DateTime>> { DateTime::find_one(y, m, d, h, i, s, n, c, z) }
    from_local(x: UtcDateTime, c: Disambiguation, z: Zone<'_>) -> Made<Option<DateTime>> { DateTime::from_local(x, c, z) }
    meaning(y: i32, m: u8, d: u8, h: u8, i: u8, s: u8, n: u32, z: Zone<'_>) -> Made<Meaning> { DateTime::meaning(y, m, d, h, i, s, n, z) }
    parse(x: &[u8]) -> Result<ParsedDateTime, ParseDateTimeError> { ParsedDateTime::parse(x) }
    parsed_unix_time(x: &ParsedDateTime) -> Option<i64> { x.unix_time() }

    local_time_type_new(o: i32, d: bool, n: Option<&[u8]>) -> Result<LocalTimeType, LocalTimeTypeError> { LocalTimeType::new(o, d, n) }
    time_zone_designation(x: &LocalTimeType) -> &str { x.time_zone_designation() }
    julian1_new(d: u16) -> Result<Julian1WithoutLeap, TransitionRuleError> { Julian1WithoutLeap::new(d) }
    julian0_new(d: u16) -> Result<Julian0WithLeap, TransitionRuleError> { Julian0WithLeap::new(d) }
    month_week_day_new(m: u8, w: u8, d: u8) -> Result<MonthWeekDay, TransitionRuleError> { MonthWeekDay::new(m, w, d) }
    alternate_time_new(a: LocalTimeType, b: LocalTimeType, c: RuleDay, d: i32, e: RuleDay, f: i32) -> Result<AlternateTime, TransitionRuleError> { AlternateTime::new(a, b, c, d, e, f) }
    rule_text(x: &TransitionRule) -> Option<TzString> { TzString::from_rule(x) }
    zone_name(x: &str) -> bool { is_zone_name(x) }

    zone_new<'a>(t: &'a [Transition], l: &'a [LocalTimeType], s: &'a [LeapSecond], r: &'a Option<TransitionRule>) -> Made<Zone<'a>> { TimeZoneRef::new(t, l, s, r) }
    zone_utc() -> Zone<'static> { TimeZoneRef::utc() }
    find_local_time_type<'a>(z: &Zone<'a>, s: i64) -> Made<&'a LocalTimeType> { z.find_local_time_type(s) }
    segment_at<'a>(z: &Zone<'a>, s: i64) -> Segment<'a> { z.segment_at(s) }
    following<'a>(z: &Zone<'a>, s: i64) -> Option<Change<'a>> { z.following(s) }
    preceding<'a>(z: &Zone<'a>, s: i64) -> Option<Change<'a>> { z.preceding(s) }
    leap_expiry(z: &Zone<'_>) -> Option<i64> { z.leap_expiry() }
}
