// The calls of one crate, `tz`: this file is part of two modules, which name the two crates so. Answers are texts, in which both agree
// where they return the same.

use crate::plain::{Day, Local, Parts, Rule, Type};
use std::fmt::{Debug, Write};
use std::time::{Duration, SystemTime};
use tz::datetime::{FoundDateTimeKind, FoundDateTimeListRefMut};
use tz::timezone::{
    AlternateTime, Julian0WithLeap, Julian1WithoutLeap, LeapSecond, MonthWeekDay, RuleDay, Transition, TransitionRule,
};
use tz::{DateTime, LocalTimeType, TimeZone, TimeZoneRef, TimeZoneSettings, TzError, UtcDateTime};

pub use tz::TimeZone as Zone;

/// An error by all its texts, and by those of what it is made of.
fn fault(error: &impl std::error::Error) -> String {
    let source = error.source().map(|source| source.to_string());
    format!("{error:?} | {error:#?} | {error} | {error:>90} | {source:?}")
}

/// A value or an error.
fn answer<T: Debug>(out: &mut String, what: &str, result: Result<T, impl std::error::Error>) {
    match result {
        Ok(value) => writeln!(out, "{what}: {value:?}").unwrap(),
        Err(error) => writeln!(out, "{what}: {}", fault(&error)).unwrap(),
    }
}

fn type_of(kind: &Type) -> Result<LocalTimeType, tz::error::timezone::LocalTimeTypeError> {
    LocalTimeType::new(kind.ut_offset, kind.is_dst, kind.name.as_deref().map(str::as_bytes))
}

fn day_of(day: Day) -> Result<RuleDay, tz::error::timezone::TransitionRuleError> {
    Ok(match day {
        Day::Julian1(number) => RuleDay::Julian1WithoutLeap(Julian1WithoutLeap::new(number)?),
        Day::Julian0(number) => RuleDay::Julian0WithLeap(Julian0WithLeap::new(number)?),
        Day::MonthWeekDay(month, week, day) => RuleDay::MonthWeekDay(MonthWeekDay::new(month, week, day)?),
    })
}

fn rule_of(rule: &Rule) -> Result<TransitionRule, TzError> {
    Ok(match rule {
        Rule::Fixed(kind) => TransitionRule::Fixed(type_of(kind)?),
        Rule::Alternate(rule) => TransitionRule::Alternate(AlternateTime::new(
            type_of(&rule.std)?,
            type_of(&rule.dst)?,
            day_of(rule.start.0)?,
            rule.start.1,
            day_of(rule.end.0)?,
            rule.end.1,
        )?),
    })
}

/// A rule's text.
pub fn rule_text(rule: &Rule) -> String {
    let mut out = String::new();
    answer(&mut out, "rule", rule_of(rule));
    out
}

/// A local time type's text, as all calls give it.
pub fn type_text(kind: &Type) -> String {
    let mut out = String::new();
    answer(&mut out, "new", type_of(kind));
    answer(&mut out, "with_ut_offset", LocalTimeType::with_ut_offset(kind.ut_offset));
    answer(&mut out, "fixed", TimeZone::fixed(kind.ut_offset));
    if let Ok(made) = type_of(kind) {
        writeln!(out, "{} {} {:?} {made:#?}", made.ut_offset(), made.is_dst(), made.time_zone_designation()).unwrap();
        writeln!(out, "{:?} {:?}", made == LocalTimeType::utc(), Ok(made) == LocalTimeType::with_ut_offset(kind.ut_offset).map_err(drop)).unwrap();
    }
    out
}

/// A day's text.
pub fn day_text(day: Day) -> String {
    let mut out = String::new();
    answer(&mut out, "day", day_of(day));
    match day_of(day) {
        Ok(RuleDay::Julian1WithoutLeap(day)) => writeln!(out, "{}", day.get()).unwrap(),
        Ok(RuleDay::Julian0WithLeap(day)) => writeln!(out, "{}", day.get()).unwrap(),
        Ok(RuleDay::MonthWeekDay(day)) => writeln!(out, "{} {} {}", day.month(), day.week(), day.week_day()).unwrap(),
        Err(_) => {}
    }
    out
}

/// The zone of the bytes of a file.
pub fn zone_of_file(bytes: &[u8]) -> Result<TimeZone, String> {
    TimeZone::from_tz_data(bytes).map_err(|error| fault(&error))
}

/// The zone of parts.
pub fn zone_of_parts(parts: &Parts) -> Result<TimeZone, String> {
    let made = || {
        let transitions: Vec<_> = parts.transitions.iter().map(|&(at, index)| Transition::new(at, index)).collect();
        let leap_seconds: Vec<_> = parts.leap_seconds.iter().map(|&(at, correction)| LeapSecond::new(at, correction)).collect();
        let types = parts.types.iter().map(type_of).collect::<Result<Vec<_>, _>>()?;
        let rule = parts.rule.as_ref().map(rule_of).transpose()?;
        let borrowed = TimeZoneRef::new(&transitions, &types, &leap_seconds, &rule).map(|zone| format!("{zone:?}"));
        let owned = TimeZone::new(transitions.clone(), types.clone(), leap_seconds.clone(), rule);
        match (&borrowed, &owned) {
            (Ok(borrowed), Ok(owned)) => assert_eq!(*borrowed, format!("{:?}", owned.as_ref())),
            (Err(borrowed), Err(owned)) => assert_eq!(fault(borrowed), fault(owned)),
            _ => panic!("a zone and its reference are not made alike"),
        }
        owned
    };
    made().map_err(|error: TzError| fault(&error))
}

/// The zone of a setting, with two directories of the machine and its files, or with none.
pub fn zone_of_setting(setting: &str, has_files: bool) -> Result<TimeZone, String> {
    let found = if has_files {
        let directories = ["/usr/share/zoneinfo/posix", "/usr/share/zoneinfo"];
        let settings = TimeZoneSettings::new(&directories, |path| Ok(std::fs::read(path)?));
        settings.parse_posix_tz(setting)
    } else {
        TimeZoneSettings::new(&["/a", "/b"], |path| Err(format!("no {path}").into())).parse_posix_tz(setting)
    };
    found.map_err(|error| fault(&error))
}

/// The zones that the crate finds by itself.
pub fn own_zones(setting: &str) -> String {
    let mut out = String::new();
    answer(&mut out, "from_posix_tz", TimeZone::from_posix_tz(setting));
    answer(&mut out, "local", TimeZone::local());
    answer(&mut out, "parse_local", TimeZoneSettings::DEFAULT.parse_local());
    writeln!(out, "{:?}", TimeZoneSettings::DEFAULT_DIRECTORIES).unwrap();
    writeln!(out, "{:?}", (TimeZoneSettings::DEFAULT_READ_FILE_FN)("/etc/nothing").map_err(|error| error.to_string())).unwrap();
    if let Ok(zone) = TimeZone::from_posix_tz(setting) {
        answer(&mut out, "now", zone.find_current_local_time_type());
    }
    out
}

/// All that a zone says of itself.
pub fn zone_text(zone: &TimeZone) -> String {
    let borrowed = zone.as_ref();
    let mut out = format!("{zone:?}\n{zone:#?}\n{borrowed:?}\n");
    for transition in borrowed.transitions() {
        write!(out, "{} {} ", transition.unix_leap_time(), transition.local_time_type_index()).unwrap();
    }
    for leap_second in borrowed.leap_seconds() {
        write!(out, "{} {} ", leap_second.unix_leap_time(), leap_second.correction()).unwrap();
    }
    for kind in borrowed.local_time_types() {
        write!(out, "{} {} {} ", kind.ut_offset(), kind.is_dst(), kind.time_zone_designation()).unwrap();
    }
    if let Some(TransitionRule::Alternate(rule)) = borrowed.extra_rule() {
        write!(out, "{:?} {:?} {:?} {} ", rule.std(), rule.dst(), rule.dst_start(), rule.dst_start_time()).unwrap();
        write!(out, "{:?} {} {}", rule.dst_end(), rule.dst_end_time(), { *rule } == *rule).unwrap();
    }
    let copy = zone.clone();
    write!(out, "{} {} {}", copy == *zone, borrowed == TimeZoneRef::utc(), *zone == TimeZone::utc()).unwrap();
    out
}

/// All that a date time says of itself.
fn date_time_text(out: &mut String, date_time: &DateTime) {
    write!(out, "{date_time:?} {date_time} {date_time:>70} ").unwrap();
    let (year, month, day) = (date_time.year(), date_time.month(), date_time.month_day());
    let (hour, minute, second) = (date_time.hour(), date_time.minute(), date_time.second());
    write!(out, "{year} {month} {day} {hour} {minute} {second} {} ", date_time.nanoseconds()).unwrap();
    write!(out, "{} {} ", date_time.week_day(), date_time.year_day()).unwrap();
    write!(out, "{} {} ", date_time.unix_time(), date_time.total_nanoseconds()).unwrap();
    let kind = date_time.local_time_type();
    writeln!(out, "{} {} {}", kind.ut_offset(), kind.is_dst(), kind.time_zone_designation()).unwrap();
}

/// All that a UTC date time says of itself.
fn utc_text(out: &mut String, utc: &UtcDateTime) {
    write!(out, "{utc:?} {utc} {utc:>70} ").unwrap();
    write!(out, "{} {} {} ", utc.year(), utc.month(), utc.month_day()).unwrap();
    write!(out, "{} {} {} {} ", utc.hour(), utc.minute(), utc.second(), utc.nanoseconds()).unwrap();
    write!(out, "{} {} ", utc.week_day(), utc.year_day()).unwrap();
    writeln!(out, "{} {}", utc.unix_time(), utc.total_nanoseconds()).unwrap();
}

/// What is said of a date time, or of why there is none.
fn made(out: &mut String, what: &str, result: &Result<DateTime, TzError>) {
    match result {
        Ok(date_time) => {
            write!(out, "{what}: ").unwrap();
            date_time_text(out, date_time);
        }
        Err(error) => writeln!(out, "{what}: {}", fault(error)).unwrap(),
    }
}

/// The type of a zone's clock, as its offset and whole text, if it has one.
pub fn type_at(zone: &TimeZone, unix_time: i64) -> Option<(i32, String)> {
    let kind = zone.find_local_time_type(unix_time).ok()?;
    Some((kind.ut_offset(), format!("{kind:?}")))
}

/// All that calls return of an instant in a zone, a part for each.
pub fn instant_text(zone: &TimeZone, unix_time: i64, nanoseconds: u32) -> String {
    let zone = zone.as_ref();
    let mut out = String::new();
    answer(&mut out, "find_local_time_type", zone.find_local_time_type(unix_time));
    let date_time = DateTime::from_timespec(unix_time, nanoseconds, zone);
    made(&mut out, "from_timespec", &date_time);
    let total = i128::from(unix_time) * 1_000_000_000 + i128::from(nanoseconds);
    made(&mut out, "from_total_nanoseconds", &DateTime::from_total_nanoseconds(total, zone));
    if let Ok(utc) = UtcDateTime::from_timespec(unix_time, nanoseconds) {
        made(&mut out, "project", &utc.project(zone));
    }
    if let Ok(date_time) = date_time {
        made(&mut out, "project back", &date_time.project(TimeZoneRef::utc()));
        answer(&mut out, "try_from", UtcDateTime::try_from(date_time));
        writeln!(out, "{:?}", SystemTime::from(date_time)).unwrap();
        let kind = *date_time.local_time_type();
        made(&mut out, "local", &DateTime::from_timespec_and_local(unix_time, nanoseconds, kind));
        made(&mut out, "total local", &DateTime::from_total_nanoseconds_and_local(total, kind));
        let (year, month, day) = (date_time.year(), date_time.month(), date_time.month_day());
        let (hour, minute, second) = (date_time.hour(), date_time.minute(), date_time.second());
        made(&mut out, "new", &DateTime::new(year, month, day, hour, minute, second, date_time.nanoseconds(), kind));
    }
    out
}

/// What a search finds: the entries as instants and types, or the error.
pub type Found = Result<Vec<(bool, i64, String, String)>, String>;

/// What a search finds.
pub fn found(zone: &TimeZone, local: &Local) -> Found {
    let Local { year, month, day, hour, minute, second, nanoseconds } = *local;
    let list = DateTime::find(year, month, day, hour, minute, second, nanoseconds, zone.as_ref()).map_err(|error| fault(&error))?;
    let entries = list.into_inner().into_iter().map(|entry| match entry {
        FoundDateTimeKind::Normal(date_time) => {
            (false, date_time.unix_time(), format!("{:?}", date_time.local_time_type()), String::new())
        }
        FoundDateTimeKind::Skipped { before_transition, after_transition } => (
            true,
            before_transition.unix_time(),
            format!("{:?}", before_transition.local_time_type()),
            format!("{:?}", after_transition.local_time_type()),
        ),
    });
    Ok(entries.collect())
}

/// All that searches return of a local time in a zone, but for `unique` of a buffer that is too short.
pub fn local_text(zone: &TimeZone, local: &Local) -> String {
    let Local { year, month, day, hour, minute, second, nanoseconds } = *local;
    let zone = zone.as_ref();
    let mut out = String::new();
    match DateTime::find(year, month, day, hour, minute, second, nanoseconds, zone) {
        Err(error) => writeln!(out, "find: {}", fault(&error)).unwrap(),
        Ok(list) => {
            writeln!(out, "{list:?} {:?} {:?} {:?} {}", list.unique(), list.earliest(), list.latest(), list == list.clone()).unwrap();
            for entry in list.into_inner() {
                match entry {
                    FoundDateTimeKind::Normal(date_time) => date_time_text(&mut out, &date_time),
                    FoundDateTimeKind::Skipped { before_transition, after_transition } => {
                        date_time_text(&mut out, &before_transition);
                        date_time_text(&mut out, &after_transition);
                    }
                }
            }
        }
    }
    for length in [0, 1, 2, 3, 5] {
        let mut slots = [None; 5];
        match DateTime::find_n(&mut slots[..length], year, month, day, hour, minute, second, nanoseconds, zone) {
            Err(error) => writeln!(out, "find_n: {}", fault(&error)).unwrap(),
            Ok(list) => {
                write!(out, "{list:?} {:?} {} {} ", list.data(), list.count(), list.is_exhaustive()).unwrap();
                write!(out, "{:?} {:?} ", list.earliest(), list.latest()).unwrap();
                if list.is_exhaustive() {
                    write!(out, "{:?}", list.unique()).unwrap();
                }
                writeln!(out).unwrap();
            }
        }
    }
    out
}

/// `unique` of a buffer of one slot.
pub fn unique_of_one(zone: &TimeZone, local: &Local) -> (usize, bool) {
    let Local { year, month, day, hour, minute, second, nanoseconds } = *local;
    let mut slots = [None; 1];
    match DateTime::find_n(&mut slots, year, month, day, hour, minute, second, nanoseconds, zone.as_ref()) {
        Ok(list) => (list.count(), list.unique().is_some()),
        Err(_) => (0, false),
    }
}

/// The empty lists.
pub fn empty_lists() -> String {
    let list = tz::datetime::FoundDateTimeList::default();
    let mut slots = [None; 2];
    let slots = FoundDateTimeListRefMut::new(&mut slots);
    let same = FoundDateTimeListRefMut::new(&mut [None; 2]) == slots;
    format!("{list:?} {:?} {slots:?} {same} {:?} {:?}", list.unique(), slots.unique(), slots.earliest())
}

/// All that calls return of fields in UTC and in a local time type.
pub fn fields_text(local: &Local, kind: &Type) -> String {
    let Local { year, month, day, hour, minute, second, nanoseconds } = *local;
    let mut out = String::new();
    match UtcDateTime::new(year, month, day, hour, minute, second, nanoseconds) {
        Ok(utc) => {
            utc_text(&mut out, &utc);
            writeln!(out, "{:?}", SystemTime::from(utc)).unwrap();
        }
        Err(error) => writeln!(out, "{}", fault(&error)).unwrap(),
    }
    if let Ok(kind) = type_of(kind) {
        made(&mut out, "new", &DateTime::new(year, month, day, hour, minute, second, nanoseconds, kind));
    }
    out
}

/// All that calls return of an instant in UTC and in a local time type.
pub fn timespec_text(unix_time: i64, nanoseconds: u32, kind: &Type) -> String {
    let mut out = String::new();
    match UtcDateTime::from_timespec(unix_time, nanoseconds) {
        Ok(utc) => utc_text(&mut out, &utc),
        Err(error) => writeln!(out, "{}", fault(&error)).unwrap(),
    }
    if let Ok(kind) = type_of(kind) {
        made(&mut out, "local", &DateTime::from_timespec_and_local(unix_time, nanoseconds, kind));
    }
    out
}

/// All that calls return of a total of nanoseconds.
pub fn total_text(total: i128, kind: &Type) -> String {
    let mut out = String::new();
    answer(&mut out, "utc", UtcDateTime::from_total_nanoseconds(total));
    made(&mut out, "zone", &DateTime::from_total_nanoseconds(total, TimeZoneRef::utc()));
    if let Ok(kind) = type_of(kind) {
        made(&mut out, "local", &DateTime::from_total_nanoseconds_and_local(total, kind));
    }
    out
}

/// All that calls return of two instants and a duration.
pub fn pair_text(first: (i64, u32), second: (i64, u32), duration: Duration, kind: &Type) -> String {
    let mut out = String::new();
    let (Ok(a), Ok(b)) = (UtcDateTime::from_timespec(first.0, first.1), UtcDateTime::from_timespec(second.0, second.1)) else {
        return out;
    };
    writeln!(out, "{:?} {:?} {:?} {:?}", a.cmp(&b), a == b, a.duration_since(b), b.duration_since(a)).unwrap();
    writeln!(out, "{:?} {:?}", a.checked_add(duration), a.checked_sub(duration)).unwrap();
    let (mut added, mut taken) = (a, a);
    let sum = std::panic::catch_unwind(move || {
        added += duration;
        (added, a + duration)
    });
    let rest = std::panic::catch_unwind(move || {
        taken -= duration;
        (taken, a - duration)
    });
    writeln!(out, "{:?} {:?}", sum.map_err(words), rest.map_err(words)).unwrap();
    let Ok(kind) = type_of(kind) else {
        return out;
    };
    let (Ok(x), Ok(y)) = (a.project(TimeZoneRef::utc()), DateTime::from_timespec_and_local(second.0, second.1, kind)) else {
        return out;
    };
    writeln!(out, "{:?} {:?} {:?} {:?}", x.cmp(&y), x == y, x.duration_since(y), y.duration_since(x)).unwrap();
    out
}

/// What a panic says.
fn words(panic: Box<dyn std::any::Any + Send>) -> String {
    let text = panic.downcast_ref::<String>().cloned();
    text.or_else(|| panic.downcast_ref::<&str>().map(|text| text.to_string())).unwrap_or_default()
}

/// What a time of the system becomes.
pub fn system_time_text(seconds: i64, nanoseconds: u32) -> String {
    let duration = Duration::new(seconds.unsigned_abs(), nanoseconds);
    let time = if seconds < 0 {
        SystemTime::UNIX_EPOCH.checked_sub(duration)
    } else {
        SystemTime::UNIX_EPOCH.checked_add(duration)
    };
    let mut out = String::new();
    if let Some(time) = time {
        answer(&mut out, "system", UtcDateTime::try_from(time));
    }
    out
}

/// The constants.
pub fn constants() -> String {
    let mut out = String::new();
    for utc in [UtcDateTime::UNIX_EPOCH, UtcDateTime::MIN, UtcDateTime::MAX] {
        utc_text(&mut out, &utc);
    }
    writeln!(out, "{:?} {:?} {:?}", LocalTimeType::utc(), TimeZoneRef::utc(), TimeZone::utc()).unwrap();
    out
}
