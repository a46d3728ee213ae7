// Tests from crates/tz_examples/src/zones.rt by bindings/erase. Change that file instead.
//! Zones from files, from TZ strings, from the machine's settings and from parts.

use crate::kit::Vec;
use tz::proved::tz::timezone::{
    self, AlternateTime, LocalTimeType, MonthWeekDay, RuleDay, Transition, TransitionRule,
};
use tz::proved::tz::{DateTime, Error, TimeZone, TimeZoneRef, TzError, TzString};
use tz::shim::alloc::Global;
use tz::shim::rt::Files;

/// The zone that the machine is set to, as `/etc/localtime` says.
pub fn local_zone<R: Files>(rt: &R, alloc: Global) -> Result<TimeZone, Error> {
    TimeZone::local(alloc, |path: &str| timezone::read_file(rt, alloc, path))
}

/// The zone of a name such as `Europe/Paris`. A misspelt one is refused by its name.
pub fn zone_of_name<R: Files>(rt: &R, alloc: Global, name: &str) -> Result<TimeZone, Error> {
    let reader = |path: &str| timezone::read_file_up_to(rt, alloc, 65_536, path);
    TimeZone::named(alloc, reader, name)
}

/// The zone of a name such as `Europe/Paris`, or of a TZ string such as
/// `CET-1CEST,M3.5.0,M10.5.0/3`.
pub fn zone_of_setting<R: Files>(rt: &R, alloc: Global, setting: &str) -> Result<TimeZone, Error> {
    let reader = |path: &str| timezone::read_file(rt, alloc, path);
    TimeZone::from_posix_tz(alloc, reader, setting)
}

/// What clocks show at a Unix time in the zone of a TZif file whose bytes were read.
pub fn local_time(alloc: Global, file: &[u8], unix_time: i64) -> Result<DateTime, TzError> {
    let zone = TimeZone::from_tz_data(alloc, file)?;
    DateTime::from_timespec(unix_time, 0, zone.as_ref())
}

/// What clocks showed in a zone that is made of its parts, without memory: an hour ahead of UTC
/// until the year 2000, and two from then on.
pub fn moved_ahead_in_2000(unix_time: i64) -> Result<DateTime, TzError> {
    let before = LocalTimeType::new(3600, false, Some(b"EARLY"))?;
    let after = LocalTimeType::new(7200, false, Some(b"LATE"))?;
    let types = [before, after];
    let transitions = [Transition::new(946_684_800, 1)];
    let rule = Some(TransitionRule::Fixed(after));
    let zone = TimeZoneRef::new(&transitions, &types, &[], &rule)?;
    DateTime::from_timespec(unix_time, 0, zone)
}

/// Central European summer time, two hours ahead of UTC.
pub fn summer_time() -> Result<LocalTimeType, TzError> {
    Ok(LocalTimeType::new(7200, true, Some(b"CEST"))?)
}

/// The rule of New York: daylight saving time from 2:00 on the second Sunday of March to 2:00 on
/// the first Sunday of November.
pub fn new_york_rule() -> Result<AlternateTime, TzError> {
    let std = LocalTimeType::new(-18_000, false, Some(b"EST"))?;
    let dst = LocalTimeType::new(-14_400, true, Some(b"EDT"))?;
    let start = RuleDay::MonthWeekDay(MonthWeekDay::new(3, 2, 0)?);
    let end = RuleDay::MonthWeekDay(MonthWeekDay::new(11, 1, 0)?);
    Ok(AlternateTime::new(std, dst, start, 7200, end, 7200)?)
}

/// A zone with a rule and no transitions.
pub fn zone_of_rule(alloc: Global, rule: AlternateTime) -> Result<TimeZone, TzError> {
    let types = Vec::from_array(alloc, [*rule.std(), *rule.dst()])?;
    let rule = Some(TransitionRule::Alternate(rule));
    TimeZone::new(Vec::new(alloc), types, Vec::new(alloc), rule)
}

/// The TZ string of a zone's rule.
pub fn rule_text(zone: TimeZoneRef<'_>) -> Option<TzString> {
    match zone.extra_rule() {
        Some(rule) => TzString::from_rule(rule),
        None => None,
    }
}
