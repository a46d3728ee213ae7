//! The constants beside the machine's files.

mod database;

use std::collections::BTreeSet;
use std::fs;

use tz::datetime::FoundDateTimeKind;
use tz::timezone::{AlternateTime, RuleDay, Transition, TransitionRule};
use tz::{DateTime, LocalTimeType, TimeZone, TimeZoneRef, UtcDateTime};
use tz_zones::NAMES;

/// The first and the last year of lookups.
const YEARS: (i32, i32) = (1900, 2100);

/// Years that hold every change which a rule stands for in a file.
const RULE_YEARS: (i32, i32) = (1850, 2150);

/// Days from 1970-01-01 to a day of a rule in a year, found in the calendar of `UtcDateTime`.
fn days_to(day: &RuleDay, year: i32) -> i64 {
    let midnight = |month, month_day| UtcDateTime::new(year, month, month_day, 0, 0, 0, 0).ok();
    let days = |date: UtcDateTime| date.unix_time() / 86_400;
    let first = days(midnight(1, 1).unwrap());
    match day {
        RuleDay::Julian1WithoutLeap(day) => {
            let leap = midnight(2, 29).map(days);
            let mut others = (first..).filter(|day| Some(*day) != leap);
            others.nth(usize::from(day.get()) - 1).unwrap()
        }
        RuleDay::Julian0WithLeap(day) => first + i64::from(day.get()),
        RuleDay::MonthWeekDay(day) => {
            let dates = (1..=31).filter_map(|month_day| midnight(day.month(), month_day));
            let dates = dates.filter(|date| date.week_day() == day.week_day());
            // The fifth week stands for the last, which may be the fourth.
            days(dates.take(usize::from(day.week())).last().unwrap())
        }
    }
}

/// The changes of an alternate rule whose days are in some years, in order.
fn changes_of(rule: &AlternateTime, years: (i32, i32)) -> Vec<(i64, LocalTimeType)> {
    let mut changes = Vec::new();
    for year in years.0..=years.1 {
        let start = days_to(rule.dst_start(), year) * 86_400 + i64::from(rule.dst_start_time());
        let end = days_to(rule.dst_end(), year) * 86_400 + i64::from(rule.dst_end_time());
        changes.push((start - i64::from(rule.std().ut_offset()), *rule.dst()));
        changes.push((end - i64::from(rule.dst().ut_offset()), *rule.std()));
    }
    changes.sort_by_key(|change| change.0);
    changes
}

/// The changes of the rule of a zone, if it has one that changes clocks.
fn changes_by_rule(zone: TimeZoneRef<'_>, years: (i32, i32)) -> Vec<(i64, LocalTimeType)> {
    match zone.extra_rule() {
        Some(TransitionRule::Alternate(rule)) => changes_of(rule, years),
        _ => Vec::new(),
    }
}

/// The changes in a table: its transitions to another type than the one before.
fn changes_in_table(zone: TimeZoneRef<'_>) -> Vec<(i64, LocalTimeType)> {
    let types = zone.local_time_types();
    let mut before = types[0];
    let mut changes = Vec::new();
    for transition in zone.transitions() {
        let after = types[transition.local_time_type_index()];
        if after != before {
            changes.push((transition.unix_leap_time(), after));
        }
        before = after;
    }
    changes
}

#[test]
fn names_are_those_of_the_files() {
    let Some(folder) = database::folder() else {
        return;
    };
    let mut found = BTreeSet::new();
    let mut folders = vec![folder.clone()];
    while let Some(inner) = folders.pop() {
        for entry in fs::read_dir(inner).unwrap() {
            let path = entry.unwrap().path();
            let name = path.strip_prefix(&folder).unwrap().to_str().unwrap();
            if ["right", "posix", "posixrules", "localtime"].contains(&name) {
                continue;
            }
            if path.is_dir() {
                folders.push(path);
            } else if fs::read(&path).is_ok_and(|bytes| bytes.starts_with(b"TZif")) {
                found.insert(name.to_string());
            }
        }
    }
    let names: BTreeSet<_> = NAMES.iter().map(|name| name.to_string()).collect();
    assert_eq!(names, found);
}

#[test]
fn constants_are_their_files_but_for_what_the_rule_says() {
    for (name, zone, file) in database::zones() {
        let file = file.as_ref();
        assert_eq!(zone.local_time_types(), file.local_time_types(), "{name}");
        assert_eq!(zone.extra_rule(), file.extra_rule(), "{name}");
        assert!(zone.leap_seconds().is_empty(), "{name}");
        assert!(file.leap_seconds().is_empty(), "{name}");
        let kept = zone.transitions();
        assert!(file.transitions().starts_with(kept), "{name}");
        let [.., last] = file.transitions() else {
            continue;
        };
        // What was left out, restored from the rule.
        let (first, last) = (kept[kept.len() - 1].unix_leap_time(), last.unix_leap_time());
        let mut changes = changes_in_table(zone);
        let restored = changes_by_rule(zone, RULE_YEARS).into_iter();
        changes.extend(restored.filter(|change| first < change.0 && change.0 <= last));
        assert_eq!(changes, changes_in_table(file), "{name}");
    }
}

#[test]
fn no_further_transition_can_be_left_out() {
    for (name, zone, _) in database::zones() {
        let [shorter @ .., last] = zone.transitions() else {
            continue;
        };
        let [.., before] = shorter else { continue };
        let (types, rule) = (zone.local_time_types(), zone.extra_rule());
        let Ok(other) = TimeZoneRef::new(shorter, types, &[], rule) else {
            continue;
        };
        // From the one before it up to it, the rule changes clocks, and the table does not.
        let span = before.unix_leap_time() + 1..last.unix_leap_time();
        let changes = changes_by_rule(zone, RULE_YEARS);
        let mut within = changes.iter().filter(|change| span.contains(&change.0));
        assert!(
            within.any(|change| at(other, change.0) != at(zone, change.0)),
            "{name}"
        );
    }
}

/// The type of the clock.
fn at(zone: TimeZoneRef<'_>, unix_time: i64) -> LocalTimeType {
    *zone.find_local_time_type(unix_time).unwrap()
}

/// The instants at which the table or the rule of a zone changes clocks, and the ends of years.
fn instants(zone: TimeZoneRef<'_>) -> Vec<i64> {
    let by_rule = changes_by_rule(zone, YEARS)
        .into_iter()
        .map(|change| change.0);
    let in_table = zone.transitions().iter().map(Transition::unix_leap_time);
    let years = (YEARS.0..=YEARS.1 + 1).map(|year| UtcDateTime::new(year, 1, 1, 0, 0, 0, 0));
    let years = years.map(|date| date.unwrap().unix_time());
    by_rule.chain(in_table).chain(years).collect()
}

#[test]
fn lookups_are_those_of_the_files() {
    for (name, zone, file) in database::zones() {
        let file = file.as_ref();
        for time in instants(file) {
            for time in [time - 86_400, time - 1, time, time + 1, time + 86_400] {
                assert_eq!(at(zone, time), at(file, time), "{name} at {time}");
            }
        }
    }
}

/// The type that a walk over all transitions finds before the last of them.
fn by_walk(zone: TimeZoneRef<'_>, unix_time: i64) -> LocalTimeType {
    let mut transitions = zone.transitions().iter().rev();
    let last = transitions.find(|transition| transition.unix_leap_time() <= unix_time);
    let index = last.map_or(0, Transition::local_time_type_index);
    zone.local_time_types()[index]
}

/// A position is first guessed by time, which may succeed or fail beside each transition.
#[test]
fn lookups_beside_each_transition_are_those_of_a_walk() {
    for name in NAMES {
        let constant = tz_zones::named(name).unwrap();
        let file = database::zone(name);
        for zone in [Some(constant), file.as_ref().map(TimeZone::as_ref)]
            .into_iter()
            .flatten()
        {
            let [before_last @ .., _] = zone.transitions() else {
                continue;
            };
            for time in before_last.iter().map(Transition::unix_leap_time) {
                for time in [time - 1, time, time + 1] {
                    assert_eq!(at(zone, time), by_walk(zone, time), "{name} at {time}");
                }
            }
        }
    }
}

/// All instants at which clocks show what one with an offset shows at a Unix time.
fn found(zone: TimeZoneRef<'_>, unix_time: i64, ut_offset: i32) -> Vec<FoundDateTimeKind> {
    let date = UtcDateTime::from_timespec(unix_time + i64::from(ut_offset), 0).unwrap();
    let (year, month, month_day) = (date.year(), date.month(), date.month_day());
    let (hour, minute, second) = (date.hour(), date.minute(), date.second());
    let list = DateTime::find(year, month, month_day, hour, minute, second, 0, zone);
    list.unwrap().into_inner()
}

#[test]
fn searches_are_those_of_the_files() {
    for (name, zone, file) in database::zones() {
        let file = file.as_ref();
        for time in instants(file) {
            for offset in [at(file, time - 1).ut_offset(), at(file, time).ut_offset()] {
                for time in [time - 1, time] {
                    let lists = (found(zone, time, offset), found(file, time, offset));
                    assert_eq!(lists.0, lists.1, "{name} at {time}");
                }
            }
        }
    }
}
