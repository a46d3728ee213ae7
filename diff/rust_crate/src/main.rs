//! Compares every public call of the Rust crate with tz-rs 0.7.3. `run` beside it says how to call it.
//!
//! Answers are texts of all that calls return. Where two differ, the list of `reasons` has to have a reason, which is tried on the case itself.

mod made;
mod plain;
mod reasons;

// Types at instants are those of the other crate alone.
#[allow(dead_code)]
mod ours {
    use ::ours as tz;
    include!("calls.rs");
}

mod theirs {
    use ::theirs as tz;
    include!("calls.rs");
}

use made::Random;
use plain::{Alternate, Day, Local, Parts, Rule, Type};
use reasons::Reason;
use std::collections::{BTreeMap, BTreeSet};
use std::path::{Path, PathBuf};
use std::process::ExitCode;
use std::time::Duration;

/// A piece of the comparison.
type Work = Box<dyn Fn(&mut Report, &Random) + Send + Sync>;

/// The first and the last instant of UTC date times.
const FIRST: i64 = -67_768_100_567_971_200;
const LAST: i64 = 67_767_976_233_532_799;

/// What was compared.
#[derive(Default)]
struct Report {
    /// How many answers of each kind, and how many of them differ.
    kinds: BTreeMap<&'static str, (u64, u64)>,
    listed: BTreeMap<Reason, (u64, String)>,
    unlisted: Vec<String>,
    others: u64,
}

impl Report {
    /// Compares two answers.
    fn same(
        &mut self,
        kind: &'static str,
        here: &str,
        there: &str,
        case: impl FnOnce() -> String,
        reason: impl FnOnce() -> Option<Reason>,
    ) {
        let counts = self.kinds.entry(kind).or_default();
        counts.0 += 1;
        if here == there {
            return;
        }
        counts.1 += 1;
        let case = || {
            format!(
                "{kind}: {}\n  here  {}\n  there {}",
                case(),
                cut(here, there),
                cut(there, here)
            )
        };
        match reason() {
            Some(reason) => {
                let listed = self.listed.entry(reason).or_insert_with(|| (0, case()));
                listed.0 += 1;
            }
            None if self.unlisted.len() < 20 => self.unlisted.push(case()),
            None => self.others += 1,
        }
    }

    /// Adds another report.
    fn add(&mut self, other: Report) {
        for (kind, (all, differ)) in other.kinds {
            let counts = self.kinds.entry(kind).or_default();
            *counts = (counts.0 + all, counts.1 + differ);
        }
        for (reason, (count, case)) in other.listed {
            self.listed.entry(reason).or_insert_with(|| (0, case)).0 += count;
        }
        self.others += other.others;
        self.unlisted.extend(other.unlisted);
    }

    /// Prints the counts, a case of each reason, and what is not listed.
    fn print(&self) -> ExitCode {
        for (kind, (all, differ)) in &self.kinds {
            println!("{kind}: {all} answers, {differ} differ");
        }
        for (reason, (count, case)) in &self.listed {
            println!("listed, {reason:?}: {count}, such as {case}");
        }
        for case in &self.unlisted {
            println!("NOT LISTED, {case}");
        }
        let all: u64 = self.kinds.values().map(|counts| counts.0).sum();
        let differ: u64 = self.kinds.values().map(|counts| counts.1).sum();
        let unlisted = self.unlisted.len() as u64 + self.others;
        println!("{all} answers, {differ} differ, {unlisted} of them for no listed reason");
        ExitCode::from(u8::from(unlisted > 0))
    }
}

/// The part of a text from shortly before where another one differs.
fn cut(text: &str, other: &str) -> String {
    let same = text
        .chars()
        .zip(other.chars())
        .take_while(|(a, b)| a == b)
        .count();
    text.chars()
        .skip(same.saturating_sub(60))
        .take(300)
        .collect::<String>()
        .replace('\n', "⏎")
}

/// The rule of a zone as plain values.
fn rule_of(zone: &ours::Zone) -> Option<Rule> {
    use ::ours::timezone::{RuleDay, TransitionRule};
    let kind = |kind: &::ours::LocalTimeType| Type {
        ut_offset: kind.ut_offset(),
        is_dst: kind.is_dst(),
        name: Some(kind.time_zone_designation().to_string()).filter(|name| !name.is_empty()),
    };
    let day = |day: &RuleDay| match day {
        RuleDay::Julian1WithoutLeap(day) => Day::Julian1(day.get()),
        RuleDay::Julian0WithLeap(day) => Day::Julian0(day.get()),
        RuleDay::MonthWeekDay(day) => Day::MonthWeekDay(day.month(), day.week(), day.week_day()),
    };
    Some(match zone.as_ref().extra_rule().as_ref()? {
        TransitionRule::Fixed(fixed) => Rule::Fixed(kind(fixed)),
        TransitionRule::Alternate(rule) => Rule::Alternate(Alternate {
            std: kind(rule.std()),
            dst: kind(rule.dst()),
            start: (day(rule.dst_start()), rule.dst_start_time()),
            end: (day(rule.dst_end()), rule.dst_end_time()),
        }),
    })
}

/// The parts of a zone as plain values.
fn parts_of(zone: &ours::Zone) -> Parts {
    let borrowed = zone.as_ref();
    Parts {
        transitions: borrowed
            .transitions()
            .iter()
            .map(|x| (x.unix_leap_time(), x.local_time_type_index()))
            .collect(),
        types: Vec::new(),
        leap_seconds: borrowed
            .leap_seconds()
            .iter()
            .map(|x| (x.unix_leap_time(), x.correction()))
            .collect(),
        rule: rule_of(zone),
    }
}

/// Instants at which a zone's clock changes or ends, with those beside them, and the ends of all.
fn instants_of(zone: &ours::Zone, most: usize) -> BTreeSet<i64> {
    let borrowed = zone.as_ref();
    let mut centres = BTreeSet::from([i64::MIN, i64::MAX, FIRST, LAST, 0, 4_102_444_800]);
    let mut corrections: BTreeSet<i64> = borrowed
        .leap_seconds()
        .iter()
        .map(|x| i64::from(x.correction()))
        .collect();
    corrections.insert(0);
    for transition in borrowed.transitions().iter().take(most) {
        let by_leaps = corrections
            .iter()
            .map(|correction| transition.unix_leap_time().saturating_sub(*correction));
        centres.extend(by_leaps);
    }
    for leap_second in borrowed.leap_seconds().iter().take(most) {
        let by_leaps = corrections
            .iter()
            .map(|correction| leap_second.unix_leap_time().saturating_sub(*correction));
        centres.extend(by_leaps);
    }
    if let Some(Rule::Alternate(rule)) = rule_of(zone) {
        let years = [1970, 1999, 2000, 2024, 2037, 2100, -5000, 123_456];
        let ends = [
            i32::MIN,
            i32::MIN + 1,
            i32::MIN + 2,
            i32::MIN + 3,
            i32::MAX - 3,
            i32::MAX - 2,
            i32::MAX - 1,
            i32::MAX,
        ];
        for year in years.into_iter().chain(ends.map(i64::from)) {
            centres.extend([rule.start_in(year), rule.end_in(year)]);
            centres.insert(plain::turn(Day::Julian0(0), 0, year));
        }
    }
    for kind in borrowed.local_time_types() {
        let offset = i64::from(kind.ut_offset());
        centres.extend([FIRST - offset, LAST - offset]);
    }
    let beside = |at: i64| [at.saturating_sub(1), at, at.saturating_add(1)];
    centres.into_iter().flat_map(beside).collect()
}

/// The first changes of a zone's clock, so many at most, each with the offsets before and after it.
fn jumps_of(zone: &ours::Zone, most: usize) -> Vec<(i64, i32, i32)> {
    zone.changes_after(i64::MIN)
        .take(most)
        .map(|change| {
            let (before, after) = (change.before().ut_offset(), change.after().ut_offset());
            (change.unix_time(), before, after)
        })
        .collect()
}

/// The local times at both ends of a jump, and those beside them.
fn locals_around((at, before, after): (i64, i32, i32)) -> impl Iterator<Item = Local> {
    [before, after]
        .into_iter()
        .flat_map(move |offset| {
            let end = at.saturating_add(offset.into());
            [end.saturating_sub(1), end]
        })
        .filter_map(|reading| Local::from_reading(reading, 0))
}

/// Local times at which something may be shown, skipped or shown twice: those of instants by each offset.
fn locals_of(
    random: &Random,
    zone: &ours::Zone,
    instants: &BTreeSet<i64>,
    most: usize,
) -> Vec<Local> {
    let borrowed = zone.as_ref();
    let mut offsets: BTreeSet<i64> = borrowed
        .local_time_types()
        .iter()
        .map(|kind| i64::from(kind.ut_offset()))
        .collect();
    match rule_of(zone) {
        Some(Rule::Fixed(kind)) => offsets.extend([i64::from(kind.ut_offset)]),
        Some(Rule::Alternate(rule)) => {
            offsets.extend([i64::from(rule.std.ut_offset), i64::from(rule.dst.ut_offset)])
        }
        None => {}
    }
    let offsets: Vec<i64> = offsets.into_iter().collect();
    let mut locals = Vec::new();
    for (number, at) in instants.iter().enumerate() {
        for offset in offsets.iter().take(4) {
            let reading = at.saturating_add(*offset);
            let Some(local) = Local::from_reading(reading, random.pick(&[0, 0, 999_999_999]))
            else {
                continue;
            };
            locals.push(local);
            if number % 7 == 0 {
                locals.push(Local {
                    second: 60,
                    ..local
                });
                locals.extend(Local::from_reading(reading + random.within(-7200, 7200), 0));
            }
        }
    }
    for year in [
        i32::MIN,
        i32::MIN + 1,
        i32::MIN + 2,
        i32::MIN + 3,
        i32::MAX - 3,
        i32::MAX - 2,
        i32::MAX - 1,
        i32::MAX,
        2000,
    ] {
        for (month, day) in [
            (1, 1),
            (6, 30),
            (12, 31),
            (2, 29),
            (2, 30),
            (13, 1),
            (0, 32),
        ] {
            let (hour, minute, second) = random.pick(&[
                (0, 0, 0),
                (23, 59, 59),
                (23, 59, 60),
                (12, 30, 30),
                (24, 0, 0),
                (0, 60, 0),
                (0, 0, 61),
            ]);
            locals.push(Local {
                year,
                month,
                day,
                hour,
                minute,
                second,
                nanoseconds: random.pick(&[0, 1, 1_000_000_000]),
            });
        }
    }
    while locals.len() > most {
        let place = random.within(0, locals.len() as i64 - 1) as usize;
        locals.swap_remove(place);
    }
    locals
}

/// Compares a zone that both crates are to make, and all answers over it.
fn compare_zone(
    report: &mut Report,
    random: &Random,
    most: usize,
    case: &dyn Fn() -> String,
    (parts, version): (Option<&Parts>, Option<u8>),
    here: Result<ours::Zone, String>,
    there: Result<theirs::Zone, String>,
) {
    let text = |zone: &Result<String, String>| zone.clone().unwrap_or_else(|error| error);
    let is_new_fault = |here: &str, there: &str| {
        version.is_some_and(|version| version < b'4')
            && here.contains("InvalidLeapSecond")
            && (there.contains("InvalidTransition") || there.contains("InvalidLocalTimeTypeIndex"))
    };
    let (here_text, there_text) = (
        here.as_ref().map(ours::zone_text),
        there.as_ref().map(theirs::zone_text),
    );
    let (here_text, there_text) = (
        text(&here_text.map_err(String::clone)),
        text(&there_text.map_err(String::clone)),
    );
    report.same(
        "zones made or refused",
        &here_text,
        &there_text,
        case,
        || {
            let own = here.as_ref().ok().map(parts_of);
            let parts = parts.or(own.as_ref());
            let of_parts = parts.map_or_else(
                || reasons::of_zone(&Parts::default(), version),
                |parts| reasons::of_zone(parts, version),
            );
            of_parts.or(is_new_fault(&here_text, &there_text).then_some(Reason::LeapTable))
        },
    );
    let (Ok(zone), Ok(other)) = (&here, &there) else {
        return;
    };
    let rule = rule_of(zone);
    let mut instants = instants_of(zone, most);
    while instants.len() > most {
        let keep = random.within(1, 3);
        let mut number = 0;
        instants.retain(|_| {
            number += 1;
            number % 4 != keep
        });
    }
    let mut locals = locals_of(random, zone, &instants, most * 2);
    // At each jump, whatever was left out above.
    for jump in jumps_of(zone, most) {
        instants.extend([jump.0.saturating_sub(1), jump.0]);
        locals.extend(locals_around(jump));
    }
    for &at in &instants {
        let nanoseconds = random.pick(&[0, 1, 999_999_999]);
        report.same(
            "instants in a zone",
            &ours::instant_text(zone, at, nanoseconds),
            &theirs::instant_text(other, at, nanoseconds),
            || format!("{}, {at}", case()),
            || reasons::of_instant(rule.as_ref(), at),
        );
    }
    for local in locals {
        let case = || format!("{}, {local:?}", case());
        report.same(
            "local times in a zone",
            &ours::local_text(zone, &local),
            &theirs::local_text(other, &local),
            case,
            || reasons::of_search(zone, other, rule.as_ref(), &local),
        );
        let (here, there) = (
            ours::unique_of_one(zone, &local),
            theirs::unique_of_one(other, &local),
        );
        if here.0 == there.0 {
            report.same(
                "unique of one slot",
                &format!("{}", here.1),
                &format!("{}", there.1),
                case,
                || (here.0 > 1 && !here.1).then_some(Reason::Unique),
            );
        }
    }
}

/// Compares the zone of a file's bytes.
fn compare_file(
    report: &mut Report,
    random: &Random,
    most: usize,
    case: &dyn Fn() -> String,
    parts: Option<&Parts>,
    bytes: &[u8],
) {
    let (here, there) = (ours::zone_of_file(bytes), theirs::zone_of_file(bytes));
    // The version of the second header decides too.
    let is_new = bytes.windows(5).any(|header| header == b"TZif4");
    let version = if is_new {
        Some(b'4')
    } else {
        bytes.get(4).copied()
    };
    compare_zone(report, random, most, case, (parts, version), here, there);
}

/// The files of some folders, each content once.
fn files_in(folders: &[PathBuf]) -> Vec<(PathBuf, Vec<u8>)> {
    let (mut open, mut seen, mut files) = (folders.to_vec(), BTreeSet::new(), Vec::new());
    while let Some(path) = open.pop() {
        if path.is_dir() {
            let mut inside: Vec<_> = std::fs::read_dir(&path)
                .into_iter()
                .flatten()
                .flatten()
                .map(|entry| entry.path())
                .collect();
            inside.sort();
            open.extend(inside);
        } else if let Ok(bytes) = std::fs::read(&path)
            && bytes.starts_with(b"TZif")
            && seen.insert(bytes.clone())
        {
            files.push((path, bytes));
        }
    }
    files
}

/// Files of the machine as they are.
fn machine_files(report: &mut Report, random: &Random, files: &[(PathBuf, Vec<u8>)]) {
    for (path, bytes) in files {
        compare_file(
            report,
            random,
            1500,
            &|| path.display().to_string(),
            None,
            bytes,
        );
    }
}

/// Altered files.
fn altered_files(report: &mut Report, random: &Random, files: &[(PathBuf, Vec<u8>)], count: usize) {
    for _ in 0..count {
        let (path, bytes) = &files[random.within(0, files.len() as i64 - 1) as usize];
        let bytes = made::altered(random, bytes);
        let case = || format!("{} altered: {bytes:?}", path.display());
        compare_file(report, random, 40, &case, None, &bytes);
    }
}

/// Made zones, from parts and from files of each version.
fn made_zones(report: &mut Report, random: &Random, count: usize) {
    for _ in 0..count {
        let parts = made::parts(random);
        let case = || format!("{parts:?}");
        let (here, there) = (ours::zone_of_parts(&parts), theirs::zone_of_parts(&parts));
        compare_zone(
            report,
            random,
            120,
            &case,
            (Some(&parts), None),
            here,
            there,
        );
        let version = random.pick(&[0, b'2', b'3', b'3', b'4']);
        let footer = parts.rule.as_ref().and_then(footer_of).unwrap_or_default();
        let mut read = Parts {
            rule: if footer.is_empty() {
                None
            } else {
                parts.rule.clone()
            },
            ..parts.clone()
        };
        if version == 0 {
            read.transitions
                .retain(|transition| i32::try_from(transition.0).is_ok());
            read.rule = None;
        }
        let bytes = plain::tz_file(&read, version, footer.as_bytes());
        let case = || format!("a file of version {version} with {read:?} {footer}");
        compare_file(report, random, 40, &case, Some(&read), &bytes);
    }
}

/// The TZ string of a rule, by the crate's own call, where there is one.
fn footer_of(rule: &Rule) -> Option<String> {
    let parts = Parts {
        types: vec![Type {
            ut_offset: 0,
            is_dst: false,
            name: None,
        }],
        rule: Some(rule.clone()),
        ..Parts::default()
    };
    let zone = ours::zone_of_parts(&parts).ok()?;
    let rule = ::ours::TzString::from_rule(zone.as_ref().extra_rule().as_ref()?)?;
    Some(rule.to_string())
}

/// TZ strings, as settings and as footers.
fn texts(report: &mut Report, random: &Random, count: usize) {
    for _ in 0..count {
        let text = made::text(random);
        let case = || format!("{text:?}");
        let (here, there) = (
            ours::zone_of_setting(&text, false),
            theirs::zone_of_setting(&text, false),
        );
        compare_zone(report, random, 12, &case, (None, None), here, there);
        let version = random.pick(b"23");
        let one = Parts {
            types: vec![Type {
                ut_offset: 0,
                is_dst: false,
                name: Some("UTC".to_string()),
            }],
            ..Parts::default()
        };
        let bytes = plain::tz_file(&one, version, text.as_bytes());
        let case = || {
            format!(
                "{text:?} in the footer of a file of version {}",
                char::from(version)
            )
        };
        compare_file(report, random, 12, &case, None, &bytes);
    }
}

/// Rules from parts, days and types.
fn rules(report: &mut Report, random: &Random, count: usize) {
    for _ in 0..count {
        let rule = made::alternate(random);
        let both = Rule::Alternate(rule.clone());
        let case = || format!("{rule:?}");
        report.same(
            "rules",
            &ours::rule_text(&both),
            &theirs::rule_text(&both),
            case,
            || None,
        );
        let kind = made::kind(random);
        report.same(
            "local time types",
            &ours::type_text(&kind),
            &theirs::type_text(&kind),
            || format!("{kind:?}"),
            || None,
        );
    }
    let month_week_days = (0..16).flat_map(|month| {
        (0..8).flat_map(move |week| (0..9).map(move |day| Day::MonthWeekDay(month, week, day)))
    });
    let numbers = (0..=400)
        .chain([u16::MAX])
        .flat_map(|number| [Day::Julian0(number), Day::Julian1(number)]);
    for day in month_week_days.chain(numbers) {
        report.same(
            "days",
            &ours::day_text(day),
            &theirs::day_text(day),
            || format!("{day:?}"),
            || None,
        );
    }
}

/// An instant: one of the usual ones, near an end, or any.
fn instant(random: &Random) -> i64 {
    match random.within(0, 5) {
        0 => random.pick(&[i64::MIN, i64::MAX, FIRST, LAST, FIRST - 1, LAST + 1, 0, -1]),
        1 => random.pick(&[FIRST, LAST, 0]) + random.within(-200_000, 200_000),
        2 => random.within(FIRST, LAST),
        3 => random.next() as i64,
        _ => random.within(-5_000_000_000, 8_000_000_000),
    }
}

/// Date times without a zone.
fn date_times(report: &mut Report, random: &Random, count: usize) {
    report.same(
        "constants",
        &ours::constants(),
        &theirs::constants(),
        String::new,
        || None,
    );
    report.same(
        "empty lists",
        &ours::empty_lists(),
        &theirs::empty_lists(),
        String::new,
        || None,
    );
    for _ in 0..count {
        let kind = Type {
            ut_offset: made::offset(random),
            is_dst: random.one_in(2),
            name: Some("ABC".to_string()),
        };
        let at = instant(random);
        let nanoseconds = random.pick(&[0, 1, 500_000_000, 999_999_999, 1_000_000_000, u32::MAX]);
        report.same(
            "instants",
            &ours::timespec_text(at, nanoseconds, &kind),
            &theirs::timespec_text(at, nanoseconds, &kind),
            || format!("{at} {nanoseconds} {kind:?}"),
            || (nanoseconds >= 1_000_000_000).then_some(Reason::Nanoseconds),
        );
        let local = Local {
            year: random.pick(&[
                i32::MIN,
                i32::MAX,
                0,
                1900,
                1999,
                2000,
                random.within(-10_000, 10_000) as i32,
                random.next() as i32,
            ]),
            month: random.within(0, 13) as u8,
            day: random.within(0, 32) as u8,
            hour: random.pick(&[0, 12, 23, 23, 24, 255]),
            minute: random.pick(&[0, 30, 59, 59, 60]),
            second: random.pick(&[0, 59, 60, 60, 61]),
            nanoseconds: random.pick(&[0, 999_999_999, 1_000_000_000]),
        };
        report.same(
            "fields",
            &ours::fields_text(&local, &kind),
            &theirs::fields_text(&local, &kind),
            || format!("{local:?} {kind:?}"),
            || None,
        );
        let total = match random.within(0, 3) {
            0 => random.pick(&[i128::MIN, i128::MAX, 0, -1]),
            1 => (i128::from(random.next() as i64) << 64) | i128::from(random.next()),
            _ => {
                i128::from(at) * 1_000_000_000
                    + i128::from(random.within(-2_000_000_000, 2_000_000_000))
            }
        };
        report.same(
            "totals",
            &ours::total_text(total, &kind),
            &theirs::total_text(total, &kind),
            || format!("{total} {kind:?}"),
            || None,
        );
        let other = (instant(random), random.pick(&[0, 1, 999_999_999]));
        let seconds = random.pick(&[
            0,
            1,
            u64::MAX,
            random.next(),
            random.next() >> 20,
            (other.0.abs_diff(at)) >> 1,
            LAST.abs_diff(at),
            FIRST.abs_diff(at),
        ]);
        let duration = Duration::new(seconds, random.pick(&[0, 1, 999_999_999]));
        let first = (at, nanoseconds % 1_000_000_000);
        report.same(
            "pairs and durations",
            &ours::pair_text(first, other, duration, &kind),
            &theirs::pair_text(first, other, duration, &kind),
            || format!("{first:?} {other:?} {duration:?} {kind:?}"),
            || None,
        );
        let (seconds, nanoseconds) = (
            random.pick(&[at, at >> 8, at >> 24]),
            random.pick(&[0, 1, 999_999_999]),
        );
        report.same(
            "times of the system",
            &ours::system_time_text(seconds, nanoseconds),
            &theirs::system_time_text(seconds, nanoseconds),
            || format!("{seconds} {nanoseconds}"),
            || None,
        );
    }
}

/// Settings that name files of the machine, and zones that the crates find by themselves.
fn settings(report: &mut Report, random: &Random, files: &[(PathBuf, Vec<u8>)]) {
    let mut names: Vec<String> = [
        "",
        ":",
        "localtime",
        ":localtime",
        " localtime",
        ":/etc/localtime",
        "/etc/localtime",
        "UTC0",
        " UTC0 ",
        ":UTC0",
        "Nowhere/Atlantis",
        ":Nowhere/Atlantis",
        "/nowhere",
        ":/nowhere",
        "/",
        ":é",
        "é",
        "/UTC0",
        "\u{b}UTC0",
        "\tUTC0\r\n\u{c}",
        "UTC0\0",
    ]
    .map(String::from)
    .to_vec();
    let root = Path::new("/usr/share/zoneinfo");
    for (path, _) in files {
        names.push(path.display().to_string());
        if let Ok(name) = path.strip_prefix(root) {
            names.extend([
                name.display().to_string(),
                format!(":{}", name.display()),
                format!(" {}", name.display()),
            ]);
        }
    }
    for name in names {
        for has_files in [false, true] {
            let case = || format!("the setting {name:?}, {has_files}");
            let (here, there) = (
                ours::zone_of_setting(&name, has_files),
                theirs::zone_of_setting(&name, has_files),
            );
            compare_zone(report, random, 2, &case, (None, None), here, there);
        }
        report.same(
            "own zones",
            &ours::own_zones(&name),
            &theirs::own_zones(&name),
            || name.clone(),
            || None,
        );
    }
}

fn main() -> ExitCode {
    std::panic::set_hook(Box::new(|panic| {
        let is_expected = panic.to_string().contains("with overflow");
        if !is_expected {
            eprintln!("{panic}");
        }
    }));
    let mut arguments = std::env::args().skip(1);
    let (mut seed, mut only, mut folders) = (1, String::new(), Vec::new());
    while let Some(argument) = arguments.next() {
        match argument.as_str() {
            "--seed" => {
                seed = arguments
                    .next()
                    .and_then(|seed| seed.parse().ok())
                    .expect("a number")
            }
            "--only" => only = arguments.next().expect("a word"),
            _ => folders.push(PathBuf::from(argument)),
        }
    }
    if folders.is_empty() {
        folders.push(PathBuf::from("/usr/share/zoneinfo"));
    }
    let files = files_in(&folders);
    println!("{} files of different bytes", files.len());
    let mut parts: Vec<(String, Work)> = Vec::new();
    let files = std::sync::Arc::new(files);
    // In pieces, which run side by side; their seeds do not depend on how many processors there are.
    for (number, piece) in files
        .chunks(files.len().div_ceil(8).max(1))
        .map(<[_]>::to_vec)
        .enumerate()
    {
        parts.push((
            format!("files {number}"),
            Box::new(move |report, random| machine_files(report, random, &piece)),
        ));
    }
    for number in 0..8 {
        let all = files.clone();
        if !all.is_empty() {
            parts.push((
                format!("altered {number}"),
                Box::new(move |report, random| altered_files(report, random, &all, 2500)),
            ));
        }
        parts.push((
            format!("made {number}"),
            Box::new(|report, random| made_zones(report, random, 250)),
        ));
        parts.push((
            format!("texts {number}"),
            Box::new(|report, random| texts(report, random, 2500)),
        ));
        parts.push((
            format!("rules {number}"),
            Box::new(|report, random| rules(report, random, 5000)),
        ));
        parts.push((
            format!("date times {number}"),
            Box::new(|report, random| date_times(report, random, 20_000)),
        ));
    }
    let all = files.clone();
    parts.push((
        "settings".to_string(),
        Box::new(move |report, random| settings(report, random, &all)),
    ));
    parts.retain(|(name, _)| name.contains(&only));
    let next = std::sync::atomic::AtomicUsize::new(0);
    let total = std::sync::Mutex::new(Report::default());
    let threads = std::thread::available_parallelism().map_or(1, |count| count.get().div_ceil(2));
    std::thread::scope(|scope| {
        for _ in 0..threads {
            scope.spawn(|| {
                loop {
                    let number = next.fetch_add(1, std::sync::atomic::Ordering::Relaxed);
                    let Some((name, work)) = parts.get(number) else {
                        return;
                    };
                    let mut report = Report::default();
                    let named = name.bytes().fold(seed, |sum: u64, byte| {
                        sum.wrapping_mul(31).wrapping_add(byte.into())
                    });
                    work(&mut report, &Random::new(named));
                    total.lock().unwrap().add(report);
                }
            });
        }
    });
    total.into_inner().unwrap().print()
}
