//! Calls of the Rust crate in bindings/rust that tz-rs does not have, in loops as crates/tz_calls makes them.

use super::Words;
use super::calls::{sum_of_found, sum_of_shown};
use super::loops::{Local, refuse, run_loop};
use std::hint::black_box;
use tz::datetime::{Disambiguation, Meaning};
use tz::format::Pattern;
use tz::{DateTime, ParsedDateTime, TimeZoneRef, TzError, TzString, UtcDateTime};

/// 1900 and 2100, between which changes are walked over.
const FIRST: i64 = -2_208_988_800;
const LAST: i64 = 4_102_444_800;

#[inline(never)]
fn find_one(locals: &[Local], zone: TimeZoneRef<'_>) -> Result<u64, TzError> {
    let mut sum = 0u64;
    for local in locals {
        let Local { year, month, day, hour, minute, second } = *local;
        let meant = DateTime::find_one(year, month, day, hour, minute, second, 7, Disambiguation::Compatible, zone)?;
        sum = sum.wrapping_add(sum_of_found(meant));
    }
    Ok(sum)
}

#[inline(never)]
fn meaning(locals: &[Local], zone: TimeZoneRef<'_>) -> Result<u64, TzError> {
    let mut sum = 0u64;
    for local in locals {
        let Local { year, month, day, hour, minute, second } = *local;
        let first = match DateTime::meaning(year, month, day, hour, minute, second, 7, zone)? {
            Meaning::Once(date_time) => Some(date_time),
            Meaning::Twice { first, .. } => Some(first),
            Meaning::Skipped { before_transition, .. } => Some(before_transition),
            Meaning::Nothing | Meaning::More(_) => None,
        };
        sum = sum.wrapping_add(sum_of_found(first));
    }
    Ok(sum)
}

#[inline(never)]
fn from_local(date_times: &[UtcDateTime], zone: TimeZoneRef<'_>) -> Result<u64, TzError> {
    let mut sum = 0u64;
    for date_time in date_times {
        sum = sum.wrapping_add(sum_of_found(DateTime::from_local(*date_time, Disambiguation::Compatible, zone)?));
    }
    Ok(sum)
}

#[inline(never)]
fn following(words: &[i64], zone: TimeZoneRef<'_>) -> u64 {
    let mut sum = 0u64;
    for word in words {
        if let Some(change) = zone.following(*word) {
            sum = sum.wrapping_add(change.unix_time() as u64);
        }
    }
    sum
}

#[inline(never)]
fn preceding(words: &[i64], zone: TimeZoneRef<'_>) -> u64 {
    let mut sum = 0u64;
    for word in words {
        if let Some(change) = zone.preceding(*word) {
            sum = sum.wrapping_add(change.unix_time() as u64);
        }
    }
    sum
}

#[inline(never)]
fn segment_at(words: &[i64], zone: TimeZoneRef<'_>) -> u64 {
    let mut sum = 0u64;
    for word in words {
        sum = sum.wrapping_add(zone.segment_at(*word).from() as u64);
    }
    sum
}

/// What a log's lines show: the zone is looked up only for an instant outside of the segment before.
#[inline(never)]
fn kept_segment(words: &[i64], zone: TimeZoneRef<'_>) -> Result<u64, TzError> {
    let mut sum = 0u64;
    let mut segment = zone.segment_at(0);
    for word in words {
        if !segment.contains(*word) {
            segment = zone.segment_at(*word);
        }
        let local_time_type = segment.local_time_type().ok_or(TzError::NoAvailableLocalTimeType)?;
        sum = sum.wrapping_add(sum_of_shown(&DateTime::from_timespec_and_local(*word, 7, *local_time_type)?));
    }
    Ok(sum)
}

/// The instants of the changes from 1900 to 2100, one for each word, again and again.
#[inline(never)]
fn walk(words: &[i64], zone: TimeZoneRef<'_>) -> u64 {
    let mut sum = 0u64;
    let mut changes = zone.changes_after(FIRST);
    for _ in words {
        match changes.next() {
            Some(change) if change.unix_time() < LAST => sum = sum.wrapping_add(change.unix_time() as u64),
            _ => changes = zone.changes_after(FIRST),
        }
    }
    sum
}

/// The same from 2100 to 1900.
#[inline(never)]
fn walk_back(words: &[i64], zone: TimeZoneRef<'_>) -> u64 {
    let mut sum = 0u64;
    let mut changes = zone.changes_before(LAST);
    for _ in words {
        match changes.next() {
            Some(change) if change.unix_time() > FIRST => sum = sum.wrapping_add(change.unix_time() as u64),
            _ => changes = zone.changes_before(LAST),
        }
    }
    sum
}

#[inline(never)]
fn parse(texts: &[String]) -> u64 {
    let mut sum = 0u64;
    for text in texts {
        let parsed = ParsedDateTime::parse(text.as_bytes()).unwrap();
        sum = sum.wrapping_add(parsed.unix_time().unwrap() as u64);
    }
    sum
}

/// The length of a line of the Common Log Format, in a new string.
#[inline(never)]
fn format_log(date_times: &[DateTime]) -> u64 {
    let mut sum = 0u64;
    for date_time in date_times {
        sum = sum.wrapping_add(date_time.format(Pattern::COMMON_LOG).to_string().len() as u64);
    }
    sum
}

/// The local time and the offset of such a line.
#[inline(never)]
fn read_log(texts: &[String]) -> u64 {
    let mut sum = 0u64;
    for text in texts {
        let read = Pattern::COMMON_LOG.read(text.as_bytes()).unwrap();
        sum = sum.wrapping_add((read.local().unix_time() - i64::from(read.ut_offset().unwrap())) as u64);
    }
    sum
}

/// The length of the TZ string of the zone's rule.
#[inline(never)]
fn from_rule(words: &[i64], zone: TimeZoneRef<'_>) -> u64 {
    let Some(rule) = zone.extra_rule() else { refuse("no rule") };
    let mut sum = 0u64;
    for _ in words {
        sum = sum.wrapping_add(TzString::from_rule(black_box(rule)).unwrap().as_str().len() as u64);
    }
    sum
}

/// Answers a column of the first words, this many, in one call, and prints the sum; or, for no number, each answer.
fn run_column<W, A>(name: &str, times: &str, words: &[W], value: impl Fn(&A) -> u64, call: impl FnOnce(&[W]) -> Vec<A>) {
    let count = if times == "each" { words.len() } else { times.parse().unwrap() };
    let Some(words) = words.get(..count) else { refuse("no column of that length") };
    let answers = call(words);
    if times == "each" {
        for answer in &answers {
            println!("{}", value(answer));
        }
        return;
    }
    println!("{name} {}", answers.iter().fold(0, |sum: u64, answer| sum.wrapping_add(value(answer))));
}

fn offsets(instants: &[i64], zone: TimeZoneRef<'_>) -> Vec<i32> {
    let mut offsets = vec![0; instants.len()];
    zone.offsets_at(instants, &mut offsets).unwrap();
    offsets
}

fn date_times(instants: &[i64], zone: TimeZoneRef<'_>) -> Vec<DateTime> {
    let nanoseconds = vec![0; instants.len()];
    let mut date_times = vec![DateTime::from_timespec(0, 0, TimeZoneRef::utc()).unwrap(); instants.len()];
    zone.date_times_at(instants, &nanoseconds, &mut date_times).unwrap();
    date_times
}

fn instants(locals: &[UtcDateTime], zone: TimeZoneRef<'_>) -> Vec<Option<i64>> {
    let mut instants = vec![None; locals.len()];
    zone.instants_of(locals, Disambiguation::Compatible, &mut instants).unwrap();
    instants
}

/// Makes the call of this name, if the crate has it.
pub fn make(call: &str, times: &str, words: &Words, zone: TimeZoneRef<'_>) -> bool {
    let given = &words.instants[..];
    match call {
        "find_one" => run_loop(call, times, &words.locals, |words| find_one(words, zone).unwrap()),
        "meaning" => run_loop(call, times, &words.locals, |words| meaning(words, zone).unwrap()),
        "from_local" => run_loop(call, times, &words.utc_date_times, |words| from_local(words, zone).unwrap()),
        "following" => run_loop(call, times, given, |words| following(words, zone)),
        "preceding" => run_loop(call, times, given, |words| preceding(words, zone)),
        "segment_at" => run_loop(call, times, given, |words| segment_at(words, zone)),
        "kept_segment" => run_loop(call, times, given, |words| kept_segment(words, zone).unwrap()),
        "walk" => run_loop(call, times, given, |words| walk(words, zone)),
        "walk_back" => run_loop(call, times, given, |words| walk_back(words, zone)),
        "parse" => {
            let texts: Vec<String> = words.date_times.iter().map(DateTime::to_string).collect();
            run_loop(call, times, &texts, parse);
        }
        "format_log" => run_loop(call, times, &words.date_times, format_log),
        "read_log" => {
            let texts: Vec<String> = words.date_times.iter().map(|it| it.format(Pattern::COMMON_LOG).to_string()).collect();
            run_loop(call, times, &texts, read_log);
        }
        "from_rule" => run_loop(call, times, given, |words| from_rule(words, zone)),
        "column_offsets" => run_column(call, times, given, |offset| *offset as u64, |words| offsets(words, zone)),
        "column_date_times" => run_column(call, times, given, sum_of_shown, |words| date_times(words, zone)),
        "column_instants" => {
            let value = |instant: &Option<i64>| instant.map_or(1, |instant| instant as u64);
            run_column(call, times, &words.utc_date_times, value, |words| instants(words, zone));
        }
        _ => return false,
    }
    true
}
