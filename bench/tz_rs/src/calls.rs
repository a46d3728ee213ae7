//! Loops of calls as those of crates/tz_calls: each lends the zone once, and none is inlined, so that what a call takes is the call's own.

use super::Words;
use super::loops::{Local, refuse, run_loop};
use std::error::Error;
use std::fmt;
use std::hint::black_box;
use std::sync::atomic::{AtomicU64, Ordering::Relaxed};
use std::time::Duration;
use tz::timezone::{AlternateTime, TimeZoneSettings, TransitionRule};
use tz::{DateTime, TimeZone, TimeZoneRef, TzError, UtcDateTime};

pub fn sum_of_fields(year: i32, month: u8, day: u8, hour: u8, minute: u8, second: u8) -> u64 {
    let small = u64::from(month) + u64::from(day) + u64::from(hour) + u64::from(minute) + u64::from(second);
    small.wrapping_add(u64::from(year.unsigned_abs()))
}

/// The Unix time of what was found first.
pub fn sum_of_found(first: Option<DateTime>) -> u64 {
    first.map_or(1, |first| first.unix_time() as u64)
}

/// The fields and the offset.
pub fn sum_of_shown(shown: &DateTime) -> u64 {
    sum_of_fields(shown.year(), shown.month(), shown.month_day(), shown.hour(), shown.minute(), shown.second())
        .wrapping_add(shown.local_time_type().ut_offset() as u64)
}

/// Reads the instants, and makes no call.
#[inline(never)]
fn sum_of_instants(words: &[i64]) -> u64 {
    let mut sum = 0u64;
    for word in words {
        sum = sum.wrapping_add(*word as u64);
    }
    sum
}

/// Reads the local times, and makes no call.
#[inline(never)]
fn sum_of_locals(locals: &[Local]) -> u64 {
    let mut sum = 0u64;
    for local in locals {
        sum = sum.wrapping_add(sum_of_fields(local.year, local.month, local.day, local.hour, local.minute, local.second));
    }
    sum
}

#[inline(never)]
fn find_local_time_type(words: &[i64], zone: TimeZoneRef<'_>) -> Result<u64, TzError> {
    let mut sum = 0u64;
    for word in words {
        sum = sum.wrapping_add(zone.find_local_time_type(*word)?.ut_offset() as u64);
    }
    Ok(sum)
}

#[inline(never)]
fn from_timespec(words: &[i64], zone: TimeZoneRef<'_>) -> Result<u64, TzError> {
    let mut sum = 0u64;
    for word in words {
        sum = sum.wrapping_add(sum_of_shown(&DateTime::from_timespec(*word, 7, zone)?));
    }
    Ok(sum)
}

#[inline(never)]
fn utc_from_timespec(words: &[i64]) -> Result<u64, TzError> {
    let mut sum = 0u64;
    for word in words {
        let shown = UtcDateTime::from_timespec(*word, 7)?;
        sum = sum.wrapping_add(sum_of_fields(shown.year(), shown.month(), shown.month_day(), shown.hour(), shown.minute(), shown.second()));
    }
    Ok(sum)
}

#[inline(never)]
fn utc_new(locals: &[Local]) -> Result<u64, TzError> {
    let mut sum = 0u64;
    for local in locals {
        let made = UtcDateTime::new(local.year, local.month, local.day, local.hour, local.minute, local.second, 7)?;
        sum = sum.wrapping_add(made.unix_time() as u64);
    }
    Ok(sum)
}

#[inline(never)]
fn utc_add(words: &[(i64, UtcDateTime)]) -> u64 {
    let mut sum = 0u64;
    for (word, date_time) in words {
        let later = date_time.checked_add(Duration::new(*word as u64 & 0xf_ffff, 7));
        sum = sum.wrapping_add(later.map_or(0, |later| later.unix_time() as u64));
    }
    sum
}

#[inline(never)]
fn find(locals: &[Local], zone: TimeZoneRef<'_>) -> Result<u64, TzError> {
    let mut sum = 0u64;
    for local in locals {
        let found = DateTime::find(local.year, local.month, local.day, local.hour, local.minute, local.second, 7, zone)?;
        sum = sum.wrapping_add(sum_of_found(found.earliest()));
    }
    Ok(sum)
}

#[inline(never)]
fn find_n(locals: &[Local], zone: TimeZoneRef<'_>) -> Result<u64, TzError> {
    let mut sum = 0u64;
    let mut slots = [None; 2];
    for local in locals {
        let found = DateTime::find_n(&mut slots, local.year, local.month, local.day, local.hour, local.minute, local.second, 7, zone)?;
        sum = sum.wrapping_add(sum_of_found(found.earliest()));
    }
    Ok(sum)
}

#[inline(never)]
fn display(date_times: &[DateTime]) -> u64 {
    let mut sum = 0u64;
    for date_time in date_times {
        sum = sum.wrapping_add(date_time.to_string().len() as u64);
    }
    sum
}

#[inline(never)]
fn from_tz_data(words: &[i64], bytes: &[u8]) -> u64 {
    let mut sum = 0u64;
    for _ in words {
        sum += u64::from(TimeZone::from_tz_data(black_box(bytes)).is_ok());
    }
    sum
}

#[inline(never)]
fn from_posix_tz(words: &[i64], string: &str) -> u64 {
    let mut sum = 0u64;
    for _ in words {
        sum += u64::from(TimeZone::from_posix_tz(black_box(string)).is_ok());
    }
    sum
}

/// The sum of the last bytes of the paths that the reader was called with.
static SEEN: AtomicU64 = AtomicU64::new(0);

/// The last byte of a path. It is never inlined, so that each path is made and read.
#[inline(never)]
fn last_byte(path: &str) -> u8 {
    path.as_bytes().last().copied().unwrap_or(0)
}

/// A reader that fails for each path, with an error that takes no memory, and adds the last byte of the path.
fn no_file(path: &str) -> Result<Vec<u8>, Box<dyn Error + Send + Sync>> {
    SEEN.store(SEEN.load(Relaxed).wrapping_add(last_byte(path).into()), Relaxed);
    Err(Box::new(fmt::Error))
}

#[inline(never)]
fn failing_reader(words: &[i64], string: &str) -> u64 {
    SEEN.store(0, Relaxed);
    let mut sum = 0u64;
    for _ in words {
        let made = TimeZoneSettings::new(TimeZoneSettings::DEFAULT_DIRECTORIES, no_file).parse_posix_tz(black_box(string));
        sum += u64::from(made.is_ok());
    }
    sum + SEEN.load(Relaxed)
}

#[inline(never)]
fn parse_string(words: &[i64], string: &str) -> u64 {
    let mut sum = 0u64;
    for _ in words {
        let made = TimeZoneSettings::new(&[], |path| Ok(std::fs::read(path)?)).parse_posix_tz(black_box(string));
        sum += u64::from(made.is_ok());
    }
    sum
}

#[inline(never)]
fn rule(words: &[i64], zone: TimeZoneRef<'_>) -> u64 {
    let Some(TransitionRule::Alternate(rule)) = zone.extra_rule() else { refuse("no rule with two types") };
    let mut sum = 0u64;
    for _ in words {
        let rule = black_box(rule);
        let (start, end) = (*rule.dst_start(), *rule.dst_end());
        let made = AlternateTime::new(*rule.std(), *rule.dst(), start, rule.dst_start_time(), end, rule.dst_end_time());
        sum += u64::from(made.is_ok());
    }
    sum
}

/// Makes the call of this name, if tz-rs has it.
pub fn make(call: &str, times: &str, words: &Words, zone: TimeZoneRef<'_>) -> bool {
    let (instants, locals) = (&words.instants[..], &words.locals[..]);
    match call {
        "instant" => run_loop(call, times, instants, sum_of_instants),
        "local" => run_loop(call, times, locals, sum_of_locals),
        "find_local_time_type" => run_loop(call, times, instants, |words| find_local_time_type(words, zone).unwrap()),
        "from_timespec" => run_loop(call, times, instants, |words| from_timespec(words, zone).unwrap()),
        "utc_from_timespec" => run_loop(call, times, instants, |words| utc_from_timespec(words).unwrap()),
        "utc_new" => run_loop(call, times, locals, |words| utc_new(words).unwrap()),
        "utc_add" => {
            let sums: Vec<(i64, UtcDateTime)> = instants.iter().copied().zip(words.utc_date_times.iter().copied()).collect();
            run_loop(call, times, &sums, utc_add);
        }
        "find" => run_loop(call, times, locals, |words| find(words, zone).unwrap()),
        "find_n" => run_loop(call, times, locals, |words| find_n(words, zone).unwrap()),
        "display" => run_loop(call, times, &words.date_times, display),
        "from_tz_data" => run_loop(call, times, instants, |part| from_tz_data(part, &words.bytes)),
        "from_posix_tz" => run_loop(call, times, instants, |part| from_posix_tz(part, &words.argument)),
        "failing_reader" => run_loop(call, times, instants, |part| failing_reader(part, &words.argument)),
        "parse_string" => run_loop(call, times, instants, |part| parse_string(part, &words.argument)),
        "rule" => run_loop(call, times, instants, |part| rule(part, zone)),
        _ => return false,
    }
    true
}
