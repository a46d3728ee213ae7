// Tests from crates/tz_examples/src/converter.rt by bindings/erase. Change that file instead.
//! Local times of many zones as times of UTC, line by line.

use crate::kit::{Context, Result};
use crate::kit::{String, format_in};
use tz::proved::tz::datetime::Disambiguation;
use tz::proved::tz::{DateTime, ParsedDateTime, TimeZone, TimeZoneRef, UtcDateTime, timezone};
use tz::shim::alloc::Global;
use tz::shim::rt::Files;

/// What a local time such as `2026-03-29T02:30:00` is in UTC. An offset in the text decides, if
/// there is one.
pub fn utc_of(text: &str, zone: TimeZoneRef<'_>, choice: Disambiguation) -> Result<UtcDateTime> {
    let parsed = ParsedDateTime::parse(text.as_bytes())?;
    let local = parsed.local();
    if let Some(unix_time) = parsed.unix_time() {
        return Ok(UtcDateTime::from_timespec(unix_time, local.nanoseconds())?);
    }
    let meant = DateTime::from_local(local, choice, zone)?;
    let date_time = meant.context("clocks show this local time more than once, or never")?;
    Ok(UtcDateTime::try_from(date_time)?)
}

/// What a line such as `2026-03-29T02:30:00 Europe/Paris` is in UTC.
pub fn utc_of_line<R: Files>(
    rt: &R,
    alloc: Global,
    line: &str,
    choice: Disambiguation,
) -> Result<UtcDateTime> {
    let (text, name) = line.split_once(' ').context("no zone is named")?;
    let reader = |path: &str| timezone::read_file_up_to(rt, alloc, 65_536, path);
    let zone = TimeZone::named(alloc, reader, name)?;
    utc_of(text, zone.as_ref(), choice)
}

/// A line for each line: the time in UTC, or what is wrong.
pub fn convert<R: Files>(
    rt: &R,
    alloc: Global,
    lines: &str,
    choice: Disambiguation,
) -> Result<String> {
    let mut converted = String::new(alloc);
    for line in lines.lines() {
        let answer = match utc_of_line(rt, alloc, line, choice) {
            Ok(utc) => format_in!(alloc; "{utc}\n")?,
            Err(error) => format_in!(alloc; "{line}: {error}\n")?,
        };
        converted.push_str(&answer)?;
    }
    Ok(converted)
}
