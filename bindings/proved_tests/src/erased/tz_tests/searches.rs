// Tests from crates/tz_tests/src/searches.rt by bindings/erase. Change that file instead.
//! What searches find, in short.

use crate::kit::test::Fail;
use crate::kit::{self, Vec};
use tz::proved::tz::ParsedDateTime;
use tz::proved::tz::datetime::{DateTime, FoundDateTimeKind, FoundDateTimeList};
use tz::proved::tz_base::error::TzError;
use tz::proved::tz_zone::timezone::TimeZoneRef;
use tz::shim::alloc::{AllocError, Allocator, Global};

/// A Unix time, and the offsets before it and at it; those of a date time that is shown are the
/// same.
pub(crate) type Summary = (i64, i32, i32);

/// Year, month, day of the month, hour, minute, second.
pub(crate) type Reading = (i32, u8, u8, u8, u8, u8);

/// The name of the date time's type, or `-`.
pub(crate) fn name(date_time: &DateTime) -> &str {
    let name = date_time.local_time_type().time_zone_designation();
    if name.is_empty() { "-" } else { name }
}

/// The summary of an entry.
pub(crate) fn summary(found: &FoundDateTimeKind) -> Summary {
    match found {
        FoundDateTimeKind::Normal(date_time) => {
            let offset = date_time.local_time_type().ut_offset();
            (date_time.unix_time(), offset, offset)
        }
        FoundDateTimeKind::Skipped {
            before_transition,
            after_transition,
        } => (
            after_transition.unix_time(),
            before_transition.local_time_type().ut_offset(),
            after_transition.local_time_type().ut_offset(),
        ),
    }
}

/// Searches for a reading and no nanoseconds.
pub(crate) fn find<A: Allocator + Copy>(
    alloc: A,
    zone: TimeZoneRef<'_>,
    reading: Reading,
) -> Result<FoundDateTimeList<A>, TzError> {
    let (year, month, month_day, hour, minute, second) = reading;
    kit::find(alloc, year, month, month_day, hour, minute, second, 0, zone)
}

/// The summaries of what is found.
pub(crate) fn summaries<A: Allocator + Copy>(
    alloc: Global,
    list: FoundDateTimeList<A>,
) -> Result<Vec<Summary>, AllocError> {
    let mut found = Vec::new(alloc);
    for kind in list.into_inner().iter() {
        found.push(summary(kind))?;
    }
    Ok(found)
}

/// The local time of a text.
fn reading_of(text: &str) -> Result<Reading, Fail> {
    let local = ParsedDateTime::parse(text.as_bytes())?.local();
    let (hour, minute, second) = (local.hour(), local.minute(), local.second());
    let (year, month, month_day) = (local.year(), local.month(), local.month_day());
    Ok((year, month, month_day, hour, minute, second))
}

/// The local time of a row, and what stands after ` | `: an empty text for `nothing`.
pub(crate) fn parts_of(row: &str) -> Result<(Reading, &str), Fail> {
    let (local, expected) = row.split_once(" | ").ok_or("no ` | ` in a row")?;
    let expected = if expected == "nothing" { "" } else { expected };
    Ok((reading_of(local)?, expected))
}

/// A Unix time, or that of a date time of UTC.
fn instant_of(text: &str) -> Result<i64, Fail> {
    if text.ends_with('Z') {
        let parsed = ParsedDateTime::parse(text.as_bytes())?;
        return Ok(parsed.unix_time().ok_or("no offset")?);
    }
    Ok(text.parse::<i64>()?)
}

/// An instant and the offset there, or the two offsets of a jump.
fn entry_of(text: &str) -> Result<Summary, Fail> {
    let (instant, offsets) = text.split_once(' ').ok_or("no offset in an entry")?;
    let (before, after) = offsets.split_once(' ').unwrap_or((offsets, offsets));
    Ok((
        instant_of(instant)?,
        before.parse::<i32>()?,
        after.parse::<i32>()?,
    ))
}

/// The entries that a text lists.
pub(crate) fn entries_of(alloc: Global, text: &str) -> Result<Vec<Summary>, Fail> {
    let mut entries = Vec::new(alloc);
    if text.is_empty() {
        return Ok(entries);
    }
    for entry in text.split(", ") {
        entries.push(entry_of(entry)?)?;
    }
    Ok(entries)
}
