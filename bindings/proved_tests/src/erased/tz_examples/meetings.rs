// Tests from crates/tz_examples/src/meetings.rt by bindings/erase. Change that file instead.
//! From what clocks show to instants.

use crate::kit::{self, Vec};
use std::time::Duration;
use tz::proved::tz::datetime::{Disambiguation, FoundDateTimeKind};
use tz::proved::tz::{DateTime, TimeZoneRef, TzError, UtcDateTime};
use tz::shim::alloc::Global;

/// When a job of every day at a local time runs next after an instant. On the day on which clocks
/// are set forward over that time it runs as much later as they are set forward; on the day on
/// which they show it twice, once, the first time.
pub fn next_daily_run(
    zone: TimeZoneRef<'_>,
    hour: u8,
    minute: u8,
    now: i64,
) -> Result<Option<DateTime>, TzError> {
    let today = DateTime::from_timespec(now, 0, zone)?;
    let (year, month, month_day) = (today.year(), today.month(), today.month_day());
    let local = UtcDateTime::new(year, month, month_day, hour, minute, 0, 0)?;
    let day = Duration::from_secs(86_400);
    // Yesterday's run is still to come where clocks have just been set over midnight.
    for local in [local.checked_sub(day), Some(local), local.checked_add(day)] {
        let local = local.ok_or(TzError::OutOfRange)?;
        match DateTime::from_local(local, Disambiguation::Compatible, zone)? {
            Some(run) if now < run.unix_time() => return Ok(Some(run)),
            _ => {}
        }
    }
    Ok(None)
}

/// When an alarm rings that is set to a local time: at the first instant at which clocks show it or
/// are set forward over it. At a jump it rings as many nanoseconds late as the local time has. It
/// does not ring if the zone has no clock then.
pub fn alarm(
    alloc: Global,
    zone: TimeZoneRef<'_>,
    local: UtcDateTime,
) -> Result<Option<DateTime>, TzError> {
    let found = kit::find_local(alloc, local, zone)?;
    Ok(match found.into_inner().as_slice() {
        [] => None,
        [FoundDateTimeKind::Normal(date_time), ..] => Some(*date_time),
        [
            FoundDateTimeKind::Skipped {
                after_transition, ..
            },
            ..,
        ] => Some(*after_transition),
    })
}

/// How many instants and jumps a local time has, found without memory: 1 nearly always, 2 where
/// clocks show it twice.
pub fn count_meanings(zone: TimeZoneRef<'_>, local: UtcDateTime) -> Result<usize, TzError> {
    let mut slots = [None; 2];
    Ok(DateTime::find_n_local(&mut slots, local, zone)?.count())
}

/// A meeting at one local time each week. Weeks are added to the local time, not to the first
/// instant: an hour may be lost or gained between.
pub fn weekly_meetings(
    alloc: Global,
    zone: TimeZoneRef<'_>,
    first: UtcDateTime,
    weeks: u32,
) -> Result<Vec<DateTime>, TzError> {
    let mut meetings = Vec::new(alloc);
    for week in 0..weeks {
        let after_first = Duration::from_secs(604_800 * u64::from(week));
        let local = first.checked_add(after_first).ok_or(TzError::OutOfRange)?;
        if let Some(meeting) = DateTime::from_local(local, Disambiguation::Compatible, zone)? {
            meetings.push(meeting)?;
        }
    }
    Ok(meetings)
}

/// The next Monday at 9:00 in a zone.
pub fn next_monday_at_nine(zone: TimeZoneRef<'_>, now: i64) -> Result<Option<DateTime>, TzError> {
    let today = DateTime::from_timespec(now, 0, zone)?;
    let nine = UtcDateTime::new(today.year(), today.month(), today.month_day(), 9, 0, 0, 0)?;
    for days in 0..8u64 {
        let local = nine
            .checked_add(Duration::from_secs(86_400 * days))
            .ok_or(TzError::OutOfRange)?;
        if local.week_day() == 1 {
            match DateTime::from_local(local, Disambiguation::Compatible, zone)? {
                Some(monday) if now < monday.unix_time() => return Ok(Some(monday)),
                _ => {}
            }
        }
    }
    Ok(None)
}

/// Noon of a date in a zone.
pub fn noon(
    zone: TimeZoneRef<'_>,
    year: i32,
    month: u8,
    month_day: u8,
) -> Result<Option<DateTime>, TzError> {
    let choice = Disambiguation::Compatible;
    DateTime::find_one(year, month, month_day, 12, 0, 0, 0, choice, zone)
}

/// The Unix time of a local time that is in no gap and no fold, found without allocating: one slot
/// is enough, as all entries are counted.
pub fn plain_instant(zone: TimeZoneRef<'_>, local: UtcDateTime) -> Result<Option<i64>, TzError> {
    let mut slots = [None; 1];
    let found = DateTime::find_n_local(&mut slots, local, zone)?;
    Ok(found.unique().map(|date_time| date_time.unix_time()))
}
