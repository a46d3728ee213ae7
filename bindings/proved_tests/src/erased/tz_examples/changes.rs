// Tests from crates/tz_examples/src/changes.rt by bindings/erase. Change that file instead.
//! Where clocks of a zone change, and the segments between.

use crate::kit::Vec;
use tz::proved::tz::{Change, DateTime, Segment, TimeZoneRef, TzError};
use tz::shim::alloc::Global;

/// When clocks of a zone are set next after an instant, and by how many seconds forward; where this
/// is negative they are set back.
pub fn next_change(zone: TimeZoneRef<'_>, now: i64) -> Result<Option<(DateTime, i64)>, TzError> {
    let Some(change) = zone.following(now) else {
        return Ok(None);
    };
    let shown = DateTime::from_timespec(change.unix_time(), 0, zone)?;
    let seconds = i64::from(change.after().ut_offset()) - i64::from(change.before().ut_offset());
    Ok(Some((shown, seconds)))
}

/// All changes of a zone in the 20 years before an instant and at it, and the next two after it.
pub fn changes_around(
    alloc: Global,
    zone: TimeZoneRef<'_>,
    now: i64,
) -> Result<Vec<Change<'_>>, TzError> {
    // 20 years of 365.2425 days.
    let start = now.saturating_sub(20 * 31_556_952);
    let mut changes = Vec::new(alloc);
    for change in zone.changes_after(start) {
        if now < change.unix_time() {
            break;
        }
        changes.push(change)?;
    }
    for change in zone.changes_after(now).take(2) {
        changes.push(change)?;
    }
    Ok(changes)
}

/// What clocks show at a Unix time of a log. The segment is kept from entry to entry: where the
/// time lies in it, its type is known.
pub fn show_entry<'a>(
    zone: TimeZoneRef<'a>,
    segment: &mut Segment<'a>,
    unix_time: i64,
) -> Result<DateTime, TzError> {
    if !segment.contains(unix_time) {
        *segment = zone.segment_at(unix_time);
    }
    let local_time_type = segment
        .local_time_type()
        .ok_or(TzError::NoAvailableLocalTimeType)?;
    DateTime::from_timespec_and_local(unix_time, 0, *local_time_type)
}

/// How many seconds ago clocks changed last.
pub fn since_last_change(zone: TimeZoneRef<'_>, now: i64) -> Option<u64> {
    let change = zone.preceding(now)?;
    Some(now.abs_diff(change.unix_time()))
}

/// When clocks were last set forward before an instant.
pub fn last_set_forward(zone: TimeZoneRef<'_>, now: i64) -> Option<i64> {
    for change in zone.changes_before(now) {
        if change.before().ut_offset() < change.after().ut_offset() {
            return Some(change.unix_time());
        }
    }
    None
}
