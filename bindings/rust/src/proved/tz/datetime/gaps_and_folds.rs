// Generated from crates/tz/src/datetime/gaps_and_folds.rt by bindings/erase: its contracts are cut. Change that file instead.
//! The search for a reading in the clock of a zone: the instants that show it, two or more in a
//! fold, and the forward jumps that pass over it, each a gap. It looks at the changes of the
//! reading's window, the instants among which it finds all that the reading means.

use super::entry_takers::{DateTimeList, Dated, EntryTaker};
use crate::proved::tz_base::error::TzError;
use crate::proved::tz_base::fields::Fields;
use crate::proved::tz_zone::inner::{
    TransitionView, WindowTypes, ZoneData, first_stage, span_from, window_types,
};
use crate::proved::tz_zone::timezone::LocalTimeType;

/// The instant at which a type shows a reading.
pub(super) fn shown_at(reading: i64, local_time_type: &LocalTimeType) -> i64 {
    reading - i64::from(local_time_type.ut_offset())
}

/// Whether clocks that change at an instant from one type to another are set forward over a
/// reading.
pub(super) fn passes_over(
    reading: i64,
    unix_time: i64,
    before: &LocalTimeType,
    after: &LocalTimeType,
) -> bool {
    shown_at(reading, after) < unix_time && unix_time <= shown_at(reading, before)
}

/// Gives what a reading has from `since` to `last`, throughout which the clock has one type or
/// none: an instant that shows it, or else the jump at `since` from the type before.
fn give<'a, E: EntryTaker<'a>>(
    entries: &mut E,
    reading: i64,
    before: Option<&'a LocalTimeType>,
    since: i64,
    local_time_type: Option<&'a LocalTimeType>,
    last: i64,
) -> Result<(), TzError> {
    let Some(after) = local_time_type else {
        return Ok(());
    };
    let unix_time = shown_at(reading, after);
    if since <= unix_time && unix_time <= last {
        return entries.shown(unix_time, after);
    }
    match before {
        Some(before) if passes_over(reading, since, before, after) => {
            entries.skipped(since, before, after)
        }
        _ => Ok(()),
    }
}

/// Gives what a reading has in its window if the clock has one type before an instant, and another
/// from there on. The offsets of both are between the least and the greatest one, so what shows the
/// reading is in the window.
#[inline(always)]
fn give_around<'a, E: EntryTaker<'a>>(
    entries: &mut E,
    reading: i64,
    since: i64,
    before: &'a LocalTimeType,
    after: &'a LocalTimeType,
) -> Result<(), TzError> {
    let (first, second) = (shown_at(reading, before), shown_at(reading, after));
    if passes_over(reading, since, before, after) {
        return entries.skipped(since, before, after);
    }
    if since <= first {
        // The type before does not show the reading, and the jump does not pass over it. So `since
        // <= second`, and the type after shows it.
        return entries.shown(second, after);
    }
    entries.shown(first, before)?;
    if since <= second {
        entries.shown(second, after)
    } else {
        Ok(())
    }
}

/// Gives all that a reading has in its window, in order, by the spans of the clock from the
/// position on at which the window begins.
#[cold]
fn walk<'a, E: EntryTaker<'a>>(
    entries: &mut E,
    reading: i64,
    view: &mut TransitionView<'_>,
    zone: &ZoneData<'a>,
    position: Option<usize>,
    low: i64,
    high: i64,
) -> Result<(), TzError> {
    let Some((first, stage)) = first_stage(view, zone, position, low) else {
        return Ok(());
    };
    // A jump at `first` is no entry. It would pass over the reading only if the type after it
    // showed the reading before `first`, but before `low` no type does; and if `first` is later
    // than `low`, there is no type before it.
    let mut before = None;
    let (mut since, mut stage) = (first, stage);
    while since <= high {
        let span = span_from(view, zone, stage, since, high);
        stage = span.next;
        // If two transitions take effect at the same instant, as around an inserted second, the
        // span between them is empty.
        if since <= span.last {
            let after = span.local_time_type;
            give(entries, reading, before, since, after, span.last)?;
            before = after;
            since = span.last + 1;
        }
    }
    Ok(())
}

/// Gives all that a reading has in its window, in order, by the types that the clock has there.
#[inline(always)]
pub(super) fn give_in_window<'a, E: EntryTaker<'a>>(
    entries: &mut E,
    reading: i64,
    view: &mut TransitionView<'_>,
    zone: ZoneData<'a>,
    types: WindowTypes<'a>,
    low: i64,
    high: i64,
) -> Result<(), TzError> {
    match types {
        WindowTypes::One(local_time_type) => {
            // Its offset is between the least and the greatest one, so it shows the reading within
            // the window.
            entries.shown(shown_at(reading, local_time_type), local_time_type)
        }
        WindowTypes::Two {
            unix_time,
            before,
            after,
        } => give_around(entries, reading, unix_time, before, after),
        WindowTypes::More(position) => {
            // The walk gets copies of the zone and the view, so that without a walk these need not
            // be in memory, and its count is not computed where nobody asks for it.
            let whole = zone;
            let mut rest = view.fresh();
            let answer = walk(entries, reading, &mut rest, &whole, position, low, high);
            view.add_looks(rest.looks());
            answer
        }
    }
}

/// Gives all that a reading has in its window, in order.
#[inline(always)]
fn search_window<'a, E: EntryTaker<'a>>(
    entries: &mut E,
    reading: i64,
    view: &mut TransitionView<'_>,
    zone: ZoneData<'a>,
    low: i64,
    high: i64,
) -> Result<(), TzError> {
    let types = window_types(view, zone, low, high);
    give_in_window(entries, reading, view, zone, types, low, high)
}

/// The first and the last instant at which a clock with offsets from the least to the greatest one
/// can show a reading, or be set forward over it. Both are so near that no leap second takes a leap
/// time out of 64 bits before them.
fn window(reading: i64, least: i32, greatest: i32) -> (i64, i64) {
    (reading - i64::from(greatest), reading - i64::from(least))
}

/// The first and the last instant of a reading's window, by the least and the greatest offset of a
/// zone.
#[must_use]
pub fn window_of(zone: &ZoneData<'_>, reading: i64) -> (i64, i64) {
    let (least, greatest) = zone.offsets();
    window(reading, least, greatest)
}

/// The types that the clock of a zone has in a window.
#[inline(always)]
#[must_use]
pub const fn types_of_window<'a>(zone: &ZoneData<'a>, low: i64, high: i64) -> WindowTypes<'a> {
    let mut view = TransitionView::new(zone.transitions());
    window_types(&mut view, *zone, low, high)
}

/// Adds the entries for valid fields to the list, in order.
#[inline]
pub(super) fn search<L: DateTimeList>(
    list: &mut L,
    fields: &Fields,
    view: &mut TransitionView<'_>,
    zone: &ZoneData<'_>,
) -> Result<(), TzError> {
    let reading = fields.reading();
    let (low, high) = window_of(zone, reading);
    let mut dated = Dated { fields, list };
    search_window(&mut dated, reading, view, *zone, low, high)
}
