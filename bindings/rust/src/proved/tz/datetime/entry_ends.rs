// Generated from crates/tz/src/datetime/entry_ends.rt by bindings/erase: its contracts are cut. Change that file instead.
//! The ends of a reading's entries: how many there are, the first, the last, and the first that is
//! shown. A meaning and a choice depend on no more of them, so neither makes a list.

use super::entry_takers::EntryTaker;
use super::gaps_and_folds::give_in_window;
use crate::proved::tz_base::error::TzError;
use crate::proved::tz_base::fields::local_reading;
use crate::proved::tz_zone::inner::{TransitionView, WindowTypes, ZoneData};
use crate::proved::tz_zone::timezone::LocalTimeType;

/// An entry of a reading.
#[derive(Clone, Copy)]
pub(super) enum Entry<'a> {
    /// At this Unix time the clock shows the reading in this type.
    Shown(i64, &'a LocalTimeType),
    /// At this Unix time the clock is set forward over it, from the first type to the second.
    Jump(i64, &'a LocalTimeType, &'a LocalTimeType),
}

/// How many entries a reading has, the first, the last, and the first that is shown.
#[derive(Clone, Copy)]
pub(super) struct EntryEnds<'a> {
    pub(super) count: usize,
    pub(super) first: Option<Entry<'a>>,
    pub(super) last: Option<Entry<'a>>,
    /// The first that is shown.
    pub(super) shown: Option<Entry<'a>>,
}

/// A jump, if the local times before and after it are in the years of an `i32`.
#[inline]
pub(super) fn jump_inside<'a>(
    unix_time: i64,
    before: &'a LocalTimeType,
    after: &'a LocalTimeType,
) -> Result<Entry<'a>, TzError> {
    let Some(_) = local_reading(unix_time, before.ut_offset()) else {
        return Err(TzError::OutOfRange);
    };
    let Some(_) = local_reading(unix_time, after.ut_offset()) else {
        return Err(TzError::OutOfRange);
    };
    Ok(Entry::Jump(unix_time, before, after))
}

impl<'a> EntryEnds<'a> {
    /// No entries.
    fn none() -> Self {
        EntryEnds {
            count: 0,
            first: None,
            last: None,
            shown: None,
        }
    }

    /// Counts one more entry, and keeps it as the last, and as the first if there was none.
    #[inline]
    fn push(&mut self, entry: Entry<'a>) {
        // A reading has at most 2^33 entries, and where a `usize` has 32 bits memory has no room
        // for the transitions of 2^31, so the count never comes to its end.
        self.count = self.count.saturating_add(1);
        self.first = self.first.or(Some(entry));
        self.last = Some(entry);
    }
}

impl<'a> EntryTaker<'a> for EntryEnds<'a> {
    #[inline]
    fn shown(&mut self, unix_time: i64, local_time_type: &'a LocalTimeType) -> Result<(), TzError> {
        let entry = Entry::Shown(unix_time, local_time_type);
        self.shown = self.shown.or(Some(entry));
        self.push(entry);
        Ok(())
    }

    #[inline]
    fn skipped(
        &mut self,
        unix_time: i64,
        before: &'a LocalTimeType,
        after: &'a LocalTimeType,
    ) -> Result<(), TzError> {
        let jump = jump_inside(unix_time, before, after)?;
        self.push(jump);
        Ok(())
    }
}

/// The ends of all that a reading has in its window, by a walk of the changes in it. It is cold,
/// and takes the zone by value, so that the caller keeps the zone and the ends in registers.
#[cold]
pub(super) fn ends_by_walk<'a>(
    reading: i64,
    zone: ZoneData<'a>,
    types: WindowTypes<'a>,
    low: i64,
    high: i64,
) -> Result<EntryEnds<'a>, TzError> {
    let mut ends = EntryEnds::none();
    let mut view = TransitionView::new(zone.transitions());
    give_in_window(&mut ends, reading, &mut view, zone, types, low, high)?;
    Ok(ends)
}

/// The ends of all that a reading has in its window, by the types that the clock has there.
///
/// # Errors
///
/// [`TzError::OutOfRange`] if a side of a jump is outside the years of an `i32`.
#[inline]
pub(super) fn ends_by_types<'a>(
    reading: i64,
    zone: &ZoneData<'a>,
    types: WindowTypes<'a>,
    low: i64,
    high: i64,
) -> Result<EntryEnds<'a>, TzError> {
    if let WindowTypes::More(_) = types {
        return ends_by_walk(reading, *zone, types, low, high);
    }
    let mut ends = EntryEnds::none();
    let mut view = TransitionView::new(zone.transitions());
    give_in_window(&mut ends, reading, &mut view, *zone, types, low, high)?;
    Ok(ends)
}
