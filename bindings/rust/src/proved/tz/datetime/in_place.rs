// Generated from crates/tz/src/datetime/in_place.rt by bindings/erase: its contracts are cut. Change that file instead.
//! The search into a list that holds one date time in place, without an allocation, where the types
//! of a window say that there is no more.

use super::entry_takers::{DateTimeList, Dated};
use super::gaps_and_folds::{give_in_window, shown_at};
#[cfg(feature = "alloc")]
use super::gaps_and_folds::{types_of_window, window_of};
#[cfg(feature = "alloc")]
use super::{DateTime, FoundDateTimeKind, FoundDateTimeList};
use crate::proved::tz_base::error::TzError;
use crate::proved::tz_base::fields::Fields;
use crate::proved::tz_zone::inner::{TransitionView, WindowTypes, ZoneData};
use crate::proved::tz_zone::timezone::LocalTimeType;
#[cfg(feature = "alloc")]
use crate::shim::alloc::{Allocator, Global};

/// The date times that a search found, by rising Unix time: one in place, or a list, of any number.
#[cfg(feature = "alloc")]
pub enum FoundDateTimes<A: Allocator + Copy = Global> {
    /// One, and no more.
    Once(FoundDateTimeKind),
    /// All of them.
    Listed(FoundDateTimeList<A>),
}

#[cfg(feature = "alloc")]
impl<A: Allocator + Copy> FoundDateTimes<A> {
    /// A copy, on the same allocator.
    ///
    /// # Errors
    ///
    /// [`TzError::Memory`] if an allocation fails.
    pub fn try_clone(&self) -> Result<Self, TzError> {
        match self {
            FoundDateTimes::Once(found) => Ok(FoundDateTimes::Once(*found)),
            FoundDateTimes::Listed(list) => Ok(FoundDateTimes::Listed(list.try_clone()?)),
        }
    }

    /// The date time, if exactly one was found and no jump, and otherwise `None`.
    #[inline]
    #[must_use]
    pub fn unique(&self) -> Option<DateTime> {
        match self {
            FoundDateTimes::Once(FoundDateTimeKind::Normal(date_time)) => Some(*date_time),
            FoundDateTimes::Once(FoundDateTimeKind::Skipped { .. }) => None,
            FoundDateTimes::Listed(list) => list.unique(),
        }
    }

    /// The earliest date time; of a jump the side before it. `None` if nothing was found.
    #[inline]
    #[must_use]
    pub fn earliest(&self) -> Option<DateTime> {
        match self {
            FoundDateTimes::Once(found) => Some(*found.sides().0),
            FoundDateTimes::Listed(list) => list.earliest(),
        }
    }

    /// The latest date time; of a jump the side after it. `None` if nothing was found.
    #[inline]
    #[must_use]
    pub fn latest(&self) -> Option<DateTime> {
        match self {
            FoundDateTimes::Once(found) => Some(*found.sides().1),
            FoundDateTimes::Listed(list) => list.latest(),
        }
    }
}

/// The type in which clocks show a reading, if by the types of its window they show it once and are
/// not set forward over it.
#[inline]
fn type_shown_once<'a>(reading: i64, types: WindowTypes<'a>) -> Option<&'a LocalTimeType> {
    match types {
        WindowTypes::One(local_time_type) => Some(local_time_type),
        WindowTypes::Two {
            unix_time,
            before,
            after,
        } => {
            let is_before = shown_at(reading, before) < unix_time;
            let is_after = unix_time <= shown_at(reading, after);
            // Both in a fold, and none in a gap.
            match (is_before, is_after) {
                (true, false) => Some(before),
                (false, true) => Some(after),
                _ => None,
            }
        }
        WindowTypes::More(_) => None,
    }
}

/// Adds the entries for valid fields to the list, in order, by the types that the clock has in
/// their window.
fn search_by_types<'a, L: DateTimeList>(
    list: &mut L,
    fields: &Fields,
    zone: &ZoneData<'a>,
    types: WindowTypes<'a>,
    low: i64,
    high: i64,
) -> Result<(), TzError> {
    let reading = fields.reading();
    let mut view = TransitionView::new(zone.transitions());
    let mut dated = Dated { fields, list };
    give_in_window(&mut dated, reading, &mut view, *zone, types, low, high)
}

/// The list of what [`DateTime::find`] finds of valid fields, by the types that the clock has in
/// their window.
#[cfg(feature = "alloc")]
#[cold]
fn list_by_types<'a, A: Allocator + Copy>(
    alloc: A,
    fields: &Fields,
    zone: &ZoneData<'a>,
    types: WindowTypes<'a>,
    low: i64,
    high: i64,
) -> Result<FoundDateTimes<A>, TzError> {
    let mut list = FoundDateTimeList::new_in(alloc);
    search_by_types(&mut list, fields, zone, types, low, high)?;
    Ok(FoundDateTimes::Listed(list))
}

/// What [`DateTime::find`] finds of the fields. It does not allocate if by the types that the clock
/// has in their window they are shown once, and no jump is over them.
#[cfg(feature = "alloc")]
#[inline]
pub fn find_in_place<A: Allocator + Copy>(
    alloc: A,
    fields: &Fields,
    zone: &ZoneData<'_>,
) -> Result<FoundDateTimes<A>, TzError> {
    fields.check()?;
    let reading = fields.reading();
    let (low, high) = window_of(zone, reading);
    let types = types_of_window(zone, low, high);
    let Some(local_time_type) = type_shown_once(reading, types) else {
        return list_by_types(alloc, fields, zone, types, low, high);
    };
    let unix_time = shown_at(reading, local_time_type);
    let date_time = DateTime::of_fields(fields, *local_time_type, unix_time);
    Ok(FoundDateTimes::Once(FoundDateTimeKind::Normal(date_time)))
}
