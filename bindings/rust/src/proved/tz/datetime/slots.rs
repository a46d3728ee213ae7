// Generated from crates/tz/src/datetime/slots.rt by bindings/erase: its contracts are cut. Change that file instead.
//! Slots of a caller, to which a search writes its entries, as many as there is room for.

#[cfg(feature = "inner")]
use super::Disambiguation;
use super::FoundDateTimeKind;
#[cfg(feature = "inner")]
use super::disambiguation::meant_in;
use super::entry_takers::DateTimeList;
#[cfg(feature = "inner")]
use super::gaps_and_folds::search;
#[cfg(feature = "inner")]
use crate::proved::tz_base::error::TzError;
#[cfg(feature = "inner")]
use crate::proved::tz_base::fields::Fields;
#[cfg(feature = "inner")]
use crate::proved::tz_zone::inner::{TransitionView, ZoneData};
use crate::shim::alloc::AllocError;

/// What holds one entry of a list.
pub trait Slot {
    /// Writes an entry to the slot.
    fn set(&mut self, found: &FoundDateTimeKind);
}

impl Slot for Option<FoundDateTimeKind> {
    fn set(&mut self, found: &FoundDateTimeKind) {
        *self = Some(*found);
    }
}

/// The slots that a search writes to in order from one of its entries on, and how many it found.
pub(crate) struct SlotWriter<'a, S> {
    slots: &'a mut [S],
    skip: usize,
    pub(super) count: usize,
}

impl<'a, S: Slot> SlotWriter<'a, S> {
    /// A writer to `slots` that has been given no entry. The first `skip` entries are counted, and
    /// get no slot.
    pub(super) const fn new(slots: &'a mut [S], skip: usize) -> Self {
        SlotWriter {
            slots,
            skip,
            count: 0,
        }
    }

    /// Counts the entry, and writes it to its slot, if the slots go that far.
    fn write(&mut self, found: &FoundDateTimeKind) {
        if self.skip <= self.count {
            let index = self.count - self.skip;
            if index < self.slots.len() {
                self.slots[index].set(found);
            }
        }
        // A list has at most 2^33 entries, and where a `usize` has 32 bits memory has no room for
        // the transitions of 2^31, so the count never comes to its end.
        self.count = self.count.saturating_add(1);
    }
}

impl<S: Slot> DateTimeList for SlotWriter<'_, S> {
    fn push(&mut self, found: FoundDateTimeKind) -> Result<(), AllocError> {
        self.write(&found);
        Ok(())
    }
}

/// Whether each entry of the fields can be made, by a search that writes nothing. It is cold, so
/// that the search that writes stays small.
#[cfg(feature = "inner")]
#[cold]
fn check_by_search(fields: &Fields, zone: &ZoneData<'_>) -> Result<(), TzError> {
    meant_in(fields.reading(), Disambiguation::Compatible, zone)?;
    Ok(())
}

/// Searches for fields near the ends of the years, so that a search that is refused is refused
/// before anything is written.
#[cfg(feature = "inner")]
fn check_entries(fields: &Fields, zone: &ZoneData<'_>) -> Result<(), TzError> {
    // 200 years or more from both ends of 32 bits.
    if -2_147_483_448 <= fields.year && fields.year <= 2_147_483_447 {
        return Ok(());
    }
    check_by_search(fields, zone)
}

/// Writes the entries for the fields, from one of them on, to the slots, as far as they go, and
/// counts all.
#[cfg(feature = "inner")]
pub fn find_into<S: Slot>(
    slots: &mut [S],
    skip: usize,
    fields: &Fields,
    zone: &ZoneData<'_>,
) -> Result<usize, TzError> {
    fields.check()?;
    check_entries(fields, zone)?;
    let mut writer = SlotWriter::new(slots, skip);
    let mut view = TransitionView::new(zone.transitions());
    search(&mut writer, fields, &mut view, zone)?;
    Ok(writer.count)
}
