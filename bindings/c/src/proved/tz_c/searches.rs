// Generated from crates/tz_c/src/searches.rt by bindings/erase: its contracts are cut. Change that file instead.
//! Searches for date times.

use crate::proved::tz_c::codes::{NO_DATE_TIME, OK, UNKNOWN_CHOICE, code_of};
use crate::proved::tz_c::date_time_data::{DateTimeData, FoundData};
use crate::proved::tz_c::zone_data::TzZone;
use tz::proved::tz::datetime::Disambiguation;
use tz::proved::tz::inner::{Fields, find_into, find_one};

/// Writes the entries that a search finds of the fields, without the first `skip`, to the slots as
/// far as they go, and counts all.
#[inline(always)]
pub fn tz_find_n(
    fields: &Fields,
    zone: &TzZone<'_>,
    skip: usize,
    slots: &mut [FoundData],
    count: &mut usize,
) -> u32 {
    match find_into(slots, skip, fields, &zone.as_zone_data()) {
        Ok(found) => {
            *count = found;
            OK
        }
        Err(error) => code_of(&error),
    }
}

/// The choice that has the number in C.
pub(crate) fn choice_of(choice: u8) -> Option<Disambiguation> {
    match choice {
        0 => Some(Disambiguation::Compatible),
        1 => Some(Disambiguation::Earlier),
        2 => Some(Disambiguation::Later),
        3 => Some(Disambiguation::Reject),
        _ => None,
    }
}

/// The one date time that the fields mean by a choice.
#[inline(always)]
pub fn tz_find_one(fields: &Fields, choice: u8, zone: &TzZone<'_>, out: &mut DateTimeData) -> u32 {
    let Some(disambiguation) = choice_of(choice) else {
        return UNKNOWN_CHOICE;
    };
    match find_one(fields, disambiguation, &zone.as_zone_data()) {
        Ok(Some(date_time)) => {
            *out = DateTimeData::of(&date_time);
            OK
        }
        Ok(None) => NO_DATE_TIME,
        Err(error) => code_of(&error),
    }
}
