//! The functions of tz_zones.h: the zones of the tz database, by name.
#![allow(unsafe_code)]

use crate::exports::Zone;
use crate::pointers::{Out, list, list_mut};
use crate::proved::tz_c::codes::OUT_OF_RANGE;
use crate::proved::tz_c::texts::write_text;
use crate::proved::tz_c::zone_data::TzZone;
use crate::proved::tz_c::zones::{OffsetsData, PartsData};
use core::{slice, str};
use tz::TimeZoneRef;
use tz::proved::tz_rule::inner::RuleRef;
use tz::proved::tz_zone::inner::ZoneData;

/// The parts and the offsets of a zone.
fn data_of(zone: TimeZoneRef<'static>) -> TzZone<'static> {
    let data = ZoneData::of(&zone);
    let (fixed, alternate): (&[_], &[_]) = match data.rule() {
        Some(RuleRef::Fixed(local_time_type)) => (slice::from_ref(local_time_type), &[]),
        Some(RuleRef::Alternate(rule)) => (&[], slice::from_ref(rule)),
        None => (&[], &[]),
    };
    let (least, greatest) = data.offsets();
    TzZone {
        parts: PartsData {
            transitions: data.transitions(),
            local_time_types: data.local_time_types(),
            leap_seconds: data.leap_seconds(),
            fixed,
            alternate,
        },
        offsets: OffsetsData { least, greatest },
    }
}

/// Writes the zone of a name, and returns whether there is one.
///
/// # Safety
///
/// What tz.h asks of a caller.
#[unsafe(no_mangle)]
pub unsafe extern "C" fn tz_built_in(name: *const u8, name_length: usize, out: *mut Zone) -> bool {
    // SAFETY: tz.h asks of a caller what this requires.
    let name = unsafe { list(name, name_length) };
    let Some(zone) = str::from_utf8(name).ok().and_then(tz_zones::named) else {
        return false;
    };
    debug_assert!(!out.is_null() && out.is_aligned());
    // SAFETY: tz.h asks of a caller that this is a place for a zone.
    unsafe { out.write(Zone::of(data_of(zone))) };
    true
}

/// Writes a text, and its length.
///
/// # Safety
///
/// What tz.h asks of a caller.
unsafe fn write_out(said: &str, text: *mut u8, text_length: usize, length: *mut usize) -> u32 {
    // SAFETY: tz.h asks of a caller what these require.
    let (text, mut length) = unsafe { (list_mut(text, text_length), Out::new(length)) };
    let code = write_text(said.as_bytes(), text, &mut length.value);
    // SAFETY: tz.h asks of a caller what this requires.
    unsafe { length.write(code) };
    code
}

/// Writes the name at a place, and its length.
///
/// # Safety
///
/// What tz.h asks of a caller.
#[unsafe(no_mangle)]
pub unsafe extern "C" fn tz_built_in_name(
    place: usize,
    text: *mut u8,
    text_length: usize,
    length: *mut usize,
) -> u32 {
    let Some(name) = tz_zones::NAMES.get(place) else {
        return OUT_OF_RANGE;
    };
    // SAFETY: tz.h asks of a caller what this requires.
    unsafe { write_out(name, text, text_length, length) }
}

/// Writes the version of the database, and its length.
///
/// # Safety
///
/// What tz.h asks of a caller.
#[unsafe(no_mangle)]
pub unsafe extern "C" fn tz_built_in_version(
    text: *mut u8,
    text_length: usize,
    length: *mut usize,
) -> u32 {
    // SAFETY: tz.h asks of a caller what this requires.
    unsafe { write_out(tz_zones::VERSION, text, text_length, length) }
}
