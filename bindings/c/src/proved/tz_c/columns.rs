// Generated from crates/tz_c/src/columns.rt by bindings/erase: its contracts are cut. Change that file instead.
//! Whole columns in one call: each index has a code of its own, an error at one does not stop the
//! others, and all buffers have one length.

use crate::proved::tz_c::codes::{BUFFER_LENGTH, NO_DATE_TIME, OK, UNKNOWN_CHOICE, code_of};
use crate::proved::tz_c::date_time_data::DateTimeData;
use crate::proved::tz_c::searches::choice_of;
use crate::proved::tz_c::zone_data::TzZone;
use tz::proved::tz::inner::{
    Fields, write_date_times, write_instants, write_instants_of_readings, write_offsets,
};
use tz::proved::tz_base::error::TzError;

/// Sets all codes to `OK`.
fn clear(codes: &mut [u32]) {
    codes.fill(OK);
}

/// The code of an element that has no instant: that of its error, if there is one.
fn code_of_none(error: &Option<TzError>) -> u32 {
    match error {
        Some(error) => code_of(error),
        None => NO_DATE_TIME,
    }
}

/// The offsets of the zone's clock at instants.
#[inline(always)]
pub fn tz_column_offsets(
    unix_times: &[i64],
    zone: &TzZone<'_>,
    offsets: &mut [i32],
    codes: &mut [u32],
) -> u32 {
    if offsets.len() != unix_times.len() || codes.len() != unix_times.len() {
        return BUFFER_LENGTH;
    }
    clear(codes);
    let data = zone.as_zone_data();
    let mut first = 0;
    while let Err(unanswered) = write_offsets(unix_times, first, &data, offsets) {
        codes[unanswered.index] = code_of(&unanswered.error);
        first = unanswered.index + 1;
    }
    OK
}

/// What the zone's clock shows at instants.
#[inline(always)]
pub fn tz_column_date_times(
    unix_times: &[i64],
    nanoseconds: &[u32],
    zone: &TzZone<'_>,
    date_times: &mut [DateTimeData],
    codes: &mut [u32],
) -> u32 {
    if nanoseconds.len() != unix_times.len()
        || date_times.len() != unix_times.len()
        || codes.len() != unix_times.len()
    {
        return BUFFER_LENGTH;
    }
    clear(codes);
    let data = zone.as_zone_data();
    let mut first = 0;
    while let Err(unshown) = write_date_times(unix_times, nanoseconds, first, &data, date_times) {
        codes[unshown.index] = code_of(&unshown.error);
        first = unshown.index + 1;
    }
    OK
}

/// The instants that fields mean by a choice.
#[inline(always)]
pub fn tz_column_instants(
    fields: &[Fields],
    choice: u8,
    zone: &TzZone<'_>,
    unix_times: &mut [i64],
    codes: &mut [u32],
) -> u32 {
    let Some(disambiguation) = choice_of(choice) else {
        return UNKNOWN_CHOICE;
    };
    if unix_times.len() != fields.len() || codes.len() != fields.len() {
        return BUFFER_LENGTH;
    }
    clear(codes);
    let data = zone.as_zone_data();
    let mut first = 0;
    while let Err(none) = write_instants(fields, first, disambiguation, &data, unix_times) {
        codes[none.index] = code_of_none(&none.error);
        first = none.index + 1;
    }
    OK
}

/// The instants that readings mean by a choice: those of fields that are read so, without
/// nanoseconds.
#[inline(always)]
pub fn tz_column_instants_of_readings(
    readings: &[i64],
    choice: u8,
    zone: &TzZone<'_>,
    unix_times: &mut [i64],
    codes: &mut [u32],
) -> u32 {
    let Some(disambiguation) = choice_of(choice) else {
        return UNKNOWN_CHOICE;
    };
    if unix_times.len() != readings.len() || codes.len() != readings.len() {
        return BUFFER_LENGTH;
    }
    clear(codes);
    let data = zone.as_zone_data();
    let mut first = 0;
    while let Err(none) =
        write_instants_of_readings(readings, first, disambiguation, &data, unix_times)
    {
        codes[none.index] = code_of_none(&none.error);
        first = none.index + 1;
    }
    OK
}
