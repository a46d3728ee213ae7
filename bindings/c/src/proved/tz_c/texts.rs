// Generated from crates/tz_c/src/texts.rt by bindings/erase: its contracts are cut. Change that file instead.
//! TZ strings, TZif files, names of zones and settings.

use crate::proved::tz_c::codes::{
    BUFFER_LENGTH, EMPTY_STRING, INVALID_NAME, NO_RULE, NO_TZ_STRING, OK, code_of, file_code,
};
use crate::proved::tz_c::rule_data::{RuleData, rule_of};
use crate::proved::tz_c::zones::{OffsetsData, rule_of_lists};
use core::str;
use tz::proved::tz::inner::{TextBuffer, fields_of, utc_fields_of};
use tz::proved::tz::{DateTime, TzString, UtcDateTime};
use tz::proved::tz_rule::inner::AlternateData;
use tz::proved::tz_rule::timezone::LocalTimeType;
use tz::proved::tz_zone::inner::{FileSizes, ZoneData, file_sizes, parse_posix_tz};
use tz::proved::tz_zone::timezone::{LeapSecond, TimeZone, Transition, is_zone_name};
use tz::shim::alloc::Global;

/// Copies a text to a buffer and stores its length, if there is room.
pub(crate) fn write_text(given: &[u8], text: &mut [u8], len: &mut usize) -> u32 {
    if given.len() > text.len() {
        return BUFFER_LENGTH;
    }
    text[..given.len()].copy_from_slice(given);
    *len = given.len();
    OK
}

/// The date time of UTC as its `Display` prints it.
#[inline(always)]
pub fn tz_utc_text(utc: &UtcDateTime, text: &mut [u8], len: &mut usize) -> u32 {
    let mut line = TextBuffer::new();
    line.push_date_time(utc_fields_of(utc), 0);
    write_text(line.as_bytes(), text, len)
}

/// The date time as its `Display` prints it.
#[inline(always)]
pub fn tz_date_time_text(date_time: &DateTime, text: &mut [u8], len: &mut usize) -> u32 {
    let mut line = TextBuffer::new();
    let ut_offset = date_time.local_time_type().ut_offset();
    line.push_date_time(fields_of(date_time), ut_offset);
    write_text(line.as_bytes(), text, len)
}

/// The TZ string of a rule, as `TzString::from_rule` writes it.
#[inline(always)]
pub fn tz_rule_text(
    fixed: &[LocalTimeType],
    alternate: &[AlternateData],
    text: &mut [u8],
    len: &mut usize,
) -> u32 {
    let Some(rule) = rule_of_lists(fixed, alternate) else {
        return NO_RULE;
    };
    match TzString::from_rule(&rule_of(rule)) {
        Some(string) => write_text(string.as_str().as_bytes(), text, len),
        None => NO_TZ_STRING,
    }
}

/// Whether the text is a name of a time zone, as `is_zone_name` returns.
#[inline(always)]
pub fn tz_name_check(name: &[u8]) -> u32 {
    match str::from_utf8(name) {
        Ok(text) => {
            if is_zone_name(text) {
                OK
            } else {
                INVALID_NAME
            }
        }
        Err(_) => INVALID_NAME,
    }
}

/// How the text of a setting, such as that of `TZ`, names a zone, and which bytes of it are the
/// name.
#[repr(C)]
#[derive(Clone, Copy)]
pub struct SettingData {
    /// 0: the machine's local time, 1: a file, 2: a file or a TZ string.
    kind: u32,
    /// The index of the name's first byte in the text.
    from: usize,
    /// The index after the name's last byte.
    until: usize,
}

/// Whether the text means the machine's local time.
fn is_local_time(text: &[u8]) -> bool {
    text == b"localtime".as_slice()
}

/// How the text of a setting names a zone.
#[inline(always)]
pub fn tz_setting_read(text: &[u8], out: &mut SettingData) -> u32 {
    if text.is_empty() {
        return EMPTY_STRING;
    }
    if is_local_time(text) {
        *out = SettingData {
            kind: 0,
            from: 0,
            until: 0,
        };
        return OK;
    }
    let is_file = text[0] == b':';
    *out = SettingData {
        kind: if is_file { 1 } else { 2 },
        from: if is_file { 1 } else { 0 },
        until: text.len(),
    };
    OK
}

/// The sizes of a TZif file, by its headers alone.
#[inline(always)]
pub fn tz_file_sizes(bytes: &[u8], out: &mut FileSizes) -> u32 {
    match file_sizes(bytes) {
        Ok(sizes) => {
            *out = sizes;
            OK
        }
        Err(error) => file_code(&error),
    }
}

/// The parts of a TZif file, and the least and the greatest offset of its zone.
#[inline(always)]
pub fn tz_file_read(
    alloc: Global,
    bytes: &[u8],
    transitions: &mut [Transition],
    local_time_types: &mut [LocalTimeType],
    leap_seconds: &mut [LeapSecond],
    rule: &mut RuleData,
    out: &mut OffsetsData,
) -> u32 {
    match TimeZone::from_tz_data(alloc, bytes) {
        Ok(zone) => {
            let read = zone.as_ref();
            if read.transitions().len() != transitions.len()
                || read.local_time_types().len() != local_time_types.len()
                || read.leap_seconds().len() != leap_seconds.len()
            {
                return BUFFER_LENGTH;
            }
            transitions.copy_from_slice(read.transitions());
            local_time_types.copy_from_slice(read.local_time_types());
            leap_seconds.copy_from_slice(read.leap_seconds());
            *rule = RuleData::of(read.extra_rule());
            let (least, greatest) = ZoneData::of(&read).offsets();
            *out = OffsetsData { least, greatest };
            OK
        }
        Err(error) => code_of(&error),
    }
}

/// The rule of a TZ string, ordinary or extended, without white space at its ends.
#[inline(always)]
pub fn tz_string_read(text: &[u8], is_extended: bool, out: &mut RuleData) -> u32 {
    match parse_posix_tz(text, is_extended) {
        Ok(rule) => {
            *out = RuleData::of(&Some(rule));
            OK
        }
        Err(error) => code_of(&error),
    }
}
