// Generated from crates/tz_c/src/formats.rt by bindings/erase: its contracts are cut. Change that file instead.
//! Date times printed and read by patterns.

use crate::proved::tz_c::codes::{
    OK, PATTERN_MISMATCH, PATTERN_NOT_READABLE, PATTERN_OF_UTC, PATTERN_TOO_LONG,
    PATTERN_UNKNOWN_CONVERSION, PATTERN_UTF8,
};
use crate::proved::tz_c::date_times::ParsedData;
use crate::proved::tz_c::texts::write_text;
use core::str;
use tz::proved::tz::{DateTime, UtcDateTime};
use tz::proved::tz_format::inner::{Line, push_date_time, push_utc_date_time};
use tz::proved::tz_format::{Pattern, PatternError, ReadPatternError};

/// The code of bytes that are no pattern.
fn pattern_code(error: PatternError) -> u32 {
    match error {
        PatternError::UnknownConversion { .. } => PATTERN_UNKNOWN_CONVERSION,
        PatternError::TooLong => PATTERN_TOO_LONG,
        _ => unreachable!(),
    }
}

/// The code of a text that is not read.
fn read_code(error: ReadPatternError) -> u32 {
    match error {
        ReadPatternError::NotReadable => PATTERN_NOT_READABLE,
        ReadPatternError::Mismatch { .. } => PATTERN_MISMATCH,
        _ => unreachable!(),
    }
}

/// The pattern of these bytes, or the code of what they have that patterns have not.
fn checked(pattern: &[u8]) -> Result<Pattern<'_>, u32> {
    match str::from_utf8(pattern) {
        Ok(text) => match Pattern::new(text) {
            Ok(pattern) => Ok(pattern),
            Err(error) => Err(pattern_code(error)),
        },
        Err(_) => Err(PATTERN_UTF8),
    }
}

/// Whether the pattern is that of HTTP's dates.
fn is_http_date(pattern: &[u8]) -> bool {
    pattern == b"%a, %d %b %Y %H:%M:%S GMT".as_slice()
}

/// The date time as the pattern prints it, but for the pattern of HTTP's dates, which names UTC.
#[inline(always)]
pub fn tz_date_time_format(
    date_time: &DateTime,
    pattern: &[u8],
    text: &mut [u8],
    len: &mut usize,
) -> u32 {
    if is_http_date(pattern) {
        return PATTERN_OF_UTC;
    }
    let pattern = match checked(pattern) {
        Ok(pattern) => pattern,
        Err(code) => return code,
    };
    let mut line = Line::new();
    push_date_time(&mut line, &pattern, date_time);
    write_text(line.as_bytes(), text, len)
}

/// The date time of UTC as the pattern prints it.
#[inline(always)]
pub fn tz_utc_format(utc: &UtcDateTime, pattern: &[u8], text: &mut [u8], len: &mut usize) -> u32 {
    let pattern = match checked(pattern) {
        Ok(pattern) => pattern,
        Err(code) => return code,
    };
    let mut line = Line::new();
    push_utc_date_time(&mut line, &pattern, utc);
    write_text(line.as_bytes(), text, len)
}

/// The local time and the offset of a text that the pattern prints, as `Pattern::read` reads it.
#[inline(always)]
pub fn tz_pattern_read(pattern: &[u8], text: &[u8], out: &mut ParsedData) -> u32 {
    let pattern = match checked(pattern) {
        Ok(pattern) => pattern,
        Err(code) => return code,
    };
    match pattern.read(text) {
        Ok(read) => {
            *out = ParsedData::new(&read.local(), read.ut_offset());
            OK
        }
        Err(error) => read_code(error),
    }
}
