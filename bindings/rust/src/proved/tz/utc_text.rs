// Generated from crates/tz/src/utc_text.rt by bindings/erase: its contracts are cut. Change that file instead.
//! Texts of UTC date times, read back. (RFC 3339, section 5.6)

use crate::proved::tz::datetime::UtcDateTime;
use crate::proved::tz::parse::{
    DateTimePart, Missing, ParseDateTimeError, after_separator, expect, read_date, read_time,
};
use core::str::FromStr;

/// The bytes after `Z`.
fn after_utc_mark(text: &[u8]) -> Option<&[u8]> {
    match text {
        [b'Z' | b'z', rest @ ..] => Some(rest),
        _ => None,
    }
}

/// The UTC date time that the whole text is.
fn read_utc_date_time(text: &[u8]) -> Result<UtcDateTime, Missing<'_>> {
    let (date, text) = read_date(text)?;
    let text = expect(DateTimePart::Separator, text, after_separator(text))?;
    let (fields, text) = read_time(&date, text)?;
    let text = expect(DateTimePart::Offset, text, after_utc_mark(text))?;
    expect(DateTimePart::End, text, text.is_empty().then_some(()))?;
    Ok(UtcDateTime::of_fields(fields))
}

/// The UTC date time of a text, or the first part that the text does not have.
fn parse_utc(text: &[u8]) -> Result<UtcDateTime, ParseDateTimeError> {
    match read_utc_date_time(text) {
        Ok(date_time) => Ok(date_time),
        Err(missing) => Err(ParseDateTimeError {
            expected: missing.part,
            position: text.len() - missing.rest.len(),
        }),
    }
}

/// Reads a UTC date time in the form of [`ParsedDateTime::parse`](crate::ParsedDateTime::parse),
/// with `Z` or `z` for the offset.
///
/// # Errors
///
/// [`ParseDateTimeError`] with the first part that the text does not have, and its position. This
/// is [`DateTimePart::Offset`] if there is another offset than `Z`, or none.
impl FromStr for UtcDateTime {
    type Err = ParseDateTimeError;

    fn from_str(s: &str) -> Result<UtcDateTime, ParseDateTimeError> {
        parse_utc(s.as_bytes())
    }
}

/// Reads a text as `FromStr` does.
impl TryFrom<&str> for UtcDateTime {
    type Error = ParseDateTimeError;

    fn try_from(t: &str) -> Result<UtcDateTime, ParseDateTimeError> {
        parse_utc(t.as_bytes())
    }
}
