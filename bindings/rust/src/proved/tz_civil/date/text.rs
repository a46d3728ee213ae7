// Generated from crates/tz_civil/src/date/text.rt by bindings/erase: its contracts are cut. Change that file instead.
//! How dates are printed, and read back.

use super::Date;
use crate::proved::tz::inner::TextBuffer;
use crate::proved::tz::{DateTimePart, ParseDateTimeError, ParsedDateTime};
use core::fmt;

/// Appends a hyphen, and a number below 100 as two digits.
fn push_part(line: &mut TextBuffer, number: u8) {
    line.push(b'-');
    line.push(b'0' + number / 10);
    line.push(b'0' + number % 10);
}

/// The text of a date.
fn line_of(date: Date) -> TextBuffer {
    let mut line = TextBuffer::new();
    line.push_year(date.year);
    push_part(&mut line, date.month);
    push_part(&mut line, date.month_day);
    line
}

/// Prints the year, the month and the day, as `2024-01-31`, whatever the format's width. The year
/// is printed as by [`UtcDateTime`](crate::UtcDateTime), without zeros before it: `33-01-31`. Dates of
/// the years 1000 to 9999 are a full-date of RFC 3339, section 5.6.
impl fmt::Display for Date {
    fn fmt(&self, f: &mut fmt::Formatter<'_>) -> fmt::Result {
        f.write_str(line_of(*self).as_str())
    }
}

/// How many bytes of a text are read.
const LONGEST: usize = 100;

/// The time of midnight, which makes a date time of a date.
static MIDNIGHT: [u8; 20] = *b"T00:00:00.000000000Z";

/// A text with a midnight after it, and zeros.
fn with_midnight(text: &[u8]) -> [u8; 120] {
    let end = text.len();
    let mut line = [0; 120];
    line[..end].copy_from_slice(text);
    line[end..end + 20].copy_from_slice(&MIDNIGHT);
    line
}

/// The part that is missing in a date, in whose text the end stands for a separator.
fn part_of_date(part: DateTimePart) -> DateTimePart {
    match part {
        DateTimePart::Separator => DateTimePart::End,
        other => other,
    }
}

impl Date {
    /// Reads a date in the form of RFC 3339, with years as `Display` prints them and
    /// [`ParsedDateTime::parse`] reads them. Texts of more than 100 bytes are refused.
    ///
    /// # Errors
    ///
    /// [`ParseDateTimeError`] with the first part that the text does not have, and its position. A
    /// text that goes on after the date with `T`, `t` or a space is read on as a date time, so this
    /// part can be one of the time or of the offset.
    pub fn parse(text: &[u8]) -> Result<Self, ParseDateTimeError> {
        if text.len() > LONGEST {
            return Err(ParseDateTimeError {
                expected: DateTimePart::End,
                position: LONGEST,
            });
        }
        let line = with_midnight(text);
        match ParsedDateTime::parse(&line[..text.len() + 20]) {
            Ok(parsed) => Ok(Date::of(&parsed.local())),
            Err(missing) => Err(ParseDateTimeError {
                expected: part_of_date(missing.expected),
                position: missing.position,
            }),
        }
    }
}
