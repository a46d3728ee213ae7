// Generated from crates/tz/src/parse.rt by bindings/erase: its contracts are cut. Change that file instead.
//! Printed date times read back: dates, times of day and offsets in a text, and why a text is not
//! read. (RFC 3339, section 5.6)

use crate::proved::tz::datetime::UtcDateTime;
use crate::proved::tz::datetime::utc_date_time::is_past_the_end;
use crate::proved::tz_base::calendar::days_in_month;
use crate::proved::tz_base::fields::Fields;
use crate::proved::tz_zone::inner::after_byte;
use core::error;
use core::fmt;
use core::str::FromStr;

/// A part of a printed date time, and what can stand in its place.
///
/// An offset is below 2^31 seconds. Where one is not, the part with which it reaches that number is
/// missing, even if this part is in its own range.
#[derive(Clone, Copy, Debug, PartialEq, Eq)]
pub enum DateTimePart {
    /// The year, which fits an `i32`: digits, after `-` if it is negative; `-0` is year 0 as well.
    /// There are four digits or more, or those of a shorter number without leading zeros.
    Year,
    /// `-` before the month or the day of the month.
    Hyphen,
    /// The month: two digits, from 01 to 12.
    Month,
    /// The day of the month: two digits, from 01 to the last day of that month.
    MonthDay,
    /// `T`, `t` or a space, between the date and the time.
    Separator,
    /// The hour: two digits, from 00 to 23.
    Hour,
    /// `:` before the minute or the second, and before the minute of an offset.
    Colon,
    /// The minute: two digits, from 00 to 59.
    Minute,
    /// The second: two digits, from 00 to 60, but to 59 in the last minute of all.
    Second,
    /// `.` and one to nine digits, or nothing.
    Fraction,
    /// `Z` or `z`, the sign of an offset, or the end of the text.
    Offset,
    /// The hours of the offset: two digits or more.
    OffsetHour,
    /// The minutes of the offset: two digits, from 00 to 59.
    OffsetMinute,
    /// `:` and the seconds of the offset, from 00 to 59, or nothing.
    OffsetSecond,
    /// The end of the text.
    End,
}

/// Names the part and its form, whatever the width of the format.
impl fmt::Display for DateTimePart {
    fn fmt(&self, f: &mut fmt::Formatter<'_>) -> fmt::Result {
        f.write_str(match self {
            DateTimePart::Year => "a year of four digits or more",
            DateTimePart::Hyphen => "`-`",
            DateTimePart::Month => "a month from 01 to 12",
            DateTimePart::MonthDay => "a day of the month",
            DateTimePart::Separator => "`T` or a space",
            DateTimePart::Hour => "an hour from 00 to 23",
            DateTimePart::Colon => "`:`",
            DateTimePart::Minute => "a minute from 00 to 59",
            DateTimePart::Second => "a second from 00 to 60",
            DateTimePart::Fraction => "a fraction of one to nine digits",
            DateTimePart::Offset => "`Z`, the sign of an offset or the end",
            DateTimePart::OffsetHour => "the hours of an offset in two digits",
            DateTimePart::OffsetMinute => "the minutes of an offset from 00 to 59",
            DateTimePart::OffsetSecond => "the seconds of an offset from 00 to 59",
            DateTimePart::End => "the end",
        })
    }
}

/// Why a text is not read as a date time: the first part that it does not have, and where.
#[derive(Clone, Copy, Debug, PartialEq, Eq)]
pub struct ParseDateTimeError {
    /// The part that the text should have there.
    pub expected: DateTimePart,
    /// How many bytes of the text come before the place where it is missing.
    pub position: usize,
}

/// A part that is missing, and the bytes in its place.
#[derive(Clone, Copy)]
pub struct Missing<'a> {
    pub part: DateTimePart,
    pub rest: &'a [u8],
}

/// What is read at the beginning of the bytes, or the part that is missing there.
pub fn expect<'a, T>(
    part: DateTimePart,
    text: &'a [u8],
    read: Option<T>,
) -> Result<T, Missing<'a>> {
    read.ok_or(Missing { part, rest: text })
}

/// The value of a digit, which is below 10; for every other byte it is 10 or more.
#[must_use]
pub fn value_of(byte: u8) -> u8 {
    byte.wrapping_sub(b'0')
}

/// The number of the digits at the beginning of the bytes, and how many these are. In the position
/// of a number of 10^19 or more stands some number that is no less than 10^19.
#[must_use]
pub fn read_digits(text: &[u8]) -> (u64, usize) {
    let mut size = 0u64;
    for (position, byte) in text.iter().enumerate() {
        let digit = value_of(*byte);
        if digit >= 10 {
            return (size, position);
        }
        size = size.min(1_000_000_000_000_000_000) * 10 + u64::from(digit);
    }
    (size, text.len())
}

/// The number of two digits at the beginning, if it is in a range, and the bytes after it.
fn read_pair(text: &[u8], least: u8, greatest: u8) -> Option<(u8, &[u8])> {
    let [tens, ones, rest @ ..] = text else {
        return None;
    };
    let (tens, ones) = (value_of(*tens), value_of(*ones));
    if tens >= 10 || ones >= 10 {
        return None;
    }
    let number = 10 * tens + ones;
    if number < least || number > greatest {
        return None;
    }
    Some((number, rest))
}

/// Whether digits can be those of a year: four or more, or those of a number as it is printed.
fn are_year_digits(digits: &[u8]) -> bool {
    match digits {
        [] => false,
        [_] => true,
        [first, ..] => digits.len() >= 4 || *first != b'0',
    }
}

/// The number of the digits of a year, if it is one of 63 bits, and the bytes after them.
fn read_year_digits(text: &[u8]) -> Option<(i64, &[u8])> {
    let (size, count) = read_digits(text);
    if !are_year_digits(&text[..count]) {
        return None;
    }
    Some((i64::try_from(size).ok()?, &text[count..]))
}

/// The year at the beginning, and the bytes after it.
fn read_year(text: &[u8]) -> Option<(i32, &[u8])> {
    match after_byte(text, b'-') {
        Some(unsigned) => {
            let (size, rest) = read_year_digits(unsigned)?;
            Some((i32::try_from(-size).ok()?, rest))
        }
        None => {
            let (size, rest) = read_year_digits(text)?;
            Some((i32::try_from(size).ok()?, rest))
        }
    }
}

/// The date at the beginning, as fields at midnight, and the bytes after it.
pub fn read_date(text: &[u8]) -> Result<(Fields, &[u8]), Missing<'_>> {
    let (year, text) = expect(DateTimePart::Year, text, read_year(text))?;
    let text = expect(DateTimePart::Hyphen, text, after_byte(text, b'-'))?;
    let (month, text) = expect(DateTimePart::Month, text, read_pair(text, 1, 12))?;
    let text = expect(DateTimePart::Hyphen, text, after_byte(text, b'-'))?;
    let days = days_in_month(year, month);
    let (month_day, text) = expect(DateTimePart::MonthDay, text, read_pair(text, 1, days))?;
    Ok((Fields::new(year, month, month_day, 0, 0, 0, 0), text))
}

/// The bytes after the separator of date and time.
#[must_use]
pub fn after_separator(text: &[u8]) -> Option<&[u8]> {
    match text {
        [b'T' | b't' | b' ', rest @ ..] => Some(rest),
        _ => None,
    }
}

/// The second at the beginning, in a minute of the date, and the bytes after it.
fn read_second<'a>(date: &Fields, hour: u8, minute: u8, text: &'a [u8]) -> Option<(u8, &'a [u8])> {
    let (second, rest) = read_pair(text, 0, 60)?;
    let (year, month, month_day) = (date.year, date.month, date.month_day);
    let fields = Fields::new(year, month, month_day, hour, minute, second, 0);
    if is_past_the_end(&fields) {
        return None;
    }
    Some((second, rest))
}

/// The nanoseconds of the fraction at the beginning, or 0 if there is no point, and the bytes after
/// it.
fn read_fraction(text: &[u8]) -> Option<(u32, &[u8])> {
    let Some(digits) = after_byte(text, b'.') else {
        return Some((0, text));
    };
    let (size, count) = read_digits(digits);
    if count == 0 || count > 9 {
        return None;
    }
    let padding = 10u32.pow(9 - count as u32);
    Some((size as u32 * padding, &digits[count..]))
}

/// The time at the beginning, with the fields of the date, and the bytes after it.
pub fn read_time<'a>(date: &Fields, text: &'a [u8]) -> Result<(Fields, &'a [u8]), Missing<'a>> {
    let (hour, text) = expect(DateTimePart::Hour, text, read_pair(text, 0, 23))?;
    let text = expect(DateTimePart::Colon, text, after_byte(text, b':'))?;
    let (minute, text) = expect(DateTimePart::Minute, text, read_pair(text, 0, 59))?;
    let text = expect(DateTimePart::Colon, text, after_byte(text, b':'))?;
    let second = read_second(date, hour, minute, text);
    let (second, text) = expect(DateTimePart::Second, text, second)?;
    let (nanoseconds, text) = expect(DateTimePart::Fraction, text, read_fraction(text))?;
    let (year, month, month_day) = (date.year, date.month, date.month_day);
    let fields = Fields::new(year, month, month_day, hour, minute, second, nanoseconds);
    Ok((fields, text))
}

/// With what an offset begins.
#[derive(Clone, Copy)]
enum OffsetMark {
    /// Nothing: there is no offset.
    Absent,
    /// `Z`
    Utc,
    /// `+`
    Ahead,
    /// `-`
    Behind,
}

/// The mark at the beginning, and the bytes after it.
fn read_mark(text: &[u8]) -> Option<(OffsetMark, &[u8])> {
    match text {
        [] => Some((OffsetMark::Absent, text)),
        [b'Z' | b'z', rest @ ..] => Some((OffsetMark::Utc, rest)),
        [b'+', rest @ ..] => Some((OffsetMark::Ahead, rest)),
        [b'-', rest @ ..] => Some((OffsetMark::Behind, rest)),
        _ => None,
    }
}

/// The hours at the beginning, and the bytes after them.
fn read_hours(text: &[u8]) -> Option<(u32, &[u8])> {
    let (size, count) = read_digits(text);
    if count < 2 || size > 596_523 {
        return None;
    }
    Some((size as u32, &text[count..]))
}

/// The minutes at the beginning, and the bytes after them.
fn read_minutes(hours: u32, text: &[u8]) -> Option<(u8, &[u8])> {
    let (minutes, rest) = read_pair(text, 0, 59)?;
    if 3600 * hours + 60 * u32::from(minutes) > 2_147_483_647 {
        return None;
    }
    Some((minutes, rest))
}

/// The seconds after a colon, or 0 if there is no colon, and the bytes after them.
fn read_seconds(hours: u32, minutes: u8, text: &[u8]) -> Option<(u8, &[u8])> {
    let Some(after) = after_byte(text, b':') else {
        return Some((0, text));
    };
    let (seconds, rest) = read_pair(after, 0, 59)?;
    if 3600 * hours + 60 * u32::from(minutes) + u32::from(seconds) > 2_147_483_647 {
        return None;
    }
    Some((seconds, rest))
}

/// The seconds of an offset without its sign, and the bytes after it.
fn read_duration(text: &[u8]) -> Result<(i32, &[u8]), Missing<'_>> {
    let (hours, text) = expect(DateTimePart::OffsetHour, text, read_hours(text))?;
    let text = expect(DateTimePart::Colon, text, after_byte(text, b':'))?;
    let minutes = read_minutes(hours, text);
    let (minutes, text) = expect(DateTimePart::OffsetMinute, text, minutes)?;
    let seconds = read_seconds(hours, minutes, text);
    let (seconds, text) = expect(DateTimePart::OffsetSecond, text, seconds)?;
    let total = 3600 * hours + 60 * u32::from(minutes) + u32::from(seconds);
    Ok((total as i32, text))
}

/// The offset at the beginning, if there is one, and the bytes after it.
fn read_offset(text: &[u8]) -> Result<(Option<i32>, &[u8]), Missing<'_>> {
    let (mark, text) = expect(DateTimePart::Offset, text, read_mark(text))?;
    match mark {
        OffsetMark::Absent => Ok((None, text)),
        OffsetMark::Utc => Ok((Some(0), text)),
        OffsetMark::Ahead => {
            let (seconds, rest) = read_duration(text)?;
            Ok((Some(seconds), rest))
        }
        OffsetMark::Behind => {
            let (seconds, rest) = read_duration(text)?;
            Ok((Some(-seconds), rest))
        }
    }
}

/// The local time and the offset of a text.
#[derive(Clone, Copy, Debug, PartialEq, Eq)]
pub struct ParsedDateTime {
    local: UtcDateTime,
    ut_offset: Option<i32>,
}

/// The date time that the whole text is.
fn read_date_time(text: &[u8]) -> Result<ParsedDateTime, Missing<'_>> {
    let (date, text) = read_date(text)?;
    let text = expect(DateTimePart::Separator, text, after_separator(text))?;
    let (fields, text) = read_time(&date, text)?;
    let (ut_offset, text) = read_offset(text)?;
    expect(DateTimePart::End, text, text.is_empty().then_some(()))?;
    Ok(ParsedDateTime {
        local: UtcDateTime::of_fields(fields),
        ut_offset,
    })
}

impl FromStr for ParsedDateTime {
    type Err = ParseDateTimeError;

    fn from_str(s: &str) -> Result<ParsedDateTime, ParseDateTimeError> {
        ParsedDateTime::parse(s.as_bytes())
    }
}

impl TryFrom<&str> for ParsedDateTime {
    type Error = ParseDateTimeError;

    fn try_from(t: &str) -> Result<ParsedDateTime, ParseDateTimeError> {
        ParsedDateTime::parse(t.as_bytes())
    }
}

impl ParsedDateTime {
    /// Reads a date and a time in the form of RFC 3339, with years and offsets as `Display` prints
    /// them, and with or without an offset. RFC 3339 has fractions of any length; those of more
    /// than nine digits are refused.
    ///
    /// # Errors
    ///
    /// [`ParseDateTimeError`] with the first part that the text does not have, and its position.
    pub fn parse(text: &[u8]) -> Result<Self, ParseDateTimeError> {
        if let Some((fields, ut_offset)) = read_printed(text) {
            return Ok(ParsedDateTime {
                local: UtcDateTime::of_fields(fields),
                ut_offset: Some(ut_offset),
            });
        }
        match read_date_time(text) {
            Ok(parsed) => Ok(parsed),
            Err(missing) => Err(ParseDateTimeError {
                expected: missing.part,
                position: text.len() - missing.rest.len(),
            }),
        }
    }

    /// The local time.
    #[must_use]
    pub const fn local(&self) -> UtcDateTime {
        self.local
    }

    /// The offset from UTC in seconds, 0 for `Z`, or `None` if the text has none.
    #[must_use]
    pub const fn ut_offset(&self) -> Option<i32> {
        self.ut_offset
    }

    /// The Unix time of the local time at the offset, or `None` if the text has no offset. Second
    /// 60 counts as the next minute's second 0.
    #[must_use]
    pub const fn unix_time(&self) -> Option<i64> {
        let _ = self.local.fields();
        Some(
            self.local.unix_time()
                - (match self.ut_offset {
                    Some(value) => value,
                    None => return None,
                }) as i64,
        )
    }
}

/// The least byte at each position from the year to the minute, and the greatest.
static LEAST: [u8; 16] = *b"1000-00-00T00:00";

static GREATEST: [u8; 16] = *b"9999-99-99T99:99";

/// The least byte at each position from the colon before the minute to the nanoseconds, and the
/// greatest.
static LEAST_OF_TIME: [u8; 16] = *b":00:00.000000000";

static GREATEST_OF_TIME: [u8; 16] = *b":99:99.999999999";

/// Whether each of 16 bytes from a position on is in a range.
fn are_between(text: &[u8], position: usize, least: &[u8; 16], greatest: &[u8; 16]) -> bool {
    let mut between = true;
    for index in 0..16 {
        let byte = text[position + index];
        between = between & (least[index] <= byte) & (byte <= greatest[index]);
    }
    between
}

/// The number of two digits at a position.
fn pair_at(text: &[u8], position: usize) -> u8 {
    let tens = text[position].wrapping_sub(b'0');
    let ones = text[position + 1].wrapping_sub(b'0');
    tens.wrapping_mul(10).wrapping_add(ones)
}

/// The number of two digits at a position, if there are two.
fn digits_at(text: &[u8], position: usize) -> Option<u8> {
    if text[position].is_ascii_digit() && text[position + 1].is_ascii_digit() {
        return Some(pair_at(text, position));
    }
    None
}

/// The offset of hours and minutes, or of `Z`, with which the text ends.
fn offset_at_end(text: &[u8]) -> Option<i32> {
    if text.len() == 30 && text[29] == b'Z' {
        return Some(0);
    }
    if text.len() != 35 || text[32] != b':' {
        return None;
    }
    let hours = digits_at(text, 30)?;
    let minutes = digits_at(text, 33)?;
    if minutes > 59 {
        return None;
    }
    let seconds = 3600 * u32::from(hours) + 60 * u32::from(minutes);
    if seconds == 0 {
        return None;
    }
    match text[29] {
        b'+' => Some(seconds as i32),
        b'-' => Some(-(seconds as i32)),
        _ => None,
    }
}

/// The nanoseconds of nine digits.
fn nanoseconds_at(text: &[u8]) -> u32 {
    let first = u32::from(text[20].wrapping_sub(b'0'));
    let millions = u32::from(pair_at(text, 21));
    let ten_thousands = u32::from(pair_at(text, 23));
    let hundreds = u32::from(pair_at(text, 25));
    let ones = u32::from(pair_at(text, 27));
    first
        .wrapping_mul(100_000_000)
        .wrapping_add(1_000_000 * millions + 10_000 * ten_thousands + 100 * hundreds + ones)
}

/// The date time of a printed text with a year of four digits and an offset of hours and minutes.
#[allow(clippy::manual_range_contains)]
fn read_printed(text: &[u8]) -> Option<(Fields, i32)> {
    if text.len() < 30
        || !are_between(text, 0, &LEAST, &GREATEST)
        || !are_between(text, 13, &LEAST_OF_TIME, &GREATEST_OF_TIME)
    {
        return None;
    }
    let ut_offset = offset_at_end(text)?;
    let year = 100 * u32::from(pair_at(text, 0)) + u32::from(pair_at(text, 2));
    let year = year as i32;
    let (month, month_day) = (pair_at(text, 5), pair_at(text, 8));
    let (hour, minute, second) = (pair_at(text, 11), pair_at(text, 14), pair_at(text, 17));
    if month < 1 || month > 12 || month_day < 1 || hour > 23 {
        return None;
    }
    if minute > 59 || second > 59 || month_day > days_in_month(year, month) {
        return None;
    }
    let nanoseconds = nanoseconds_at(text);
    let fields = Fields::new(year, month, month_day, hour, minute, second, nanoseconds);
    Some((fields, ut_offset))
}

impl fmt::Display for ParseDateTimeError {
    fn fmt(&self, f: &mut fmt::Formatter<'_>) -> fmt::Result {
        let ParseDateTimeError {
            expected, position, ..
        } = self;
        write!(f, "expected {expected} at byte {position}")
    }
}

impl error::Error for ParseDateTimeError {}
