// Generated from crates/tz_query/src/query/read_query.rt by bindings/erase: its contracts are cut. Change that file instead.
//! Query lines: what the first line of the input asks for, and its numbers.

use crate::shim::dec2flt;
use core::num::TryFromIntError;
use tz::proved::tz::inner::{Fields, TextBuffer, after_byte, read_digits, value_of};

/// What a line asks for: the date time of an instant, with nanoseconds, the date times of fields,
/// or those of fields in a number of weeks.
pub enum Query {
    Time(i64, u32),
    Search(Fields),
    Meeting(u8, Fields),
}

/// The bytes after the first line.
pub fn after_line(bytes: &[u8]) -> &[u8] {
    for (position, byte) in bytes.iter().enumerate() {
        if *byte == b'\n' {
            return &bytes[position + 1..];
        }
    }
    &[]
}

/// The number at the beginning of the bytes, if there is one of 64 bits, and the bytes after it.
/// Most have one digit or two.
pub fn read_number(bytes: &[u8]) -> Option<(i64, &[u8])> {
    // `read_small` may read three bytes, and returns only a number before a space, so never the
    // last one of a line.
    if bytes.len() >= 3 {
        if let Some((number, end)) = read_small(bytes, 0) {
            return Some((i64::from(number), &bytes[end..]));
        }
    }
    let (size, count) = read_digits(bytes);
    if count > 0 {
        return Some((0i64.checked_add_unsigned(size)?, &bytes[count..]));
    }
    let digits = after_byte(bytes, b'-')?;
    let (size, count) = read_digits(digits);
    if count == 0 {
        return None;
    }
    Some((0i64.checked_sub_unsigned(size)?, &digits[count..]))
}

/// Numbers at the beginning of the bytes, each of 64 bits and after a space, if the line ends after
/// the last of them, and the bytes after that line.
#[allow(clippy::needless_range_loop)]
fn read_numbers<const N: usize>(bytes: &[u8]) -> Option<([i64; N], &[u8])> {
    let mut numbers = [0; N];
    let mut rest = bytes;
    for position in 0..N {
        let number = after_byte(rest, b' ')?;
        (numbers[position], rest) = read_number(number)?;
    }
    if rest.is_empty() {
        return Some((numbers, rest));
    }
    Some((numbers, after_byte(rest, b'\n')?))
}

/// The fields of these numbers, if each is one of its field's type.
fn fields_of(numbers: &[i64]) -> Result<Fields, TryFromIntError> {
    Ok(Fields {
        year: i32::try_from(numbers[0])?,
        month: u8::try_from(numbers[1])?,
        month_day: u8::try_from(numbers[2])?,
        hour: u8::try_from(numbers[3])?,
        minute: u8::try_from(numbers[4])?,
        second: u8::try_from(numbers[5])?,
        nanoseconds: u32::try_from(numbers[6])?,
    })
}

/// What the first line asks for, if it is a query, and the bytes after that line.
#[inline(never)]
pub fn read_query(queries: &[u8]) -> Option<(Query, &[u8])> {
    if let Some(parts) = after_byte(queries, b'T') {
        let (numbers, rest) = read_numbers::<2>(parts)?;
        let nanoseconds = u32::try_from(numbers[1]).ok()?;
        return Some((Query::Time(numbers[0], nanoseconds), rest));
    }
    if let Some(parts) = after_byte(queries, b'F') {
        let (numbers, rest) = read_numbers::<7>(parts)?;
        let fields = fields_of(&numbers).ok()?;
        return Some((Query::Search(fields), rest));
    }
    let parts = after_byte(queries, b'W')?;
    let (numbers, rest) = read_numbers::<8>(parts)?;
    let count = u8::try_from(numbers[0]).ok()?;
    let fields = fields_of(&numbers[1..]).ok()?;
    Some((Query::Meeting(count, fields), rest))
}

/// Nanoseconds of a second, kept as the nine digits with which a line shows them.
///
/// The digits of most lines are only copied, so no number is computed from them.
#[derive(Clone, Copy)]
pub struct Nanoseconds {
    pub digits: [u8; 9],
}

impl Nanoseconds {
    /// Makes the digits of a number of nanoseconds.
    pub fn new(number: u32) -> Nanoseconds {
        let mut text = TextBuffer::new();
        text.push_nine_digits(number);
        let mut digits = [0; 9];
        digits.copy_from_slice(text.as_bytes());
        Nanoseconds { digits }
    }

    /// Takes nine digits as nanoseconds.
    pub fn of_digits(digits: [u8; 9]) -> Nanoseconds {
        Nanoseconds { digits }
    }

    /// Computes the number that the digits have.
    pub fn number(&self) -> u32 {
        let (_, number) = dec2flt::read_digits(&self.digits, 0, 0);
        number as u32
    }
}

/// The instant of the first line, if it is a `T` line of usual numbers, and the bytes after it. The
/// nine digits of its nanoseconds are copied to `digits`.
///
/// A line that begins in the last 47 bytes is left to `read_query`: so no read here has to test
/// where the queries end.
#[inline(always)]
pub fn read_usual_time_line<'a>(
    queries: &'a [u8],
    digits: &mut [u8; 9],
) -> Option<(i64, &'a [u8])> {
    if queries.len() < 48 || queries[0] != b'T' {
        return None;
    }
    let (unix_time, after_seconds) = read_usual_number(queries, 1)?;
    let next = read_nanoseconds(queries, after_seconds, digits)?;
    Some((unix_time, &queries[next..]))
}

/// The fields of the first line, if it is an `F` line of usual numbers, and the bytes after it. The
/// nine digits of its nanoseconds are copied to `digits`, and the fields have 0.
#[inline(always)]
pub fn read_usual_search_line<'a>(
    queries: &'a [u8],
    digits: &mut [u8; 9],
) -> Option<(Fields, &'a [u8])> {
    if queries.len() < 48 || queries[0] != b'F' {
        return None;
    }
    let (number, after_year) = read_usual_number(queries, 1)?;
    let year = i32::try_from(number).ok()?;
    if queries[after_year] != b' ' {
        return None;
    }
    let (month, after_month) = read_small(queries, after_year + 1)?;
    let (month_day, after_day) = read_small(queries, after_month + 1)?;
    let (hour, after_hour) = read_small(queries, after_day + 1)?;
    let (minute, after_minute) = read_small(queries, after_hour + 1)?;
    let (second, after_second) = read_small(queries, after_minute + 1)?;
    let next = read_nanoseconds(queries, after_second, digits)?;
    let fields = Fields::new(year, month, month_day, hour, minute, second, 0);
    Some((fields, &queries[next..]))
}

/// The number of the digits at a position, if there are 1 to 18, and the position after them.
///
/// Eleven digits hold the Unix times up to November 5138. Of eleven bytes `read_digits` reads the
/// first eight at once, and the others one at a time.
#[inline(always)]
fn read_few_digits(bytes: &[u8], position: usize) -> Option<(u64, usize)> {
    // The position after the digits, which is how many they are if they are read from position 0,
    // and their value.
    let (count, number) = dec2flt::read_digits(&bytes[position..position + 11], 0, 0);
    if count == 0 {
        return None;
    }
    if bytes[position + count] == b' ' {
        return Some((number, position + count));
    }
    let (end, number) = dec2flt::read_digits(bytes, position, 0);
    if end == position || end > position + 18 {
        return None;
    }
    Some((number, end))
}

/// The number of up to 18 digits after a space at a position, and the position after it.
#[inline(always)]
fn read_usual_number(bytes: &[u8], position: usize) -> Option<(i64, usize)> {
    if bytes[position] != b' ' {
        return None;
    }
    if bytes[position + 1] == b'-' {
        let (size, end) = read_few_digits(bytes, position + 2)?;
        return Some((-(size as i64), end));
    }
    let (size, end) = read_few_digits(bytes, position + 1)?;
    Some((size as i64, end))
}

/// Copies the number of up to nine digits after a space at a position and before LF to `digits`,
/// left-padded with zeros. Returns the position after LF.
///
/// The nine bytes before LF are copied, and those before the digits overwritten: so a number that
/// ends within the first nine bytes is left to `read_query`.
#[allow(clippy::needless_range_loop)]
#[inline(always)]
fn read_nanoseconds(bytes: &[u8], position: usize, digits: &mut [u8; 9]) -> Option<usize> {
    if bytes[position] != b' ' {
        return None;
    }
    let start = position + 1;
    let (count, _) = dec2flt::read_digits(&bytes[start..start + 9], 0, 0);
    let end = start + count;
    if count == 9 && bytes[end] == b'\n' {
        digits.copy_from_slice(&bytes[start..end]);
        return Some(end + 1);
    }
    if count == 0 || end < 9 || bytes[end] != b'\n' {
        return None;
    }
    digits.copy_from_slice(&bytes[end - 9..end]);
    for index in 0..9 - count {
        digits[index] = b'0';
    }
    Some(end + 1)
}

/// The number of one or two digits at a position, if a space follows it, and the position of that
/// space.
#[inline(always)]
pub fn read_small(bytes: &[u8], position: usize) -> Option<(u8, usize)> {
    let first = value_of(bytes[position]);
    if first >= 10 {
        return None;
    }
    if bytes[position + 1] == b' ' {
        return Some((first, position + 1));
    }
    let second = value_of(bytes[position + 1]);
    if second >= 10 || bytes[position + 2] != b' ' {
        return None;
    }
    Some((first * 10 + second, position + 2))
}
