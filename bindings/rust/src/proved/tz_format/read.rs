// Generated from crates/tz_format/src/read.rt by bindings/erase: its contracts are cut. Change that file instead.
//! Date times read by patterns: a guess in one pass, which is printed again and compared.

use crate::proved::tz::UtcDateTime;
use crate::proved::tz_base::fields::Fields;
use crate::proved::tz_format::conversion::{Conversion, conversion_at};
use crate::proved::tz_format::line::Line;
use crate::proved::tz_format::moment::{Moment, Name};
use crate::proved::tz_format::pattern::Pattern;
use crate::proved::tz_format::print::{month_name, push_pattern};
use core::{error, fmt};

/// Why a text is not read by a pattern.
#[derive(Clone, Copy, Debug, PartialEq, Eq)]
#[non_exhaustive]
pub enum ReadPatternError {
    /// The pattern has a conversion that is not read, or shows a part by halves.
    NotReadable,
    /// The pattern prints the text of no date time that is read.
    Mismatch {
        /// How many bytes the text shares with what the pattern prints of a date time near to it.
        position: usize,
    },
}

/// The bytes after the first ones.
fn skip(text: &[u8], count: usize) -> &[u8] {
    if count < text.len() {
        &text[count..]
    } else {
        &[]
    }
}

/// The byte at a position, or NUL past the end.
fn byte_at(text: &[u8], position: usize) -> u8 {
    if position < text.len() {
        text[position]
    } else {
        0
    }
}

/// The number of the digit at a position.
fn digit_at(text: &[u8], position: usize) -> u32 {
    u32::from(byte_at(text, position) % 16)
}

/// The number of two digits from a position on.
fn pair_at(text: &[u8], position: usize) -> u32 {
    10 * digit_at(text, position) + digit_at(text, position + 1)
}

/// The number of three digits from a position on.
fn triple_at(text: &[u8], position: usize) -> u32 {
    100 * digit_at(text, position) + pair_at(text, position + 1)
}

/// The month whose name begins with these letters, by those that differ.
fn month_of(first: u8, second: u8, third: u8) -> u8 {
    match first {
        b'J' => {
            if second == b'a' {
                1
            } else if third == b'n' {
                6
            } else {
                7
            }
        }
        b'F' => 2,
        b'M' => {
            if third == b'r' {
                3
            } else {
                5
            }
        }
        b'A' => {
            if second == b'p' {
                4
            } else {
                8
            }
        }
        b'S' => 9,
        b'O' => 10,
        b'N' => 11,
        _ => 12,
    }
}

/// The month whose name the text begins with.
fn month_at(text: &[u8]) -> u8 {
    month_of(byte_at(text, 0), byte_at(text, 1), byte_at(text, 2))
}

/// How many letters the name of a week day has that begins with these.
fn week_day_width(first: u8, second: u8) -> usize {
    match first {
        b'W' => 9,
        b'T' => {
            if second == b'u' {
                7
            } else {
                8
            }
        }
        b'S' => {
            if second == b'u' {
                6
            } else {
                8
            }
        }
        _ => 6,
    }
}

/// The offset from its sign, its hours, and its minutes from a position on.
fn offset_at(text: &[u8], minutes: usize) -> i32 {
    let size = (60 * (60 * pair_at(text, 1) + pair_at(text, minutes))) as i32;
    if byte_at(text, 0) == b'-' {
        -size
    } else {
        size
    }
}

/// What is read so far of a pattern and a text: the values of the parts, and which parts are shown.
#[derive(Clone, Copy)]
struct Guess {
    values: [i32; 13],
    shown: [bool; 13],
}

impl Guess {
    /// Sets a part that is shown.
    fn put(&mut self, part: usize, value: i32) {
        self.values[part] = value;
        self.shown[part] = true;
    }

    /// Sets the half of the day of an hour, and the hour in it.
    fn put_hour(&mut self, hour: u32) {
        self.put(3, (hour / 12) as i32);
        self.put(4, (hour % 12) as i32);
    }

    /// Sets the parts of a conversion by a text that begins with what it prints, and returns how
    /// many bytes these are; `None` if the conversion is not read.
    fn read_conversion(&mut self, conversion: Conversion, text: &[u8]) -> Option<usize> {
        match conversion {
            Conversion::Year => {
                self.put(0, (100 * pair_at(text, 0) + pair_at(text, 2)) as i32);
                Some(4)
            }
            Conversion::YearOfCentury => {
                self.put(11, 0);
                Some(2)
            }
            Conversion::WeekYearOfCentury => {
                self.put(12, 0);
                Some(2)
            }
            Conversion::Month => {
                self.put(1, pair_at(text, 0) as i32);
                Some(2)
            }
            Conversion::MonthName => {
                let month = month_at(text);
                self.put(1, i32::from(month));
                Some(month_name(month).len())
            }
            Conversion::ShortMonthName => {
                self.put(1, i32::from(month_at(text)));
                Some(3)
            }
            Conversion::MonthDay | Conversion::SpacedMonthDay => {
                self.put(2, pair_at(text, 0) as i32);
                Some(2)
            }
            Conversion::YearDay => {
                self.put(12, 0);
                Some(3)
            }
            Conversion::Hour | Conversion::SpacedHour => {
                self.put_hour(pair_at(text, 0));
                Some(2)
            }
            Conversion::HalfDayHour => {
                self.put(4, (pair_at(text, 0) % 12) as i32);
                Some(2)
            }
            Conversion::HalfDay => {
                self.put(3, if byte_at(text, 0) == b'P' { 1 } else { 0 });
                Some(2)
            }
            Conversion::Minute => {
                self.put(5, pair_at(text, 0) as i32);
                Some(2)
            }
            Conversion::Second => {
                self.put(6, pair_at(text, 0) as i32);
                Some(2)
            }
            Conversion::Date => {
                self.put(0, (100 * pair_at(text, 0) + pair_at(text, 2)) as i32);
                self.put(1, pair_at(text, 5) as i32);
                self.put(2, pair_at(text, 8) as i32);
                Some(10)
            }
            Conversion::DateWithSlashes => {
                self.put(1, pair_at(text, 0) as i32);
                self.put(2, pair_at(text, 3) as i32);
                self.put(11, 0);
                Some(8)
            }
            Conversion::Time => {
                self.put_hour(pair_at(text, 0));
                self.put(5, pair_at(text, 3) as i32);
                self.put(6, pair_at(text, 6) as i32);
                Some(8)
            }
            Conversion::TimeToMinutes => {
                self.put_hour(pair_at(text, 0));
                self.put(5, pair_at(text, 3) as i32);
                Some(5)
            }
            Conversion::Milliseconds => {
                self.put(7, triple_at(text, 0) as i32);
                Some(3)
            }
            Conversion::Microseconds => {
                self.put(7, triple_at(text, 0) as i32);
                self.put(8, triple_at(text, 3) as i32);
                Some(6)
            }
            Conversion::Nanoseconds => {
                self.put(7, triple_at(text, 0) as i32);
                self.put(8, triple_at(text, 3) as i32);
                self.put(9, triple_at(text, 6) as i32);
                Some(9)
            }
            Conversion::PointMilliseconds => {
                self.put(7, triple_at(text, 1) as i32);
                Some(4)
            }
            Conversion::PointMicroseconds => {
                self.put(7, triple_at(text, 1) as i32);
                self.put(8, triple_at(text, 4) as i32);
                Some(7)
            }
            Conversion::PointNanoseconds => {
                self.put(7, triple_at(text, 1) as i32);
                self.put(8, triple_at(text, 4) as i32);
                self.put(9, triple_at(text, 7) as i32);
                Some(10)
            }
            Conversion::Offset => {
                self.put(10, offset_at(text, 3));
                Some(5)
            }
            Conversion::OffsetWithColon => {
                self.put(10, offset_at(text, 4));
                Some(6)
            }
            Conversion::WeekDayName => Some(week_day_width(byte_at(text, 0), byte_at(text, 1))),
            Conversion::ShortWeekDayName => Some(3),
            Conversion::Week | Conversion::WeekFromSunday | Conversion::WeekFromMonday => Some(2),
            Conversion::WeekDayFromMonday
            | Conversion::WeekDayFromSunday
            | Conversion::LineFeed
            | Conversion::Tab
            | Conversion::Percent => Some(1),
            Conversion::WeekYear | Conversion::UnixTime | Conversion::Designation => None,
        }
    }
}

/// Whether no part is shown by halves.
fn is_whole(shown: &[bool; 13]) -> bool {
    if shown[11] && !shown[0] {
        return false;
    }
    if shown[12] && !(shown[0] && shown[1] && shown[2]) {
        return false;
    }
    shown[3] == shown[4]
}

/// The values of the parts, and whether the offset is shown: of the other parts nobody asks.
#[derive(Clone, Copy)]
struct ReadParts {
    values: [i32; 13],
    has_offset: bool,
}

/// What a text shows, if the pattern prints it; `None` if the pattern is not read.
fn read_parts(pattern: &[u8], text: &[u8]) -> Option<ReadParts> {
    let mut guess = Guess {
        values: [0; 13],
        shown: [false; 13],
    };
    let mut left = text;
    let mut position = 0;
    while position < pattern.len() {
        let byte = pattern[position];
        position += 1;
        if byte == b'%' {
            let (conversion, spelled) = conversion_at(pattern, position)?;
            let width = guess.read_conversion(conversion, left)?;
            left = skip(left, width);
            position += spelled;
        } else {
            left = skip(left, 1);
        }
    }
    if is_whole(&guess.shown) {
        Some(ReadParts {
            values: guess.values,
            has_offset: guess.shown[10],
        })
    } else {
        None
    }
}

/// The value as a number below a limit.
fn number_below(value: i32, limit: u32) -> Option<u32> {
    let number = u32::try_from(value).ok()?;
    if number < limit { Some(number) } else { None }
}

/// The value as a byte.
fn byte_of(value: i32) -> Option<u8> {
    u8::try_from(value).ok()
}

/// Whether patterns read the offset: whole minutes below 100 hours.
fn is_read_offset(ut_offset: i32) -> bool {
    let size = ut_offset.unsigned_abs();
    size < 360_000 && size % 60 == 0
}

/// The local time with these parts, and what patterns print of it.
fn moment_with(values: &[i32; 13]) -> Option<(UtcDateTime, Moment<'static>)> {
    let ut_offset = values[10];
    if !is_read_offset(ut_offset) {
        return None;
    }
    let year = values[0];
    let _ = number_below(year, 10_000)?;
    let month = byte_of(values[1])?;
    let month_day = byte_of(values[2])?;
    let half = number_below(values[3], 2)?;
    let half_day_hour = number_below(values[4], 12)?;
    let minute = byte_of(values[5])?;
    let second = byte_of(values[6])?;
    let milliseconds = number_below(values[7], 1000)?;
    let microseconds = number_below(values[8], 1000)?;
    let nanoseconds = number_below(values[9], 1000)?;
    let hour = (12 * half + half_day_hour) as u8;
    let nanoseconds = 1_000_000 * milliseconds + 1000 * microseconds + nanoseconds;
    let fields = Fields::new(year, month, month_day, hour, minute, second, nanoseconds);
    match UtcDateTime::new(year, month, month_day, hour, minute, second, nanoseconds) {
        Ok(local) => Some((
            local,
            Moment {
                fields,
                ut_offset,
                name: Name::Fixed(""),
                unix_time: 0,
            },
        )),
        Err(_) => None,
    }
}

/// The number nearest to a value, from a least one to a greatest.
#[allow(clippy::manual_clamp)]
fn nearest(value: i32, least: i32, greatest: i32) -> i32 {
    if value < least {
        least
    } else if value > greatest {
        greatest
    } else {
        value
    }
}

/// The values, each brought into its range, and the day of the month to at most this one.
fn nearest_values(values: &[i32; 13], last_day: i32) -> [i32; 13] {
    let hour = if values[3] > 1 { 11 } else { values[4] };
    [
        nearest(values[0], 0, 9999),
        nearest(values[1], 1, 12),
        nearest(values[2], 1, last_day),
        nearest(values[3], 0, 1),
        nearest(hour, 0, 11),
        nearest(values[5], 0, 59),
        nearest(values[6], 0, 60),
        nearest(values[7], 0, 999),
        nearest(values[8], 0, 999),
        nearest(values[9], 0, 999),
        nearest(values[10], -359_940, 359_940),
        0,
        0,
    ]
}

/// The date time whose parts are the nearest to values, of the last days that months have.
fn nearest_moment(values: &[i32; 13]) -> Option<Moment<'static>> {
    for last_day in [31, 30, 28] {
        if let Some(found) = moment_with(&nearest_values(values, last_day)) {
            return Some(found.1);
        }
    }
    None
}

/// How many bytes two texts share from their beginnings on.
fn shared(text: &[u8], other: &[u8]) -> usize {
    for position in 0..text.len() {
        if position >= other.len() || text[position] != other[position] {
            return position;
        }
    }
    text.len()
}

/// The error of a text that the pattern does not print: how many bytes it shares with what the
/// pattern prints of the date time that is nearest to `values`.
fn mismatch(pattern: &Pattern<'_>, values: &[i32; 13], text: &[u8]) -> ReadPatternError {
    let Some(moment) = nearest_moment(values) else {
        return ReadPatternError::Mismatch { position: 0 };
    };
    let mut line = Line::new();
    push_pattern(&mut line, pattern.as_str(), &moment);
    ReadPatternError::Mismatch {
        position: shared(text, line.as_bytes()),
    }
}

/// The offset, if it is shown.
fn offset_if(is_shown: bool, moment: &Moment<'_>) -> Option<i32> {
    if is_shown {
        Some(moment.ut_offset)
    } else {
        None
    }
}

/// Whether the pattern prints the text.
fn is_printed(pattern: &Pattern<'_>, moment: &Moment<'_>, text: &[u8]) -> bool {
    let mut line = Line::new();
    push_pattern(&mut line, pattern.as_str(), moment);
    line.as_bytes() == text
}

/// The local time of a text that a pattern prints, and the offset if the pattern shows one.
#[derive(Clone, Copy, Debug, PartialEq, Eq)]
pub struct ReadDateTime {
    local: UtcDateTime,
    ut_offset: Option<i32>,
}

impl ReadDateTime {
    /// The local time. What the pattern does not show is zero.
    #[must_use]
    pub const fn local(&self) -> UtcDateTime {
        self.local
    }

    /// The offset from UTC in seconds, or `None` if the pattern shows none.
    #[must_use]
    pub const fn ut_offset(&self) -> Option<i32> {
        self.ut_offset
    }
}

impl Pattern<'_> {
    /// Reads a text that the pattern prints: of the years from 0 to 9999, and offsets of whole
    /// minutes below 100 hours. A text is read in one way only, and what does not determine the
    /// date time, as the day of the week, must agree with it.
    ///
    /// # Errors
    ///
    /// [`ReadPatternError::NotReadable`] if the pattern has `%G`, `%s` or `%Z`; or `%I` or `%p`
    /// without the other or the whole hour; `%y` or `%D` without the year; or `%g` or `%j` without
    /// the date; or else [`ReadPatternError::Mismatch`] if it prints the text of no such date time,
    /// in which all that it does not show is zero.
    pub fn read(&self, text: &[u8]) -> Result<ReadDateTime, ReadPatternError> {
        let Some(guess) = read_parts(self.as_str().as_bytes(), text) else {
            return Err(ReadPatternError::NotReadable);
        };
        let Some(found) = moment_with(&guess.values) else {
            return Err(mismatch(self, &guess.values, text));
        };
        if !is_printed(self, &found.1, text) {
            return Err(mismatch(self, &guess.values, text));
        }
        Ok(ReadDateTime {
            local: found.0,
            ut_offset: offset_if(guess.has_offset, &found.1),
        })
    }
}

impl fmt::Display for ReadPatternError {
    fn fmt(&self, f: &mut fmt::Formatter<'_>) -> fmt::Result {
        match self {
            ReadPatternError::NotReadable => {
                f.write_str("the pattern has a conversion that is not read")
            }
            ReadPatternError::Mismatch { position, .. } => write!(
                f,
                "the pattern prints no text that has these bytes after the first {position}"
            ),
        }
    }
}

impl error::Error for ReadPatternError {}
