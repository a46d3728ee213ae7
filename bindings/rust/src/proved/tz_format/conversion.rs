// Generated from crates/tz_format/src/conversion.rt by bindings/erase: its contracts are cut. Change that file instead.
//! Conversions: how they are spelled after a `%`, and how many bytes they print at most.

/// What a `%` and the letters after it print.
#[derive(Clone, Copy)]
pub(crate) enum Conversion {
    /// `%Y`
    Year,
    /// `%y`
    YearOfCentury,
    /// `%G`
    WeekYear,
    /// `%g`
    WeekYearOfCentury,
    /// `%m`
    Month,
    /// `%B`
    MonthName,
    /// `%b` and `%h`
    ShortMonthName,
    /// `%d`
    MonthDay,
    /// `%e`
    SpacedMonthDay,
    /// `%j`
    YearDay,
    /// `%H`
    Hour,
    /// `%k`
    SpacedHour,
    /// `%I`
    HalfDayHour,
    /// `%p`
    HalfDay,
    /// `%M`
    Minute,
    /// `%S`
    Second,
    /// `%A`
    WeekDayName,
    /// `%a`
    ShortWeekDayName,
    /// `%u`
    WeekDayFromMonday,
    /// `%w`
    WeekDayFromSunday,
    /// `%V`
    Week,
    /// `%U`
    WeekFromSunday,
    /// `%W`
    WeekFromMonday,
    /// `%s`
    UnixTime,
    /// `%z`
    Offset,
    /// `%:z`
    OffsetWithColon,
    /// `%Z`
    Designation,
    /// `%F`
    Date,
    /// `%D`
    DateWithSlashes,
    /// `%T`
    Time,
    /// `%R`
    TimeToMinutes,
    /// `%3f`
    Milliseconds,
    /// `%6f`
    Microseconds,
    /// `%9f`
    Nanoseconds,
    /// `%.3f`
    PointMilliseconds,
    /// `%.6f`
    PointMicroseconds,
    /// `%.9f`
    PointNanoseconds,
    /// `%n`
    LineFeed,
    /// `%t`
    Tab,
    /// `%%`
    Percent,
}

/// The conversion that one letter spells.
#[inline(always)]
const fn of_letter(letter: u8) -> Option<Conversion> {
    match letter {
        b'Y' => Some(Conversion::Year),
        b'y' => Some(Conversion::YearOfCentury),
        b'G' => Some(Conversion::WeekYear),
        b'g' => Some(Conversion::WeekYearOfCentury),
        b'm' => Some(Conversion::Month),
        b'B' => Some(Conversion::MonthName),
        b'b' | b'h' => Some(Conversion::ShortMonthName),
        b'd' => Some(Conversion::MonthDay),
        b'e' => Some(Conversion::SpacedMonthDay),
        b'j' => Some(Conversion::YearDay),
        b'H' => Some(Conversion::Hour),
        b'k' => Some(Conversion::SpacedHour),
        b'I' => Some(Conversion::HalfDayHour),
        b'p' => Some(Conversion::HalfDay),
        b'M' => Some(Conversion::Minute),
        b'S' => Some(Conversion::Second),
        b'A' => Some(Conversion::WeekDayName),
        b'a' => Some(Conversion::ShortWeekDayName),
        b'u' => Some(Conversion::WeekDayFromMonday),
        b'w' => Some(Conversion::WeekDayFromSunday),
        b'V' => Some(Conversion::Week),
        b'U' => Some(Conversion::WeekFromSunday),
        b'W' => Some(Conversion::WeekFromMonday),
        b's' => Some(Conversion::UnixTime),
        b'z' => Some(Conversion::Offset),
        b'Z' => Some(Conversion::Designation),
        b'F' => Some(Conversion::Date),
        b'D' => Some(Conversion::DateWithSlashes),
        b'T' => Some(Conversion::Time),
        b'R' => Some(Conversion::TimeToMinutes),
        b'n' => Some(Conversion::LineFeed),
        b't' => Some(Conversion::Tab),
        b'%' => Some(Conversion::Percent),
        _ => None,
    }
}

/// The byte at a position, or NUL past the end.
const fn byte_at(text: &[u8], position: usize) -> u8 {
    if position < text.len() {
        text[position]
    } else {
        0
    }
}

/// How many digits a fraction has that `3f`, `6f` or `9f` spells at a position.
const fn fraction_at(text: &[u8], position: usize) -> Option<u8> {
    if byte_at(text, position + 1) != b'f' {
        return None;
    }
    match byte_at(text, position) {
        b'3' => Some(3),
        b'6' => Some(6),
        b'9' => Some(9),
        _ => None,
    }
}

/// The conversion that the bytes from a position on spell, and how many of them do.
#[inline(always)]
pub(crate) const fn conversion_at(text: &[u8], position: usize) -> Option<(Conversion, usize)> {
    match byte_at(text, position) {
        b':' => {
            if byte_at(text, position + 1) == b'z' {
                Some((Conversion::OffsetWithColon, 2))
            } else {
                None
            }
        }
        b'.' => match fraction_at(text, position + 1) {
            Some(3) => Some((Conversion::PointMilliseconds, 3)),
            Some(6) => Some((Conversion::PointMicroseconds, 3)),
            Some(_) => Some((Conversion::PointNanoseconds, 3)),
            None => None,
        },
        b'3' | b'6' | b'9' => match fraction_at(text, position) {
            Some(3) => Some((Conversion::Milliseconds, 2)),
            Some(6) => Some((Conversion::Microseconds, 2)),
            Some(_) => Some((Conversion::Nanoseconds, 2)),
            None => None,
        },
        letter => match of_letter(letter) {
            Some(conversion) => Some((conversion, 1)),
            None => None,
        },
    }
}

/// How many bytes the conversion prints at most.
pub(crate) const fn width_of(conversion: Conversion) -> usize {
    match conversion {
        Conversion::LineFeed
        | Conversion::Tab
        | Conversion::Percent
        | Conversion::WeekDayFromMonday
        | Conversion::WeekDayFromSunday => 1,
        Conversion::YearOfCentury
        | Conversion::WeekYearOfCentury
        | Conversion::Month
        | Conversion::MonthDay
        | Conversion::SpacedMonthDay
        | Conversion::Hour
        | Conversion::SpacedHour
        | Conversion::HalfDayHour
        | Conversion::HalfDay
        | Conversion::Minute
        | Conversion::Second
        | Conversion::Week
        | Conversion::WeekFromSunday
        | Conversion::WeekFromMonday => 2,
        Conversion::ShortMonthName
        | Conversion::ShortWeekDayName
        | Conversion::YearDay
        | Conversion::Milliseconds => 3,
        Conversion::PointMilliseconds => 4,
        Conversion::TimeToMinutes => 5,
        Conversion::Microseconds => 6,
        Conversion::PointMicroseconds => 7,
        Conversion::Time | Conversion::DateWithSlashes => 8,
        Conversion::MonthName
        | Conversion::WeekDayName
        | Conversion::Nanoseconds
        | Conversion::Offset => 9,
        Conversion::PointNanoseconds | Conversion::OffsetWithColon | Conversion::Designation => 10,
        Conversion::Year | Conversion::WeekYear => 11,
        Conversion::Date => 17,
        Conversion::UnixTime => 18,
    }
}
