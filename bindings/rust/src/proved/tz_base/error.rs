// Generated from crates/tz_base/src/error.rt by bindings/erase: its contracts are cut. Change that file instead.
//! The error types, and what `?` makes of an error. `TzError` and `Error` are for errors of any
//! kind, `ReadFault` is for those of a file reader.

use crate::shim::alloc::{AllocError, AllocFailed};
use core::num::ParseIntError;
use core::str::Utf8Error;
use core::{error, fmt};

/// The field that is out of range.
#[derive(Clone, Copy, Debug, PartialEq, Eq)]
#[non_exhaustive]
pub enum DateTimeError {
    /// The month is not in 1 to 12.
    InvalidMonth,
    /// The day is not in 1 to 31, or is past the end of its month.
    InvalidMonthDay,
    /// The hour is above 23.
    InvalidHour,
    /// The minute is above 59.
    InvalidMinute,
    /// The second is above 60.
    InvalidSecond,
    /// The nanoseconds are 10^9 or more.
    InvalidNanoseconds,
}

/// Why parts do not make a local time type.
#[derive(Clone, Copy, Debug, PartialEq, Eq)]
#[non_exhaustive]
pub enum LocalTimeTypeError {
    /// The designation does not have 1 to 7 bytes.
    // The text is that of tz-rs. POSIX wants 3 characters or more, but names of 1 and 2 are
    // accepted, as tz-rs accepts them.
    InvalidTimeZoneDesignationLength,
    /// A byte of the designation is not an ASCII letter or digit, `+` or `-`.
    InvalidTimeZoneDesignationChar,
    /// The offset is the least `i32`.
    InvalidUtcOffset,
}

/// Why parts do not make a transition rule.
#[derive(Clone, Copy, Debug, PartialEq, Eq)]
#[non_exhaustive]
pub enum TransitionRuleError {
    /// The number of the day is outside its range.
    InvalidRuleDayJulianDay,
    /// The month is not in 1 to 12.
    InvalidRuleDayMonth,
    /// The week is not in 1 to 5.
    InvalidRuleDayWeek,
    /// The week day is not in 0 to 6.
    InvalidRuleDayWeekDay,
    /// The standard offset is not above -25 and below 26 hours.
    InvalidStdUtcOffset,
    /// The daylight offset is not above -25 and below 26 hours.
    InvalidDstUtcOffset,
    /// A day time is a week or more away from the day.
    InvalidDstStartEndTime,
    /// Start and end swap order from one year to another.
    InconsistentRule,
}

/// Why parts do not make a time zone.
#[derive(Clone, Copy, Debug, PartialEq, Eq)]
#[non_exhaustive]
pub enum TimeZoneError {
    /// There is no local time type.
    NoLocalTimeType,
    /// A transition names a type that does not exist.
    InvalidLocalTimeTypeIndex,
    /// The times of transitions do not rise.
    InvalidTransition,
    /// The leap seconds are not a valid table.
    InvalidLeapSecond,
    /// The extra rule has another type at the last transition.
    InconsistentExtraRule,
}

/// Why the next bytes are not what is expected.
#[derive(Clone, Copy, Debug, PartialEq, Eq)]
#[non_exhaustive]
pub enum ParseDataError {
    /// The bytes end too early.
    UnexpectedEof,
    /// There is another byte than the expected one.
    InvalidData,
}

/// Why a string is not a TZ string.
#[derive(Clone, Debug, PartialEq, Eq)]
#[non_exhaustive]
pub enum TzStringError {
    /// The bytes are not UTF-8. No call returns this, since only digits are converted.
    Utf8(Utf8Error),
    /// Digits are missing, or their number does not fit its type.
    ParseInt(ParseIntError),
    /// A byte is missing or wrong.
    ParseData(ParseDataError),
    /// The hour of an offset is above 24.
    InvalidOffsetHour,
    /// The minute of an offset is above 59.
    InvalidOffsetMinute,
    /// The second of an offset is above 59.
    InvalidOffsetSecond,
    /// The hour of a day time is outside its range.
    InvalidDayTimeHour,
    /// The minute of a day time is above 59.
    InvalidDayTimeMinute,
    /// The second of a day time is above 59.
    InvalidDayTimeSecond,
    /// A daylight name is not followed by rules.
    MissingDstStartEndRules,
    /// Bytes follow the end of the string.
    RemainingData,
    /// The string is empty.
    Empty,
}

/// Why bytes are not a TZif file.
#[derive(Clone, Debug, PartialEq, Eq)]
#[non_exhaustive]
pub enum TzFileError {
    /// The footer is not UTF-8.
    Utf8(Utf8Error),
    /// Bytes are missing.
    ParseData(ParseDataError),
    /// The header does not begin with `TZif`.
    InvalidMagicNumber,
    /// The version is not supported.
    UnsupportedTzFileVersion,
    /// The counts of the header do not fit together.
    InvalidHeader,
    /// The footer is not between line feeds, or its text begins with a colon or has a zero byte.
    InvalidFooter,
    /// A daylight byte is neither 0 nor 1.
    InvalidDstIndicator,
    /// The index of a name is past the name bytes, or no zero byte ends the name.
    InvalidTimeZoneDesignationCharIndex,
    /// Indicators of a type do not fit together.
    InvalidStdWallUtLocal,
    /// Bytes follow the block of a version 1 file.
    RemainingDataV1,
}

/// Any error but that of a file that cannot be read.
#[derive(Clone, Debug, PartialEq, Eq)]
#[non_exhaustive]
pub enum TzError {
    /// The bytes are not a TZif file.
    TzFile(TzFileError),
    /// The string is not a TZ string.
    TzString(TzStringError),
    /// The parts do not make a local time type.
    LocalTimeType(LocalTimeTypeError),
    /// The parts do not make a transition rule.
    TransitionRule(TransitionRuleError),
    /// The parts do not make a time zone.
    TimeZone(TimeZoneError),
    /// The fields do not make a date time.
    DateTime(DateTimeError),
    /// A value is outside the range of its type, or an instant outside the years of a zone's rule,
    /// or before a leap-second table that begins late.
    OutOfRange,
    /// The zone's last transition has taken effect, and the zone has no rule for later instants.
    NoAvailableLocalTimeType,
    /// Out of memory: an allocation failed.
    Memory(AllocError),
}

/// Any error.
#[derive(Debug)]
#[non_exhaustive]
pub enum Error {
    /// A file could not be read.
    #[cfg(feature = "alloc")]
    Io(crate::shim::anyhow::Error),
    /// Every other error.
    Tz(TzError),
}

/// Why a file reader returned no bytes.
#[cfg(feature = "alloc")]
#[derive(Debug)]
pub enum ReadFault {
    /// Out of memory: an allocation failed.
    Memory(AllocError),
    /// The file could not be read.
    Failed(crate::shim::anyhow::Error),
}

impl From<DateTimeError> for TzError {
    fn from(error: DateTimeError) -> Self {
        TzError::DateTime(error)
    }
}

impl From<LocalTimeTypeError> for TzError {
    fn from(error: LocalTimeTypeError) -> Self {
        TzError::LocalTimeType(error)
    }
}

impl From<TransitionRuleError> for TzError {
    fn from(error: TransitionRuleError) -> Self {
        TzError::TransitionRule(error)
    }
}

impl From<TimeZoneError> for TzError {
    fn from(error: TimeZoneError) -> Self {
        TzError::TimeZone(error)
    }
}

impl From<TzStringError> for TzError {
    fn from(error: TzStringError) -> Self {
        TzError::TzString(error)
    }
}

impl From<TzFileError> for TzError {
    fn from(error: TzFileError) -> Self {
        TzError::TzFile(error)
    }
}

impl From<AllocError> for TzError {
    fn from(error: AllocError) -> Self {
        TzError::Memory(error)
    }
}

impl<T> From<AllocFailed<T>> for TzError {
    fn from(error: AllocFailed<T>) -> Self {
        TzError::Memory(AllocError::from(error))
    }
}

impl From<Utf8Error> for TzStringError {
    fn from(error: Utf8Error) -> Self {
        TzStringError::Utf8(error)
    }
}

impl From<ParseIntError> for TzStringError {
    fn from(error: ParseIntError) -> Self {
        TzStringError::ParseInt(error)
    }
}

impl From<ParseDataError> for TzStringError {
    fn from(error: ParseDataError) -> Self {
        TzStringError::ParseData(error)
    }
}

impl From<Utf8Error> for TzFileError {
    fn from(error: Utf8Error) -> Self {
        TzFileError::Utf8(error)
    }
}

impl From<ParseDataError> for TzFileError {
    fn from(error: ParseDataError) -> Self {
        TzFileError::ParseData(error)
    }
}

#[cfg(feature = "alloc")]
impl From<AllocError> for ReadFault {
    fn from(error: AllocError) -> Self {
        ReadFault::Memory(error)
    }
}

#[cfg(feature = "alloc")]
impl<T> From<AllocFailed<T>> for ReadFault {
    fn from(error: AllocFailed<T>) -> Self {
        ReadFault::Memory(AllocError::from(error))
    }
}

/// Why fields do not make a date time.
pub mod datetime {
    pub use super::DateTimeError;
}

/// Why bytes or a string do not make a time zone.
pub mod parse {
    pub use super::{ParseDataError, TzFileError, TzStringError};
}

/// Why parts do not make a local time type, a transition rule or a time zone.
pub mod timezone {
    pub use super::{LocalTimeTypeError, TimeZoneError, TransitionRuleError};
}

impl fmt::Display for DateTimeError {
    fn fmt(&self, f: &mut fmt::Formatter<'_>) -> fmt::Result {
        match self {
            DateTimeError::InvalidMonth => f.write_str("invalid month"),
            DateTimeError::InvalidMonthDay => f.write_str("invalid month day"),
            DateTimeError::InvalidHour => f.write_str("invalid hour"),
            DateTimeError::InvalidMinute => f.write_str("invalid minute"),
            DateTimeError::InvalidSecond => f.write_str("invalid second"),
            DateTimeError::InvalidNanoseconds => f.write_str("invalid nanoseconds"),
        }
    }
}

impl error::Error for DateTimeError {}

impl fmt::Display for LocalTimeTypeError {
    fn fmt(&self, f: &mut fmt::Formatter<'_>) -> fmt::Result {
        match self {
            LocalTimeTypeError::InvalidTimeZoneDesignationLength => {
                f.write_str("time zone designation must have between 3 and 7 characters")
            }
            LocalTimeTypeError::InvalidTimeZoneDesignationChar => {
                f.write_str("invalid characters in time zone designation")
            }
            LocalTimeTypeError::InvalidUtcOffset => f.write_str("invalid UTC offset"),
        }
    }
}

impl error::Error for LocalTimeTypeError {}

impl fmt::Display for TransitionRuleError {
    fn fmt(&self, f: &mut fmt::Formatter<'_>) -> fmt::Result {
        match self {
            TransitionRuleError::InvalidRuleDayJulianDay => {
                f.write_str("invalid rule day julian day")
            }
            TransitionRuleError::InvalidRuleDayMonth => f.write_str("invalid rule day month"),
            TransitionRuleError::InvalidRuleDayWeek => f.write_str("invalid rule day week"),
            TransitionRuleError::InvalidRuleDayWeekDay => f.write_str("invalid rule day week day"),
            TransitionRuleError::InvalidStdUtcOffset => {
                f.write_str("invalid standard time UTC offset")
            }
            TransitionRuleError::InvalidDstUtcOffset => {
                f.write_str("invalid Daylight Saving Time UTC offset")
            }
            TransitionRuleError::InvalidDstStartEndTime => {
                f.write_str("invalid DST start or end time")
            }
            TransitionRuleError::InconsistentRule => {
                f.write_str("DST transition rules are not consistent from one year to another")
            }
        }
    }
}

impl error::Error for TransitionRuleError {}

impl fmt::Display for TimeZoneError {
    fn fmt(&self, f: &mut fmt::Formatter<'_>) -> fmt::Result {
        match self {
            TimeZoneError::NoLocalTimeType => {
                f.write_str("list of local time types must not be empty")
            }
            TimeZoneError::InvalidLocalTimeTypeIndex => {
                f.write_str("invalid local time type index")
            }
            TimeZoneError::InvalidTransition => f.write_str("invalid transition"),
            TimeZoneError::InvalidLeapSecond => f.write_str("invalid leap second"),
            TimeZoneError::InconsistentExtraRule => {
                f.write_str("extra transition rule is inconsistent with the last transition")
            }
        }
    }
}

impl error::Error for TimeZoneError {}

impl fmt::Display for ParseDataError {
    fn fmt(&self, f: &mut fmt::Formatter<'_>) -> fmt::Result {
        match self {
            ParseDataError::UnexpectedEof => f.write_str("unexpected end of data"),
            ParseDataError::InvalidData => f.write_str("invalid data"),
        }
    }
}

impl error::Error for ParseDataError {}

impl fmt::Display for TzStringError {
    fn fmt(&self, f: &mut fmt::Formatter<'_>) -> fmt::Result {
        match self {
            TzStringError::Utf8(error) => error.fmt(f),
            TzStringError::ParseInt(error) => error.fmt(f),
            TzStringError::ParseData(error) => error.fmt(f),
            TzStringError::InvalidOffsetHour => f.write_str("invalid offset hour"),
            TzStringError::InvalidOffsetMinute => f.write_str("invalid offset minute"),
            TzStringError::InvalidOffsetSecond => f.write_str("invalid offset second"),
            TzStringError::InvalidDayTimeHour => f.write_str("invalid day time hour"),
            TzStringError::InvalidDayTimeMinute => f.write_str("invalid day time minute"),
            TzStringError::InvalidDayTimeSecond => f.write_str("invalid day time second"),
            TzStringError::MissingDstStartEndRules => {
                f.write_str("missing DST start and end rules")
            }
            TzStringError::RemainingData => f.write_str("remaining data after parsing TZ string"),
            TzStringError::Empty => f.write_str("empty TZ string"),
        }
    }
}

impl error::Error for TzStringError {}

impl fmt::Display for TzFileError {
    fn fmt(&self, f: &mut fmt::Formatter<'_>) -> fmt::Result {
        match self {
            TzFileError::Utf8(error) => error.fmt(f),
            TzFileError::ParseData(error) => error.fmt(f),
            TzFileError::InvalidMagicNumber => f.write_str("invalid magic number"),
            TzFileError::UnsupportedTzFileVersion => f.write_str("unsupported TZ file version"),
            TzFileError::InvalidHeader => f.write_str("invalid header"),
            TzFileError::InvalidFooter => f.write_str("invalid footer"),
            TzFileError::InvalidDstIndicator => f.write_str("invalid DST indicator"),
            TzFileError::InvalidTimeZoneDesignationCharIndex => {
                f.write_str("invalid time zone designation char index")
            }
            TzFileError::InvalidStdWallUtLocal => {
                f.write_str("invalid couple of standard/wall and UT/local indicators")
            }
            TzFileError::RemainingDataV1 => {
                f.write_str("remaining data after the end of a TZif v1 data block")
            }
        }
    }
}

impl error::Error for TzFileError {}

impl fmt::Display for TzError {
    fn fmt(&self, f: &mut fmt::Formatter<'_>) -> fmt::Result {
        match self {
            TzError::TzFile(error) => write!(f, "invalid TZ file: {error}"),
            TzError::TzString(error) => write!(f, "invalid TZ string: {error}"),
            TzError::LocalTimeType(error) => write!(f, "invalid local time type: {error}"),
            TzError::TransitionRule(error) => write!(f, "invalid transition rule: {error}"),
            TzError::TimeZone(error) => write!(f, "invalid time zone: {error}"),
            TzError::DateTime(error) => write!(f, "invalid date time: {error}"),
            TzError::OutOfRange => f.write_str("out of range operation"),
            TzError::NoAvailableLocalTimeType => {
                f.write_str("no local time type is available for the specified timestamp")
            }
            TzError::Memory(_) => f.write_str("no memory"),
        }
    }
}

impl error::Error for TzError {}

impl fmt::Display for Error {
    fn fmt(&self, f: &mut fmt::Formatter<'_>) -> fmt::Result {
        match self {
            #[cfg(feature = "alloc")]
            Error::Io(error) => error.fmt(f),
            Error::Tz(error) => error.fmt(f),
        }
    }
}

impl error::Error for Error {}

#[cfg(feature = "alloc")]
impl fmt::Display for ReadFault {
    fn fmt(&self, f: &mut fmt::Formatter<'_>) -> fmt::Result {
        match self {
            ReadFault::Memory(_) => f.write_str("no memory"),
            ReadFault::Failed(error) => error.fmt(f),
        }
    }
}

#[cfg(feature = "alloc")]
impl error::Error for ReadFault {}
