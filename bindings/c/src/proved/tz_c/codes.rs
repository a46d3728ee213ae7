// Generated from crates/tz_c/src/codes.rt by bindings/erase: its contracts are cut. Change that file instead.
//! The codes of errors and their texts, and the layout of structures.

use crate::proved::tz_c::date_time_data::{DateTimeData, FoundData, UtcData};
use crate::proved::tz_c::date_times::ParsedData;
use crate::proved::tz_c::rule_data::RuleData;
use crate::proved::tz_c::texts::{SettingData, write_text};
use crate::proved::tz_c::zone_data::TzZone;
use crate::proved::tz_c::zones::{ChangeData, ConflictData, OffsetsData, PartsData, SegmentData};
use core::num::{IntErrorKind, ParseIntError};
use tz::proved::tz::inner::Fields;
use tz::proved::tz_base::error::{
    DateTimeError, LocalTimeTypeError, ParseDataError, TimeZoneError, TransitionRuleError, TzError,
    TzFileError, TzStringError,
};
use tz::proved::tz_rule::inner::{AlternateData, DayData};
use tz::proved::tz_rule::timezone::LocalTimeType;
use tz::proved::tz_zone::inner::FileSizes;
use tz::proved::tz_zone::timezone::{LeapSecond, Transition};

/// The code of a call that succeeded.
pub(crate) const OK: u32 = 0;

/// The code of a value outside the range of its type.
pub(crate) const OUT_OF_RANGE: u32 = 1;

/// The code of two empty lists in place of a rule.
pub(crate) const NO_RULE: u32 = 3;

/// The code of a clock that does not change.
pub(crate) const NO_CHANGE: u32 = 4;

/// The code of a local time that means no date time.
pub(crate) const NO_DATE_TIME: u32 = 5;

/// The code of a rule that no TZ string denotes.
pub(crate) const NO_TZ_STRING: u32 = 6;

/// The code of parts that show no conflict.
pub(crate) const NO_CONFLICT: u32 = 7;

/// The code of a buffer of the wrong length.
pub(crate) const BUFFER_LENGTH: u32 = 8;

/// The code of an unknown choice.
pub(crate) const UNKNOWN_CHOICE: u32 = 9;

/// The code of a number that is no code.
pub(crate) const UNKNOWN_CODE: u32 = 10;

/// The code of a text that is no name of a time zone.
pub(crate) const INVALID_NAME: u32 = 11;

/// The code of an empty setting.
pub(crate) const EMPTY_STRING: u32 = 92;

/// The code of nanoseconds that are a second or more.
pub(crate) const INVALID_NANOSECONDS: u32 = 21;

/// The code of a pattern that is no UTF-8.
pub(crate) const PATTERN_UTF8: u32 = 144;

/// The code of a `%` that spells no conversion.
pub(crate) const PATTERN_UNKNOWN_CONVERSION: u32 = 145;

/// The code of a pattern whose texts are too long.
pub(crate) const PATTERN_TOO_LONG: u32 = 146;

/// The code of a pattern that prints date times of UTC alone.
pub(crate) const PATTERN_OF_UTC: u32 = 147;

/// The code of a pattern that is not read.
pub(crate) const PATTERN_NOT_READABLE: u32 = 148;

/// The code of a text that a pattern does not print.
pub(crate) const PATTERN_MISMATCH: u32 = 149;

/// The code of fields that are no date time.
pub(crate) fn fields_code(error: DateTimeError) -> u32 {
    match error {
        DateTimeError::InvalidMonth => 16,
        DateTimeError::InvalidMonthDay => 17,
        DateTimeError::InvalidHour => 18,
        DateTimeError::InvalidMinute => 19,
        DateTimeError::InvalidSecond => 20,
        DateTimeError::InvalidNanoseconds => 21,
        _ => unreachable!(),
    }
}

/// The code of parts that are no local time type.
pub(crate) fn type_code(error: LocalTimeTypeError) -> u32 {
    match error {
        LocalTimeTypeError::InvalidTimeZoneDesignationLength => 32,
        LocalTimeTypeError::InvalidTimeZoneDesignationChar => 33,
        LocalTimeTypeError::InvalidUtcOffset => 34,
        _ => unreachable!(),
    }
}

/// The code of parts that are no rule.
pub(crate) fn rule_code(error: TransitionRuleError) -> u32 {
    match error {
        TransitionRuleError::InvalidRuleDayJulianDay => 48,
        TransitionRuleError::InvalidRuleDayMonth => 49,
        TransitionRuleError::InvalidRuleDayWeek => 50,
        TransitionRuleError::InvalidRuleDayWeekDay => 51,
        TransitionRuleError::InvalidStdUtcOffset => 52,
        TransitionRuleError::InvalidDstUtcOffset => 53,
        TransitionRuleError::InvalidDstStartEndTime => 54,
        TransitionRuleError::InconsistentRule => 55,
        _ => unreachable!(),
    }
}

/// The code of parts that are no zone.
pub(crate) fn zone_code(error: TimeZoneError) -> u32 {
    match error {
        TimeZoneError::NoLocalTimeType => 64,
        TimeZoneError::InvalidLocalTimeTypeIndex => 65,
        TimeZoneError::InvalidTransition => 66,
        TimeZoneError::InvalidLeapSecond => 67,
        TimeZoneError::InconsistentExtraRule => 68,
        _ => unreachable!(),
    }
}

/// The code of bytes that are missing in a TZ string, or wrong.
fn string_bytes_code(error: ParseDataError) -> u32 {
    match error {
        ParseDataError::UnexpectedEof => 82,
        ParseDataError::InvalidData => 83,
        _ => unreachable!(),
    }
}

/// The code of digits that are missing, or whose number is too great.
fn number_code(error: &ParseIntError) -> u32 {
    match error.kind() {
        IntErrorKind::Empty => 81,
        _ => 93,
    }
}

/// The code of a text that is no TZ string.
pub(crate) fn string_code(error: &TzStringError) -> u32 {
    match error {
        TzStringError::Utf8(_) => 80,
        TzStringError::ParseInt(error) => number_code(error),
        TzStringError::ParseData(error) => string_bytes_code(*error),
        TzStringError::InvalidOffsetHour => 84,
        TzStringError::InvalidOffsetMinute => 85,
        TzStringError::InvalidOffsetSecond => 86,
        TzStringError::InvalidDayTimeHour => 87,
        TzStringError::InvalidDayTimeMinute => 88,
        TzStringError::InvalidDayTimeSecond => 89,
        TzStringError::MissingDstStartEndRules => 90,
        TzStringError::RemainingData => 91,
        TzStringError::Empty => 92,
        _ => unreachable!(),
    }
}

/// The code of bytes that are missing in a file, or wrong.
fn file_bytes_code(error: ParseDataError) -> u32 {
    match error {
        ParseDataError::UnexpectedEof => 113,
        ParseDataError::InvalidData => 114,
        _ => unreachable!(),
    }
}

/// The code of bytes that are no TZif file.
pub(crate) fn file_code(error: &TzFileError) -> u32 {
    match error {
        TzFileError::Utf8(_) => 112,
        TzFileError::ParseData(error) => file_bytes_code(*error),
        TzFileError::InvalidMagicNumber => 115,
        TzFileError::UnsupportedTzFileVersion => 116,
        TzFileError::InvalidHeader => 117,
        TzFileError::InvalidFooter => 118,
        TzFileError::InvalidDstIndicator => 119,
        TzFileError::InvalidTimeZoneDesignationCharIndex => 120,
        TzFileError::InvalidStdWallUtLocal => 121,
        TzFileError::RemainingDataV1 => 122,
        _ => unreachable!(),
    }
}

/// The code of an error.
pub(crate) fn code_of(error: &TzError) -> u32 {
    match error {
        TzError::TzFile(error) => file_code(error),
        TzError::TzString(error) => string_code(error),
        TzError::LocalTimeType(error) => type_code(*error),
        TzError::TransitionRule(error) => rule_code(*error),
        TzError::TimeZone(error) => zone_code(*error),
        TzError::DateTime(error) => fields_code(*error),
        TzError::OutOfRange => 1,
        TzError::NoAvailableLocalTimeType => 2,
        TzError::Memory(_) => 255,
        _ => unreachable!(),
    }
}

/// The text of a code. That of an error is what `Display` prints, without a position: a code has
/// none.
fn text_of(code: u32) -> Option<&'static str> {
    match code {
        0 => Some("no error"),
        1 => Some("out of range operation"),
        2 => Some("no local time type is available for the specified timestamp"),
        3 => Some("no rule is given"),
        4 => Some("the clock does not change"),
        5 => Some("the local time means no date time"),
        6 => Some("no TZ string denotes the rule"),
        7 => Some("the parts show no conflict"),
        8 => Some("a buffer has the wrong length"),
        9 => Some("unknown choice"),
        10 => Some("unknown code"),
        11 => Some("not a time zone name"),
        16 => Some("invalid date time: invalid month"),
        17 => Some("invalid date time: invalid month day"),
        18 => Some("invalid date time: invalid hour"),
        19 => Some("invalid date time: invalid minute"),
        20 => Some("invalid date time: invalid second"),
        21 => Some("invalid date time: invalid nanoseconds"),
        32 => Some(
            "invalid local time type: time zone designation must have between 3 and 7 characters",
        ),
        33 => Some("invalid local time type: invalid characters in time zone designation"),
        34 => Some("invalid local time type: invalid UTC offset"),
        48 => Some("invalid transition rule: invalid rule day julian day"),
        49 => Some("invalid transition rule: invalid rule day month"),
        50 => Some("invalid transition rule: invalid rule day week"),
        51 => Some("invalid transition rule: invalid rule day week day"),
        52 => Some("invalid transition rule: invalid standard time UTC offset"),
        53 => Some("invalid transition rule: invalid Daylight Saving Time UTC offset"),
        54 => Some("invalid transition rule: invalid DST start or end time"),
        55 => Some(
            "invalid transition rule: DST transition rules are not consistent from one year to another",
        ),
        64 => Some("invalid time zone: list of local time types must not be empty"),
        65 => Some("invalid time zone: invalid local time type index"),
        66 => Some("invalid time zone: invalid transition"),
        67 => Some("invalid time zone: invalid leap second"),
        68 => Some(
            "invalid time zone: extra transition rule is inconsistent with the last transition",
        ),
        80 => Some("invalid TZ string: invalid UTF-8"),
        81 => Some("invalid TZ string: cannot parse integer from empty string"),
        82 => Some("invalid TZ string: unexpected end of data"),
        83 => Some("invalid TZ string: invalid data"),
        84 => Some("invalid TZ string: invalid offset hour"),
        85 => Some("invalid TZ string: invalid offset minute"),
        86 => Some("invalid TZ string: invalid offset second"),
        87 => Some("invalid TZ string: invalid day time hour"),
        88 => Some("invalid TZ string: invalid day time minute"),
        89 => Some("invalid TZ string: invalid day time second"),
        90 => Some("invalid TZ string: missing DST start and end rules"),
        91 => Some("invalid TZ string: remaining data after parsing TZ string"),
        92 => Some("invalid TZ string: empty TZ string"),
        93 => Some("invalid TZ string: number too large to fit in target type"),
        112 => Some("invalid TZ file: invalid UTF-8"),
        113 => Some("invalid TZ file: unexpected end of data"),
        114 => Some("invalid TZ file: invalid data"),
        115 => Some("invalid TZ file: invalid magic number"),
        116 => Some("invalid TZ file: unsupported TZ file version"),
        117 => Some("invalid TZ file: invalid header"),
        118 => Some("invalid TZ file: invalid footer"),
        119 => Some("invalid TZ file: invalid DST indicator"),
        120 => Some("invalid TZ file: invalid time zone designation char index"),
        121 => Some("invalid TZ file: invalid couple of standard/wall and UT/local indicators"),
        122 => Some("invalid TZ file: remaining data after the end of a TZif v1 data block"),
        128 => Some("expected a year of four digits or more"),
        129 => Some("expected `-`"),
        130 => Some("expected a month from 01 to 12"),
        131 => Some("expected a day of the month"),
        132 => Some("expected `T` or a space"),
        133 => Some("expected an hour from 00 to 23"),
        134 => Some("expected `:`"),
        135 => Some("expected a minute from 00 to 59"),
        136 => Some("expected a second from 00 to 60"),
        137 => Some("expected a fraction of one to nine digits"),
        138 => Some("expected `Z`, the sign of an offset or the end"),
        139 => Some("expected the hours of an offset in two digits"),
        140 => Some("expected the minutes of an offset from 00 to 59"),
        141 => Some("expected the seconds of an offset from 00 to 59"),
        142 => Some("expected the end"),
        144 => Some("invalid pattern: invalid UTF-8"),
        145 => Some("invalid pattern: no conversion begins at a `%`"),
        146 => Some("invalid pattern: it prints more than 128 bytes"),
        147 => Some("the pattern prints date times of UTC alone"),
        148 => Some("the pattern has a conversion that is not read"),
        149 => Some("the pattern does not print the text"),
        255 => Some("no memory"),
        _ => None,
    }
}

/// What a code says.
#[inline(always)]
pub fn tz_error_text(code: u32, text: &mut [u8], len: &mut usize) -> u32 {
    match text_of(code) {
        Some(given) => write_text(given.as_bytes(), text, len),
        None => UNKNOWN_CODE,
    }
}

/// The number of the layout, and the sizes in the order of the header.
const LAYOUT: [usize; 20] = [
    2,
    size_of::<LocalTimeType>(),
    size_of::<DayData>(),
    size_of::<AlternateData>(),
    size_of::<RuleData>(),
    size_of::<ConflictData>(),
    size_of::<Transition>(),
    size_of::<LeapSecond>(),
    size_of::<PartsData<'static>>(),
    size_of::<OffsetsData>(),
    size_of::<TzZone<'static>>(),
    size_of::<Fields>(),
    size_of::<UtcData>(),
    size_of::<DateTimeData>(),
    size_of::<FoundData>(),
    size_of::<SegmentData>(),
    size_of::<ChangeData>(),
    size_of::<FileSizes>(),
    size_of::<SettingData>(),
    size_of::<ParsedData>(),
];

/// The number of the layout, and the sizes of the types that cross.
#[inline(always)]
pub fn tz_layout(out: &mut [usize]) -> u32 {
    if out.len() != LAYOUT.len() {
        return BUFFER_LENGTH;
    }
    out.copy_from_slice(&LAYOUT);
    OK
}

/// The number of the layout, TZ_ABI of the header. A program refers to the name, so that it is
/// neither linked nor loaded with a library of another layout.
#[inline(always)]
pub fn tz_abi_2() -> u32 {
    LAYOUT[0] as u32
}
