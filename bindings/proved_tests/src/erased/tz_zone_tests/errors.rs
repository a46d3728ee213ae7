// Tests from crates/tz_zone_tests/src/errors.rt by bindings/erase. Change that file instead.
//! The texts of the errors, and what `?` makes of them.

use crate::erased::tz_zone_tests::expect::expect_eq;
use crate::kit::process::Abort;
use crate::kit::test::Fail;
use crate::kit::{self, format_in};
use std::fmt::Display;
use tz::proved::tz_base::error::DateTimeError::{
    InvalidHour, InvalidMinute, InvalidMonth, InvalidMonthDay, InvalidNanoseconds, InvalidSecond,
};
use tz::proved::tz_base::error::LocalTimeTypeError::{
    InvalidTimeZoneDesignationChar, InvalidTimeZoneDesignationLength, InvalidUtcOffset,
};
use tz::proved::tz_base::error::TimeZoneError::{
    InconsistentExtraRule, InvalidLeapSecond, InvalidLocalTimeTypeIndex, InvalidTransition,
    NoLocalTimeType,
};
use tz::proved::tz_base::error::TransitionRuleError::{
    InconsistentRule, InvalidDstStartEndTime, InvalidDstUtcOffset, InvalidRuleDayJulianDay,
    InvalidRuleDayMonth, InvalidRuleDayWeek, InvalidRuleDayWeekDay, InvalidStdUtcOffset,
};
use tz::proved::tz_base::error::TzFileError::{
    InvalidDstIndicator, InvalidFooter, InvalidHeader, InvalidMagicNumber, InvalidStdWallUtLocal,
    InvalidTimeZoneDesignationCharIndex, RemainingDataV1, UnsupportedTzFileVersion,
};
use tz::proved::tz_base::error::TzStringError::{
    Empty, InvalidDayTimeHour, InvalidDayTimeMinute, InvalidDayTimeSecond, InvalidOffsetHour,
    InvalidOffsetMinute, InvalidOffsetSecond, MissingDstStartEndRules, RemainingData,
};
use tz::proved::tz_base::error::{
    DateTimeError, Error, LocalTimeTypeError, ParseDataError, ReadFault, TimeZoneError,
    TransitionRuleError, TzError, TzFileError, TzStringError,
};
use tz::shim::alloc::{AllocError, Global};

/// The error prints as the text.
fn expect_text(
    rt: &impl Abort,
    alloc: Global,
    error: &impl Display,
    text: &str,
) -> Result<(), AllocError> {
    let printed = format_in!(alloc; "{error}")?;
    expect_eq(rt, &printed.as_str(), &text);
    Ok(())
}

/// Each error prints as its text.
fn expect_texts<E: Display>(
    rt: &impl Abort,
    alloc: Global,
    texts: &[(E, &str)],
) -> Result<(), AllocError> {
    for (error, text) in texts {
        expect_text(rt, alloc, error, text)?;
    }
    Ok(())
}

/// The error prints as the one it was made of.
fn expect_same_text(
    rt: &impl Abort,
    alloc: Global,
    error: &impl Display,
    part: &impl Display,
) -> Result<(), AllocError> {
    let text = format_in!(alloc; "{part}")?;
    expect_text(rt, alloc, error, text.as_str())
}

/// An error of bytes that are no text, and the ones made of it, print the same.
fn expect_utf8_text(rt: &impl Abort, alloc: Global) -> Result<(), Fail> {
    let error = std::str::from_utf8(&[255]).err().ok_or("255 is no text")?;
    expect_same_text(rt, alloc, &TzStringError::from(error), &error)?;
    expect_same_text(rt, alloc, &TzFileError::from(error), &error)?;
    Ok(())
}

/// An error of numbers, and the one made of it, print the same.
fn expect_number_text(rt: &impl Abort, alloc: Global) -> Result<(), Fail> {
    let error = "".parse::<u8>().err().ok_or("no digits are no number")?;
    let text = format_in!(alloc; "{error}")?;
    expect_text(rt, alloc, &TzStringError::from(error), text.as_str())?;
    Ok(())
}

/// An error of the data, and the errors of the readers made of it, print as the text.
fn expect_data_text(
    rt: &impl Abort,
    alloc: Global,
    error: ParseDataError,
    text: &str,
) -> Result<(), AllocError> {
    expect_text(rt, alloc, &error, text)?;
    expect_text(rt, alloc, &TzStringError::from(error), text)?;
    expect_text(rt, alloc, &TzFileError::from(error), text)
}

#[test]
fn part_errors_have_their_texts() -> Result<(), Fail> {
    let rt = kit::HostRuntime;

    static DATE_TIME_TEXTS: [(DateTimeError, &str); 6] = [
        (InvalidMonth, "invalid month"),
        (InvalidMonthDay, "invalid month day"),
        (InvalidHour, "invalid hour"),
        (InvalidMinute, "invalid minute"),
        (InvalidSecond, "invalid second"),
        (InvalidNanoseconds, "invalid nanoseconds"),
    ];
    static TYPE_TEXTS: [(LocalTimeTypeError, &str); 3] = [
        (
            InvalidTimeZoneDesignationLength,
            "time zone designation must have between 3 and 7 characters",
        ),
        (
            InvalidTimeZoneDesignationChar,
            "invalid characters in time zone designation",
        ),
        (InvalidUtcOffset, "invalid UTC offset"),
    ];
    static RULE_TEXTS: [(TransitionRuleError, &str); 8] = [
        (InvalidRuleDayJulianDay, "invalid rule day julian day"),
        (InvalidRuleDayMonth, "invalid rule day month"),
        (InvalidRuleDayWeek, "invalid rule day week"),
        (InvalidRuleDayWeekDay, "invalid rule day week day"),
        (InvalidStdUtcOffset, "invalid standard time UTC offset"),
        (
            InvalidDstUtcOffset,
            "invalid Daylight Saving Time UTC offset",
        ),
        (InvalidDstStartEndTime, "invalid DST start or end time"),
        (
            InconsistentRule,
            "DST transition rules are not consistent from one year to another",
        ),
    ];
    static ZONE_TEXTS: [(TimeZoneError, &str); 5] = [
        (
            NoLocalTimeType,
            "list of local time types must not be empty",
        ),
        (InvalidLocalTimeTypeIndex, "invalid local time type index"),
        (InvalidTransition, "invalid transition"),
        (InvalidLeapSecond, "invalid leap second"),
        (
            InconsistentExtraRule,
            "extra transition rule is inconsistent with the last transition",
        ),
    ];
    let alloc = rt.alloc();
    expect_texts(&rt, alloc, &DATE_TIME_TEXTS)?;
    expect_texts(&rt, alloc, &TYPE_TEXTS)?;
    expect_texts(&rt, alloc, &RULE_TEXTS)?;
    expect_texts(&rt, alloc, &ZONE_TEXTS)?;
    Ok(())
}

/// The errors of strings that are not made of others, and their texts.
static STRING_TEXTS: [(TzStringError, &str); 9] = [
    (InvalidOffsetHour, "invalid offset hour"),
    (InvalidOffsetMinute, "invalid offset minute"),
    (InvalidOffsetSecond, "invalid offset second"),
    (InvalidDayTimeHour, "invalid day time hour"),
    (InvalidDayTimeMinute, "invalid day time minute"),
    (InvalidDayTimeSecond, "invalid day time second"),
    (MissingDstStartEndRules, "missing DST start and end rules"),
    (RemainingData, "remaining data after parsing TZ string"),
    (Empty, "empty TZ string"),
];

/// The errors of files that are not made of others, and their texts.
static FILE_TEXTS: [(TzFileError, &str); 8] = [
    (InvalidMagicNumber, "invalid magic number"),
    (UnsupportedTzFileVersion, "unsupported TZ file version"),
    (InvalidHeader, "invalid header"),
    (InvalidFooter, "invalid footer"),
    (InvalidDstIndicator, "invalid DST indicator"),
    (
        InvalidTimeZoneDesignationCharIndex,
        "invalid time zone designation char index",
    ),
    (
        InvalidStdWallUtLocal,
        "invalid couple of standard/wall and UT/local indicators",
    ),
    (
        RemainingDataV1,
        "remaining data after the end of a TZif v1 data block",
    ),
];

#[test]
fn reader_errors_have_their_texts() -> Result<(), Fail> {
    let rt = kit::HostRuntime;

    let alloc = rt.alloc();
    let eof = ParseDataError::UnexpectedEof;
    expect_data_text(&rt, alloc, eof, "unexpected end of data")?;
    expect_data_text(&rt, alloc, ParseDataError::InvalidData, "invalid data")?;

    expect_utf8_text(&rt, alloc)?;
    expect_number_text(&rt, alloc)?;

    expect_texts(&rt, alloc, &STRING_TEXTS)?;
    expect_texts(&rt, alloc, &FILE_TEXTS)?;
    Ok(())
}

/// The errors of programs that read files themselves print as the ones they were made of.
fn expect_read_texts(rt: &impl Abort, alloc: Global) -> Result<(), AllocError> {
    let errors = [
        (Error::from(TzError::OutOfRange), "out of range operation"),
        (
            Error::Io(crate::kit::anyhow!("no such file")),
            "no such file",
        ),
    ];
    expect_texts(rt, alloc, &errors)?;
    let faults = [
        (ReadFault::from(AllocError), "no memory"),
        (
            ReadFault::Failed(crate::kit::anyhow!("no such file")),
            "no such file",
        ),
    ];
    expect_texts(rt, alloc, &faults)
}

#[test]
fn whole_errors_have_their_texts() -> Result<(), Fail> {
    let rt = kit::HostRuntime;

    let alloc = rt.alloc();
    let texts = [
        (
            TzError::from(InvalidFooter),
            "invalid TZ file: invalid footer",
        ),
        (TzError::from(Empty), "invalid TZ string: empty TZ string"),
        (
            TzError::from(InvalidUtcOffset),
            "invalid local time type: invalid UTC offset",
        ),
        (
            TzError::from(InvalidRuleDayWeek),
            "invalid transition rule: invalid rule day week",
        ),
        (
            TzError::from(InvalidTransition),
            "invalid time zone: invalid transition",
        ),
        (
            TzError::from(InvalidMonth),
            "invalid date time: invalid month",
        ),
        (TzError::OutOfRange, "out of range operation"),
        (
            TzError::NoAvailableLocalTimeType,
            "no local time type is available for the specified timestamp",
        ),
        (TzError::from(AllocError), "no memory"),
    ];
    expect_texts(&rt, alloc, &texts)?;
    expect_read_texts(&rt, alloc)?;
    Ok(())
}
