// Tests from crates/tz_samples/src/faults.rt by bindings/erase. Change that file instead.
//! Refusals that can be compared.

use tz::proved::tz_base::error::{
    Error, LocalTimeTypeError, TimeZoneError, TransitionRuleError, TzError, TzFileError,
    TzStringError,
};

/// A refusal that can be compared.
#[derive(Debug, PartialEq, Eq)]
pub enum Fault {
    File(TzFileError),
    Number,
    Text(TzStringError),
    Type(LocalTimeTypeError),
    Rule(TransitionRuleError),
    Zone(TimeZoneError),
    NoType,
    OutOfRange,
    Memory,
    Io,
    Other,
}

/// The refusal, to be compared.
pub fn named(error: TzError) -> Fault {
    match error {
        TzError::TzFile(part) => Fault::File(part),
        TzError::TzString(TzStringError::ParseInt(_)) => Fault::Number,
        TzError::TzString(part) => Fault::Text(part),
        TzError::LocalTimeType(part) => Fault::Type(part),
        TzError::TransitionRule(part) => Fault::Rule(part),
        TzError::TimeZone(part) => Fault::Zone(part),
        TzError::NoAvailableLocalTimeType => Fault::NoType,
        TzError::OutOfRange => Fault::OutOfRange,
        TzError::Memory(_) => Fault::Memory,
        _ => Fault::Other,
    }
}

/// The refusal of the settings, to be compared.
pub fn named_by_settings(error: Error) -> Fault {
    match error {
        Error::Io(_) => Fault::Io,
        Error::Tz(error) => named(error),
        _ => unreachable!(),
    }
}
