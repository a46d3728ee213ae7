// Generated from crates/tz_query/src/query/fault_names.rt by bindings/erase: its contracts are cut. Change that file instead.
//! The names of errors in answers.

use tz::proved::tz::TzError;
use tz::proved::tz::error::datetime::DateTimeError;

/// The name of an error in fields.
pub(super) fn field_fault_name(fault: &DateTimeError) -> &'static str {
    match fault {
        DateTimeError::InvalidMonth => "InvalidMonth",
        DateTimeError::InvalidMonthDay => "InvalidMonthDay",
        DateTimeError::InvalidHour => "InvalidHour",
        DateTimeError::InvalidMinute => "InvalidMinute",
        DateTimeError::InvalidSecond => "InvalidSecond",
        DateTimeError::InvalidNanoseconds => "InvalidNanoseconds",
        _ => unreachable!(),
    }
}

/// The name of an error, as in an answer.
pub(super) fn fault_name(error: &TzError) -> &'static str {
    match error {
        TzError::DateTime(fault) => field_fault_name(fault),
        TzError::OutOfRange => "OutOfRange",
        TzError::NoAvailableLocalTimeType => "NoAvailableLocalTimeType",
        _ => unreachable!(),
    }
}
