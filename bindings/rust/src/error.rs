//! The errors of all calls. [`TzError`] has a variant for each kind, and [`Error`] also those of files.
//!
//! Errors of parts are in modules: of fields in [`datetime`](mod@datetime), of TZif files and TZ strings in [`parse`], of zones, rules and types in
//! [`timezone`](mod@timezone).

#[cfg(feature = "alloc")]
pub use crate::proved::tz_base::error::ReadFault;
pub use crate::proved::tz_base::error::{Error, TzError, datetime, parse, timezone};
pub use crate::shim::alloc::AllocError;

use core::{error, fmt};

impl<T: Into<TzError>> From<T> for Error {
    fn from(error: T) -> Self {
        Error::Tz(error.into())
    }
}

/// Why a call over whole columns failed.
#[derive(Debug)]
pub enum ColumnError {
    /// The columns differ in length. Nothing is written.
    UnequalLengths,
    /// A place has no answer, and the places before it have one.
    At {
        /// The first place that has none.
        place: usize,
        /// The error there.
        error: TzError,
    },
}

impl fmt::Display for ColumnError {
    fn fmt(&self, f: &mut fmt::Formatter<'_>) -> fmt::Result {
        match self {
            ColumnError::UnequalLengths => f.write_str("columns of unequal lengths"),
            ColumnError::At { place, error } => write!(f, "at place {place}: {error}"),
        }
    }
}

impl error::Error for ColumnError {
    fn source(&self) -> Option<&(dyn error::Error + 'static)> {
        match self {
            ColumnError::UnequalLengths => None,
            ColumnError::At { error, .. } => Some(error),
        }
    }
}
