// Tests from crates/tz_civil_tests/src/expect.rt by bindings/erase. Change that file instead.
//! Comparisons of tests. The proof of a test walks through each `assert_eq!` where it is written
//! out, and through a call of these much faster.

use crate::kit::process::Abort;
use std::fmt::Debug;

/// The values are equal.
pub(crate) fn expect_eq<T: Debug + PartialEq>(rt: &impl Abort, found: &T, wanted: &T) {
    assert_eq!(*found, *wanted);
}
