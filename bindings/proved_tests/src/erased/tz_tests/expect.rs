// Tests from crates/tz_tests/src/expect.rt by bindings/erase. Change that file instead.
//! Comparisons of tests. The proof of a test walks through each `assert_eq!` where it is written
//! out, and through a call of these much faster.

use crate::kit::format_in;
use crate::kit::process::Abort;
use std::fmt::Debug;
use tz::shim::alloc::{AllocError, Global};

/// The values are equal.
pub(crate) fn expect_eq<T: Debug + PartialEq>(rt: &impl Abort, found: &T, wanted: &T) {
    assert_eq!(*found, *wanted);
}

/// The value is shown to programmers as the text.
pub(crate) fn expect_debug(
    rt: &impl Abort,
    alloc: Global,
    value: &impl Debug,
    text: &str,
) -> Result<(), AllocError> {
    let printed = format_in!(alloc; "{value:?}")?;
    expect_eq(rt, &printed.as_str(), &text);
    Ok(())
}
