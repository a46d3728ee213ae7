// Tests from crates/tz_zone_tests/src/tz_strings/footers.rt by bindings/erase. Change that file instead.
//! The texts in the footers of the time zone database's files, and the rules that they denote.

use super::*;
use crate::erased::tz_samples::files::without_transitions;
use crate::erased::tz_samples::footers::{extended_footers, ordinary_footers};
use crate::kit::{self, format_in};
use tz::proved::tz_zone::timezone::TimeZone;

/// Whether a file of version 2 with the text in its footer is refused.
fn is_refused_by_version_2(alloc: Global, text: &str) -> Result<bool, AllocError> {
    let footer = format_in!(alloc; "\n{text}\n")?;
    let bytes = without_transitions(alloc, b'2', footer.as_bytes())?;
    Ok(TimeZone::from_tz_data(alloc, &bytes).is_err())
}

#[test]
fn footers_are_read() -> Result<(), Fail> {
    let rt = kit::HostRuntime;

    expect_rules(&rt, rt.alloc(), ordinary_footers(), false)?;
    expect_rules(&rt, rt.alloc(), ordinary_footers(), true)?;
    expect_rules(&rt, rt.alloc(), extended_footers(), true)
}

#[test]
fn version_2_refuses_extended_footers() -> Result<(), Fail> {
    let rt = kit::HostRuntime;

    for row in extended_footers().lines() {
        let (text, _) = parts_of(row)?;
        let is_refused = is_refused_by_version_2(rt.alloc(), text)?;
        assert!(is_refused, "{text}");
    }
    Ok(())
}
