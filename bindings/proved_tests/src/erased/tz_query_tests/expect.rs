// Tests from crates/tz_query_tests/src/expect.rt by bindings/erase. Change that file instead.
//! Comparisons of tests. The proof of a test walks through each `assert_eq!` where it is written
//! out, and through a call of these much faster.

use crate::erased::tz_samples::tz_strings::central_europe_zone;
use crate::erased::tz_samples::zones::{ZoneRow, zone_of};
use crate::kit::String;
use crate::kit::process::Abort;
use crate::kit::test::Fail;
use crate::proved::tz_query::query::answer;
use std::fmt::Debug;
use tz::proved::tz::TimeZoneRef;
use tz::shim::alloc::{AllocError, Global};

/// The values are equal.
pub(crate) fn expect_eq<T: Debug + PartialEq>(rt: &impl Abort, found: &T, wanted: &T) {
    assert_eq!(*found, *wanted);
}

/// The values at a place of a table are equal.
pub(crate) fn expect_eq_at<T: Debug + PartialEq>(
    rt: &impl Abort,
    place: &impl Debug,
    found: &T,
    wanted: &T,
) {
    assert_eq!(*found, *wanted, "{place:?}");
}

/// Adds a line and its LF.
fn push_line(text: &mut String, line: &str) -> Result<(), AllocError> {
    text.push_str(line)?;
    text.push('\n')
}

/// Adds the line before ` | ` of a row to the queries, and those after it, which `, ` separates, to
/// the answers.
fn push_row(queries: &mut String, answers: &mut String, row: &str) -> Result<(), Fail> {
    let (query, lines) = row.split_once(" | ").ok_or("no ` | ` in a row")?;
    push_line(queries, query)?;
    for line in lines.split(", ") {
        push_line(answers, line)?;
    }
    Ok(())
}

/// The queries of the rows have the answers of the rows.
pub(crate) fn expect_rows(
    rt: &impl Abort,
    alloc: Global,
    zone: TimeZoneRef<'_>,
    rows: &str,
) -> Result<(), Fail> {
    let (mut queries, mut answers) = (String::new(alloc), String::new(alloc));
    for row in rows.lines() {
        push_row(&mut queries, &mut answers, row)?;
    }
    let found = answer(alloc, zone, queries.as_bytes())?;
    expect_eq(rt, &found.as_slice(), &answers.as_bytes());
    Ok(())
}

/// They have them over the zone of Central Europe.
pub(crate) fn expect_rows_in_central_europe(
    rt: &impl Abort,
    alloc: Global,
    rows: &str,
) -> Result<(), Fail> {
    let zone = central_europe_zone(alloc)?;
    expect_rows(rt, alloc, zone.as_ref(), rows)
}

/// They have them over the zone of a row.
pub(crate) fn expect_rows_by_parts(
    rt: &impl Abort,
    alloc: Global,
    row: &ZoneRow,
    rows: &str,
) -> Result<(), Fail> {
    let zone = zone_of(alloc, row)?;
    expect_rows(rt, alloc, zone.as_ref(), rows)
}
