// Tests from crates/tz_zone_tests/src/settings/names.rt by bindings/erase. Change that file instead.
//! Zones by their names: which files are asked for, and which names are refused before any is.

use super::{Files, files_of};
use crate::erased::tz_samples::refusing::Refusing;
use crate::erased::tz_zone_tests::expect::{expect_eq, expect_eq_at};
use crate::kit::process::Abort;
use crate::kit::test::Fail;
use crate::kit::{self, String, TextIn, format_in};
use tz::proved::tz_base::error::{Error, TzError};
use tz::proved::tz_zone::timezone::TimeZone;
use tz::shim::alloc::{Allocator, Global};

/// The zone of the name among these files, with the memory of this heap.
fn named<A: Allocator + Copy>(
    heap: A,
    files: &Files<'_>,
    name: &str,
) -> Result<TimeZone<A>, Error> {
    TimeZone::named(heap, |path: &str| files.read(path), name)
}

/// The text of the refusal, or that there is none.
fn refusal(alloc: Global, files: &Files<'_>, name: &str) -> Result<String, Fail> {
    match named(alloc, files, name) {
        Ok(_) => Ok(String::from_str(alloc, "accepted")?),
        Err(error) => Ok(format_in!(alloc; "{error}")?),
    }
}

#[test]
fn names_are_found_in_the_directories_in_turn() -> Result<(), Fail> {
    let rt = kit::HostRuntime;

    static ROWS: [(&str, &str, u64); 3] = [
        ("Europe/Paris", "/usr/share/zoneinfo/* UTC", 1),
        (
            "Etc/GMT+12",
            "/usr/share/zoneinfo/* none, /share/zoneinfo/* UTC",
            12,
        ),
        (
            "America/Argentina/Ushuaia",
            "/usr/share/zoneinfo/* none, /share/zoneinfo/* none, /etc/zoneinfo/* UTC, /etc/localtime UTC",
            123,
        ),
    ];
    for (name, files, asked) in &ROWS {
        let files = files.replace_in(rt.alloc(), "*", name)?;
        let files = files_of(rt.alloc(), &files);
        let zone = named(rt.alloc(), &files, name)?;
        expect_eq_at(&rt, name, &zone.as_ref().local_time_types().len(), &1);
        expect_eq_at(&rt, name, &files.asked.get(), asked);
    }
    Ok(())
}

/// The name is refused by these words and itself, after these files were asked for.
fn expect_refused(
    rt: &impl Abort,
    alloc: Global,
    name: &str,
    words: &str,
    asked: u64,
) -> Result<(), Fail> {
    let files = files_of(alloc, "/etc/localtime UTC");
    let wanted = format_in!(alloc; "{words}{name}")?;
    expect_eq_at(rt, &name, &refusal(alloc, &files, name)?, &wanted);
    expect_eq_at(rt, &name, &files.asked.get(), &asked);
    Ok(())
}

#[test]
fn a_name_is_no_tz_string_and_no_path() -> Result<(), Fail> {
    let rt = kit::HostRuntime;

    static NAMES: [&str; 5] = ["UTC0", "localtime", "Europe/Pariss", "...", "a/.b/..c"];
    for name in &NAMES {
        expect_refused(&rt, rt.alloc(), name, "no time zone has the name ", 999)?;
    }
    Ok(())
}

#[test]
fn what_is_no_name_asks_for_no_file() -> Result<(), Fail> {
    let rt = kit::HostRuntime;

    static NAMES: [&str; 12] = [
        "", "/", "../x", "a/../b", "a/..", "a/./b", ".", "a//b", "a/", "a b", "a\0b", "Zürich",
    ];
    static LONGER_NAMES: [&str; 5] = [
        "/etc/passwd",
        ":Europe/Paris",
        "Europe\\Paris",
        "Europe/Paris\n",
        "CET-1CEST,M3.5.0,M10.5.0",
    ];
    for name in NAMES.iter().chain(&LONGER_NAMES) {
        expect_refused(&rt, rt.alloc(), name, "not a time zone name: ", 0)?;
    }
    Ok(())
}

/// The name is refused by a text of 120 bytes that begins so, after these files were asked for.
fn expect_cut(
    rt: &impl Abort,
    alloc: Global,
    name: &str,
    begin: &str,
    asked: u64,
) -> Result<(), Fail> {
    let files = files_of(alloc, "nothing");
    let text = refusal(alloc, &files, name)?;
    assert!(text.as_str().starts_with(begin), "{text}");
    expect_eq(rt, &(text.len(), files.asked.get()), &(120, asked));
    Ok(())
}

#[test]
fn what_the_reader_returns_is_passed_on() -> Result<(), Fail> {
    let rt = kit::HostRuntime;

    static ROWS: [(&str, &str); 2] = [
        (
            "/usr/share/zoneinfo/x cut, /share/zoneinfo/x UTC",
            "invalid TZ file: unexpected end of data",
        ),
        (
            "/usr/share/zoneinfo/x memory, /share/zoneinfo/x UTC",
            "no memory",
        ),
    ];
    for (files, text) in &ROWS {
        let files = files_of(rt.alloc(), files);
        expect_eq_at(&rt, text, &refusal(rt.alloc(), &files, "x")?.as_str(), text);
        expect_eq_at(&rt, text, &files.asked.get(), &1);
    }
    Ok(())
}

/// A name whose path is longer than those that need no memory.
const LONG_NAME: &str =
    "xxxxxxxxxxxxxxxxxxxxxxxxxxxxxxxxxxxxxxxxxxxxxxxxxxxxxxxxxxxxxxxxxxxxxxxxxxxxxxxxxxxxxxxx";

/// Each allocation is refused in turn: the answer is an allocation failure or the zone, and the
/// zone once none is refused.
fn expect_zone(rt: &impl Abort, alloc: Global, name: &str) -> Result<(), Fail> {
    let text = format_in!(alloc; "/usr/share/zoneinfo/{name} UTC")?;
    let mut refusals = 0u64;
    for left in 0..20u64 {
        let heap = Refusing::new(alloc, left);
        let files = files_of(alloc, &text);
        match named(&heap, &files, name) {
            Ok(zone) => expect_eq_at(rt, &left, &zone.as_ref().local_time_types().len(), &1),
            Err(error) => {
                assert!(matches!(error, Error::Tz(TzError::Memory(_))), "{left}");
                refusals = left + 1;
            }
        }
        expect_eq_at(rt, &left, &(heap.refused() > 0), &(left < refusals));
        expect_eq_at(rt, &left, &heap.held(), &0);
    }
    assert!(refusals > 0 && refusals < 20, "{name}");
    Ok(())
}

#[test]
fn each_allocation_can_be_refused() -> Result<(), Fail> {
    let rt = kit::HostRuntime;

    let alloc = rt.alloc();
    expect_zone(&rt, alloc, "Etc/UTC")?;
    expect_zone(&rt, alloc, LONG_NAME)
}
