// Tests from crates/tz_query_tests/src/streams.rt by bindings/erase. Change that file instead.
//! Runs over streams that fail and with memory that is refused, by rows.

use crate::erased::tz_query_tests::expect::{expect_eq, expect_eq_at};
use crate::erased::tz_query_tests::failing::{FailingReader, FailingWriter, InterruptedReader};
use crate::erased::tz_query_tests::growths::{expect_growths, expect_refusal};
use crate::erased::tz_samples::refusing::Refusing;
use crate::erased::tz_samples::tz_strings::central_europe_zone;
use crate::kit::process::Abort;
use crate::kit::test::Fail;
use crate::kit::{self, String, Vec, format_in};
use crate::proved::tz_query::query::{RunFault, run};
use tz::proved::tz::TimeZoneRef;
use tz::shim::alloc::Global;

/// Two lines, the second without an end.
const QUERIES: &[u8] = b"T 0 0\nF 2000 10 29 2 30 0 0";

/// The answers of these queries over the zone of Central Europe.
const ANSWERS: &str = "1970-01-01T01:00:00.000000000+01:00 CET\n\
                       F 2\n\
                       N 2000-10-29T02:30:00.000000000+02:00 CEST\n\
                       N 2000-10-29T02:30:00.000000000+01:00 CET\n";

/// The name of what a run answers.
fn name(answer: &Result<(), RunFault>) -> &'static str {
    match answer {
        Ok(()) => "Ok",
        Err(RunFault::Read) => "Read",
        Err(RunFault::Memory) => "Memory",
        Err(RunFault::Write) => "Write",
    }
}

/// What a run returns with a reader and a writer that fail after a number of calls, and what the
/// writer holds then, after `|`.
fn outcome(alloc: Global, reads: u8, writes: u8, piece: usize) -> Result<String, Fail> {
    let zone = central_europe_zone(alloc)?;
    let mut input = FailingReader {
        bytes: QUERIES,
        calls: reads,
    };
    let mut out = FailingWriter {
        bytes: Vec::new(alloc),
        piece,
        calls: writes,
    };
    let answer = run(alloc, zone.as_ref(), &mut input, &mut out);
    let written = String::from_utf8(out.bytes)?;
    Ok(format_in!(alloc; "{}|{written}", name(&answer))?)
}

#[test]
fn all_answers_are_written_whatever_a_write_takes() -> Result<(), Fail> {
    let rt = kit::HostRuntime;

    static PIECES: [usize; 5] = [1, 5, 10, 127, usize::MAX];
    let want = format_in!(rt.alloc(); "Ok|{ANSWERS}")?;
    for piece in &PIECES {
        let found = outcome(rt.alloc(), 2, u8::MAX, *piece)?;
        expect_eq_at(&rt, piece, &found.as_str(), &want.as_str());
    }
    Ok(())
}

#[test]
fn a_failed_read_writes_nothing() -> Result<(), Fail> {
    let rt = kit::HostRuntime;

    for reads in [0, 1] {
        let found = outcome(rt.alloc(), reads, u8::MAX, usize::MAX)?;
        expect_eq_at(&rt, &reads, &found.as_str(), &"Read|");
    }
    Ok(())
}

/// A read that is interrupted has failed, though the next one would read.
#[test]
fn an_interrupted_read_writes_nothing() -> Result<(), Fail> {
    let rt = kit::HostRuntime;

    let zone = central_europe_zone(rt.alloc())?;
    let mut input = InterruptedReader {
        bytes: QUERIES,
        interruptions: 1,
    };
    let mut out = Vec::new(rt.alloc());
    let answer = run(rt.alloc(), zone.as_ref(), &mut input, &mut out);
    expect_eq(&rt, &name(&answer), &"Read");
    assert!(out.is_empty());
    Ok(())
}

/// A run whose writer fails after a number of pieces leaves a front of the answers of this length.
fn expect_front(
    rt: &impl Abort,
    alloc: Global,
    writes: u8,
    piece: usize,
    length: usize,
) -> Result<(), Fail> {
    let found = outcome(alloc, u8::MAX, writes, piece)?;
    let want = format_in!(alloc; "Write|{}", ANSWERS.get(..length).unwrap_or(""))?;
    expect_eq_at(rt, &piece, &found.as_str(), &want.as_str());
    Ok(())
}

#[test]
fn a_failed_write_leaves_a_front() -> Result<(), Fail> {
    let rt = kit::HostRuntime;

    /// After how many writes of what piece the writer fails, and the length of the front.
    static ROWS: [(u8, usize, usize); 4] =
        [(0, usize::MAX, 0), (1, 10, 10), (3, 10, 30), (9, 0, 0)];
    for (writes, piece, length) in &ROWS {
        expect_front(&rt, rt.alloc(), *writes, *piece, *length)?;
    }
    Ok(())
}

/// A run where a number of growths are granted and each later one is refused writes all answers, or
/// is out of memory and writes none. Says whether a growth was refused.
fn run_is_refused(rt: &impl Abort, alloc: Global, zone: TimeZoneRef<'_>, left: u64) -> bool {
    let heap = Refusing::new(alloc, left);
    let mut input = QUERIES;
    let mut out = Vec::new(alloc);
    let answer = run(&heap, zone, &mut input, &mut out);
    let refused = answer.is_err();
    let (outcome, written) = if refused {
        ("Memory", "")
    } else {
        ("Ok", ANSWERS)
    };
    expect_eq_at(rt, &left, &name(&answer), &outcome);
    expect_eq_at(rt, &left, &out.as_slice(), &written.as_bytes());
    expect_refusal(rt, left, &heap, refused);
    refused
}

#[test]
fn each_growth_can_be_refused() -> Result<(), Fail> {
    let rt = kit::HostRuntime;

    let zone = central_europe_zone(rt.alloc())?;
    let same = central_europe_zone(rt.alloc())?;
    let mut growths = 0u64;
    for left in 0..20u64 {
        if run_is_refused(&rt, rt.alloc(), zone.as_ref(), left) {
            growths = left + 1;
        }
        expect_eq_at(&rt, &left, &zone, &same);
    }
    expect_growths(&rt, growths, 3..20);
    Ok(())
}

#[test]
fn faults_have_the_program_s_words() -> Result<(), Fail> {
    let rt = kit::HostRuntime;

    static ROWS: [(RunFault, &str); 3] = [
        (RunFault::Read, "cannot read queries"),
        (RunFault::Memory, "no memory"),
        (RunFault::Write, "cannot write answers"),
    ];
    for (fault, text) in &ROWS {
        expect_eq(&rt, &format_in!(rt.alloc(); "{fault}")?.as_str(), text);
    }
    Ok(())
}
