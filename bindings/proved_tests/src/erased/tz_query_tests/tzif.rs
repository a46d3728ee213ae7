// Tests from crates/tz_query_tests/src/tzif.rt by bindings/erase. Change that file instead.
//! Answers over TZif files, by rows.

use crate::erased::tz_query_tests::expect::expect_eq_at;
use crate::erased::tz_query_tests::growths::{expect_answers_or_refusal, expect_growths};
use crate::erased::tz_samples::files::{JERUSALEM_V3, UTC_V1};
use crate::erased::tz_samples::refusing::Refusing;
use crate::kit::test::Fail;
use crate::kit::{self, String, format_in};
use crate::proved::tz_query::query::{answer, answer_tzif};
use tz::proved::tz::TimeZone;
use tz::shim::alloc::Global;

/// The answers, or the text of the refusal.
fn answered(alloc: Global, tz_bytes: &[u8], queries: &str) -> Result<String, Fail> {
    Ok(match answer_tzif(alloc, tz_bytes, queries.as_bytes()) {
        Ok(answers) => String::from_utf8(answers)?,
        Err(error) => format_in!(alloc; "refused: {error}")?,
    })
}

/// The first bytes, as many as the length says.
fn front(bytes: &[u8], length: usize) -> &[u8] {
    &bytes[..length.min(bytes.len())]
}

#[test]
fn a_file_s_zone_answers() -> Result<(), Fail> {
    let rt = kit::HostRuntime;

    const NO_FOOTER: &str = "refused: invalid TZ file: invalid footer";
    const CUT: &str = "refused: invalid TZ file: unexpected end of data";
    /// A file and its length up to a cut, queries, and their answers.
    static ROWS: [(&[u8], usize, &str, &str); 7] = [
        (
            UTC_V1,
            54,
            "T 0 0\n",
            "1970-01-01T00:00:00.000000000Z UTC\n",
        ),
        (
            JERUSALEM_V3,
            147,
            "T 2216073600 0\nT 2216073599 0",
            "2040-03-23T03:00:00.000000000+03:00 IDT\n2040-03-23T01:59:59.000000000+02:00 IST\n",
        ),
        (JERUSALEM_V3, 147, "T 0\n", "E Line\n"),
        (JERUSALEM_V3, 147, "", ""),
        // A file without a rule has no clock from its last transition on.
        (
            JERUSALEM_V3,
            120,
            "T 2145916799 0\nT 2145916800 0\n",
            "2038-01-01T01:59:59.000000000+02:00 IST\nE NoAvailableLocalTimeType\n",
        ),
        (JERUSALEM_V3, 119, "T 0 0\n", NO_FOOTER),
        (UTC_V1, 53, "T 0 0\n", CUT),
    ];
    let alloc = rt.alloc();
    for (file, length, queries, answers) in &ROWS {
        let given = answered(alloc, front(file, *length), queries)?;
        expect_eq_at(&rt, queries, &given.as_str(), answers);
    }
    Ok(())
}

/// Two lines over the file with a rule, and their answers.
const QUERIES: &[u8] = b"F 2040 3 23 2 30 0 0\nT 2216073600 0\n";

const ANSWERS: &[u8] = b"F 1\n\
      S 2040-03-23T02:00:00.000000000+02:00 IST 2040-03-23T03:00:00.000000000+03:00 IDT\n\
      2040-03-23T03:00:00.000000000+03:00 IDT\n";

#[test]
fn each_growth_of_a_file_s_answers_can_be_refused() {
    let rt = kit::HostRuntime;

    let mut growths = 0u64;
    for left in 0..20u64 {
        let heap = Refusing::new(rt.alloc(), left);
        let given = answer_tzif(&heap, JERUSALEM_V3, QUERIES);
        if expect_answers_or_refusal(&rt, left, &heap, given, ANSWERS) {
            growths = left + 1;
        }
    }
    expect_growths(&rt, growths, 4..20);
}

#[test]
fn each_growth_of_answers_can_be_refused() -> Result<(), Fail> {
    let rt = kit::HostRuntime;

    let zone = TimeZone::from_tz_data(rt.alloc(), JERUSALEM_V3)?;
    let same = zone.try_clone()?;
    let mut growths = 0u64;
    for left in 0..20u64 {
        let heap = Refusing::new(rt.alloc(), left);
        let given = answer(&heap, zone.as_ref(), QUERIES);
        if expect_answers_or_refusal(&rt, left, &heap, given, ANSWERS) {
            growths = left + 1;
        }
        expect_eq_at(&rt, &left, &zone, &same);
    }
    expect_growths(&rt, growths, 2..20);
    Ok(())
}
