// Tests from crates/tz_query_tests/src/large.rt by bindings/erase. Change that file instead.
//! Two megabytes of queries, and one of answers: no proof says that there is memory for them.

use crate::erased::tz_query_tests::expect::expect_eq;
use crate::kit::test::Fail;
use crate::kit::{self, Vec};
use crate::proved::tz_query::query::{answer, run};
use tz::proved::tz::TimeZoneRef;
use tz::shim::alloc::{AllocError, Global};

/// A line whose answer has nearly ten thousand bytes.
const MEETING: &[u8] = b"W 255 2000 10 15 2 30 0 0\n";

/// Bytes, as often as this.
fn repeated(alloc: Global, bytes: &[u8], times: u16) -> Result<Vec<u8>, AllocError> {
    let mut all = Vec::new(alloc);
    for _ in 0..times {
        all.extend_from_slice(bytes)?;
    }
    Ok(all)
}

#[test]
fn megabytes_are_answered() -> Result<(), Fail> {
    let rt = kit::HostRuntime;

    let zone = TimeZoneRef::utc();
    let of_meeting = answer(rt.alloc(), zone, MEETING)?;
    assert!(of_meeting.len() > 9_000);
    let mut queries = repeated(rt.alloc(), MEETING, 150)?;
    queries.extend_from_slice(&repeated(rt.alloc(), &[b'x'; 1000], 2000)?)?;
    assert!(queries.len() > 2_000_001);
    let mut answers = repeated(rt.alloc(), &of_meeting, 150)?;
    answers.extend_from_slice(b"E Line\n")?;
    assert!(answers.len() > 1_300_000);
    let found = answer(rt.alloc(), zone, &queries)?;
    expect_eq(&rt, &(found == answers), &true);
    let (mut input, mut out) = (queries.as_slice(), Vec::new(rt.alloc()));
    expect_eq(
        &rt,
        &run(rt.alloc(), zone, &mut input, &mut out).is_ok(),
        &true,
    );
    expect_eq(&rt, &(out == answers), &true);
    Ok(())
}
