// Tests from crates/tz_query_tests/src/growths.rt by bindings/erase. Change that file instead.
//! Answers with memory where each growth is refused in turn.

use crate::erased::tz_query_tests::expect::expect_eq_at;
use crate::erased::tz_samples::refusing::Refusing;
use crate::kit::Vec;
use crate::kit::process::Abort;
use crate::proved::tz_query::query::answer;
use std::ops::Range;
use tz::proved::tz::{TimeZoneRef, TzError};
use tz::shim::alloc::Global;

/// The memory refused one growth or none, and holds nothing.
pub(crate) fn expect_refusal(rt: &impl Abort, left: u64, heap: &Refusing<Global>, refused: bool) {
    expect_eq_at(
        rt,
        &left,
        &(heap.refused(), heap.held()),
        &(u64::from(refused), 0),
    );
}

/// Queries have these answers, or no memory where a growth was refused. Says whether one was.
pub(crate) fn expect_answers_or_refusal(
    rt: &impl Abort,
    left: u64,
    heap: &Refusing<Global>,
    given: Result<Vec<u8, &Refusing<Global>>, TzError>,
    answers: &[u8],
) -> bool {
    let refused = match given {
        Ok(found) => {
            expect_eq_at(rt, &left, &found.as_slice(), &answers);
            false
        }
        Err(error) => {
            assert!(matches!(error, TzError::Memory(_)), "after {left}");
            true
        }
    };
    expect_refusal(rt, left, heap, refused);
    refused
}

/// The number of growths lies in this range.
pub(crate) fn expect_growths(rt: &impl Abort, growths: u64, wanted: Range<u64>) {
    assert!(wanted.contains(&growths), "{growths} growths");
}

/// Queries over a zone need as many growths as lie in this range, and have no memory with fewer.
pub(crate) fn expect_each_growth_can_be_refused(
    rt: &impl Abort,
    alloc: Global,
    zone: TimeZoneRef<'_>,
    queries: &[u8],
    answers: &[u8],
    wanted: Range<u64>,
) {
    let mut growths = 0u64;
    for left in 0..wanted.end {
        let heap = Refusing::new(alloc, left);
        let given = answer(&heap, zone, queries);
        if expect_answers_or_refusal(rt, left, &heap, given, answers) {
            growths = left + 1;
        }
    }
    expect_growths(rt, growths, wanted);
}
