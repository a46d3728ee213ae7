// Tests from crates/tz_tests/src/memory.rt by bindings/erase. Change that file instead.
//! Printed date times with each growth refused in turn.

use crate::erased::tz_samples::refusing::Refusing;
use crate::erased::tz_tests::expect::expect_eq;
use crate::kit::process::Abort;
use crate::kit::test::Fail;
use crate::kit::{self, PrintedIn, String, Vec};
use tz::proved::tz::{Error, TzError, UtcDateTime};
use tz::shim::alloc::{Allocator, Global};

/// The printed date times. A text that is not made and one that finds no room in the list are the
/// same refusal.
fn printed_list<A: Allocator + Copy>(
    alloc: A,
    date_times: &[UtcDateTime],
) -> Result<Vec<String<A>, A>, Error> {
    let mut texts = Vec::new(alloc);
    for date_time in date_times {
        texts.push(date_time.to_string_in(alloc)?)?;
    }
    Ok(texts)
}

/// Date times are printed, or no memory is left where a growth was refused. Says whether one was.
fn is_refused(rt: &impl Abort, alloc: Global, left: u64, date_times: &[UtcDateTime]) -> bool {
    let heap = Refusing::new(alloc, left);
    let refused = match printed_list(&heap, date_times) {
        Ok(texts) => {
            expect_eq(rt, &texts.len(), &date_times.len());
            false
        }
        Err(error) => {
            assert!(
                matches!(error, Error::Tz(TzError::Memory(_))),
                "after {left}"
            );
            true
        }
    };
    expect_eq(rt, &(heap.refused(), heap.held()), &(u64::from(refused), 0));
    refused
}

#[test]
fn texts_or_no_memory() -> Result<(), Fail> {
    let rt = kit::HostRuntime;

    let date_times = [
        UtcDateTime::new(2000, 1, 1, 0, 0, 0, 0)?,
        UtcDateTime::new(-1, 2, 28, 23, 59, 60, 999_999_999)?,
    ];
    let mut growths = 0u64;
    for left in 0..16u64 {
        if is_refused(&rt, rt.alloc(), left, &date_times) {
            growths = left + 1;
        }
    }
    assert!(3 <= growths && growths < 16, "{growths}");
    Ok(())
}
