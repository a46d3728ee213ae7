// Tests from crates/tz_zone_tests/src/files/failing.rt by bindings/erase. Change that file instead.
//! The reader of files, over readers in memory that fail.

use crate::erased::tz_samples::refusing::Refusing;
use crate::erased::tz_zone_tests::expect::expect_eq_at;
use crate::kit::process::Abort;
use crate::kit::test::Fail;
use crate::kit::{self, String, Vec, format_in};
use std::io::{self, Read};
use tz::proved::tz_base::error::ReadFault;
use tz::proved::tz_zone::inner::read_to_end;
use tz::proved::tz_zone::timezone::read_up_to;
use tz::shim::alloc::{Allocator, Global};

/// A reader over bytes, which gives ten of them at most at once and fails when it was called a
/// number of times.
struct Input<'a> {
    rest: &'a [u8],
    calls_left: u64,
}

impl Read for Input<'_> {
    fn read(&mut self, buf: &mut [u8]) -> io::Result<usize> {
        let Some(left) = self.calls_left.checked_sub(1) else {
            return Err(io::Error::other("the disk is gone"));
        };
        self.calls_left = left;
        let count = self.rest.len().min(buf.len()).min(10);
        buf[..count].copy_from_slice(&self.rest[..count]);
        self.rest = &self.rest[count..];
        Ok(count)
    }
}

/// What was read, or the name of the fault.
fn named<A: Allocator>(alloc: Global, read: Result<Vec<u8, A>, ReadFault>) -> Result<String, Fail> {
    Ok(match read {
        Ok(bytes) => String::from_str(alloc, std::str::from_utf8(&bytes)?)?,
        Err(ReadFault::Memory(_)) => String::from_str(alloc, "no memory")?,
        Err(ReadFault::Failed(fault)) => format_in!(alloc; "failed: {fault}")?,
    })
}

#[test]
fn a_reader_is_read_to_its_end_or_fails() -> Result<(), Fail> {
    let rt = kit::HostRuntime;

    const TEXT: &str = "three and twenty bytes.";
    static ROWS: [(u64, &str); 4] = [
        (0, "failed: the disk is gone"),
        (1, "failed: the disk is gone"),
        (3, "failed: the disk is gone"),
        (4, TEXT),
    ];
    let alloc = rt.alloc();
    for (calls_left, wanted) in &ROWS {
        let mut input = Input {
            rest: TEXT.as_bytes(),
            calls_left: *calls_left,
        };
        let read = named(alloc, read_to_end(alloc, &mut input, 100_000))?;
        expect_eq_at(&rt, calls_left, &read.as_str(), wanted);
    }
    Ok(())
}

/// How many of the bytes a reader over 23 bytes has left, and what was read of it, or the name of
/// the fault.
#[test]
fn a_reader_is_read_up_to_a_limit() -> Result<(), Fail> {
    let rt = kit::HostRuntime;

    const TEXT: &str = "three and twenty bytes.";
    static ROWS: [(usize, u64, usize, &str); 10] = [
        (0, 9, 22, "failed: file is longer than 0 bytes"),
        (1, 9, 21, "failed: file is longer than 1 bytes"),
        (9, 9, 13, "failed: file is longer than 9 bytes"),
        (10, 9, 12, "failed: file is longer than 10 bytes"),
        (22, 9, 0, "failed: file is longer than 22 bytes"),
        (22, 2, 3, "failed: the disk is gone"),
        (23, 3, 0, "failed: the disk is gone"),
        (23, 4, 0, TEXT),
        (23, 9, 0, TEXT),
        (24, 9, 0, TEXT),
    ];
    let alloc = rt.alloc();
    for (limit, calls_left, rest, wanted) in &ROWS {
        let mut input = Input {
            rest: TEXT.as_bytes(),
            calls_left: *calls_left,
        };
        let read = named(alloc, read_up_to(alloc, &mut input, *limit))?;
        expect_eq_at(&rt, limit, &read.as_str(), wanted);
        expect_eq_at(&rt, limit, &input.rest.len(), rest);
    }
    Ok(())
}

/// A reader that holds 500 bytes is read whole by a call, or the growth that was refused is its
/// fault. Says whether one was.
fn is_refused(rt: &impl Abort, alloc: Global, left: u64, up_to: Option<usize>) -> bool {
    let text = [b'a'; 500];
    let heap = Refusing::new(alloc, left);
    let mut input = Input {
        rest: &text,
        calls_left: 100,
    };
    let read = match up_to {
        Some(limit) => read_up_to(&heap, &mut input, limit),
        None => read_to_end(&heap, &mut input, 0),
    };
    let refused = match read {
        Ok(bytes) => {
            expect_eq_at(rt, &left, &bytes.as_slice(), &text.as_slice());
            false
        }
        Err(fault) => {
            assert!(matches!(fault, ReadFault::Memory(_)), "{left}");
            true
        }
    };
    let counts = (heap.refused(), heap.held());
    expect_eq_at(rt, &left, &counts, &(u64::from(refused), 0));
    refused
}

#[test]
fn each_growth_can_be_refused() {
    let rt = kit::HostRuntime;

    for up_to in [None, Some(500)] {
        let mut refusals = 0u64;
        for left in 0..30u64 {
            if is_refused(&rt, rt.alloc(), left, up_to) {
                refusals = left + 1;
            }
        }
        assert!((2..30).contains(&refusals));
    }
}
