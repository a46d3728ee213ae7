// Tests from crates/tz_zone_tests/src/refusing.rt by bindings/erase. Change that file instead.
//! The allocator that refuses.

use crate::erased::tz_samples::refusing::Refusing;
use crate::erased::tz_zone_tests::expect::{expect_eq, expect_eq_at};
use crate::kit::test::Fail;
use crate::kit::{self, Box, Vec};
use tz::shim::alloc::{AllocError, Allocator};

#[test]
fn passes_on_as_many_as_it_was_given() {
    let rt = kit::HostRuntime;

    for left in 0..4u64 {
        let heap = Refusing::new(rt.alloc(), left);
        for asked in 0..6u64 {
            let passed_on = Box::new(&heap, 7u8).is_ok();
            expect_eq_at(&rt, &left, &(asked, passed_on), &(asked, asked < left));
        }
        expect_eq(&rt, &heap.refused(), &(6 - left));
    }
}

/// The numbers below 100, in room that is asked for again and again.
fn hundred<A: Allocator>(alloc: A) -> Result<Vec<u8, A>, AllocError> {
    let mut v = Vec::with_capacity(alloc, 1)?;
    for item in 0..100u8 {
        v.push(item)?;
    }
    Ok(v)
}

#[test]
fn frees_by_the_inner_allocator() -> Result<(), Fail> {
    let rt = kit::HostRuntime;

    let inner = Refusing::new(rt.alloc(), 10);
    let heap = Refusing::new(&inner, 10);
    let v = hundred(&heap)?;
    expect_eq(&rt, &v.len(), &100);
    expect_eq(&rt, &v.last(), &Some(&99));
    expect_eq(&rt, &(heap.held(), inner.held()), &(1, 1));
    drop(v);
    expect_eq(&rt, &(heap.held(), inner.held()), &(0, 0));
    Ok(())
}
