// Tests from crates/tz_samples/src/refusing.rt by bindings/erase. Change that file instead.
//! An allocator that fails, for the tests of every crate.

use std::cell::Cell;
use tz::shim::alloc::{AllocError, Allocator};

/// How many allocations are still passed on, have failed, and are not freed yet.
struct Counts {
    left: Cell<u64>,
    refused: Cell<u64>,
    held: Cell<u64>,
}

impl Counts {
    /// Counts an allocation, and returns whether it fails.
    fn refuse(&self) -> bool {
        match self.left.get().checked_sub(1) {
            Some(left) => {
                self.left.set(left);
                self.held.set(self.held.get().saturating_add(1));
                false
            }
            None => {
                self.refused.set(self.refused.get().saturating_add(1));
                true
            }
        }
    }

    /// Counts a freed block.
    fn take_back(&self) {
        self.held.set(self.held.get().saturating_sub(1));
    }
}

/// An allocator for tests that passes a given number of allocations on to another one, and then
/// fails.
///
/// Collections take it as `&Refusing`. Growing or shrinking a block is an allocation too.
pub struct Refusing<B: Allocator> {
    inner: B,
    counts: Counts,
}

impl<B: Allocator> Refusing<B> {
    /// Passes `left` allocations on to `inner`, and fails each later one.
    pub fn new(inner: B, left: u64) -> Self {
        Refusing {
            inner,
            counts: Counts {
                left: Cell::new(left),
                refused: Cell::new(0),
                held: Cell::new(0),
            },
        }
    }

    /// How many allocations have failed so far.
    pub fn refused(&self) -> u64 {
        self.counts.refused.get()
    }

    /// How many allocations were passed on and not freed since. One that failed in `inner` counts
    /// too.
    pub fn held(&self) -> u64 {
        self.counts.held.get()
    }
}

impl<B: Allocator> Allocator for Refusing<B> {
    fn gives(&self) -> bool {
        !self.counts.refuse() && self.inner.gives()
    }

    fn takes_back(&self) {
        self.counts.take_back();
        self.inner.takes_back();
    }
}
