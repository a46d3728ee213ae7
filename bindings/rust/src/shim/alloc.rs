//! Allocations, each of which may fail.

use core::fmt;
use core::marker::PhantomData;

/// What gives memory, which is Rust's. One for tests counts blocks, and refuses some.
pub trait Allocator {
    /// Whether it gives one more block. Growing a block is one more, and then frees the old one.
    #[inline]
    fn gives(&self) -> bool {
        true
    }

    /// Takes a block back.
    #[inline]
    fn takes_back(&self) {}
}

impl<A: Allocator> Allocator for &A {
    fn gives(&self) -> bool {
        A::gives(self)
    }

    fn takes_back(&self) {
        A::takes_back(self);
    }
}

/// Rust's allocator.
#[derive(Clone, Copy, Debug, Default, PartialEq, Eq)]
pub struct Global;

impl Allocator for Global {}

/// An allocation failed.
#[derive(Clone, Copy, Debug, PartialEq, Eq)]
pub struct AllocError;

impl fmt::Display for AllocError {
    fn fmt(&self, f: &mut fmt::Formatter<'_>) -> fmt::Result {
        f.write_str("memory allocation failed")
    }
}

impl core::error::Error for AllocError {}

/// An allocation failed, and the value that was to be stored was dropped.
#[derive(Debug)]
pub struct AllocFailed<T>(PhantomData<T>);

impl<T> From<AllocFailed<T>> for AllocError {
    fn from(_: AllocFailed<T>) -> Self {
        AllocError
    }
}
