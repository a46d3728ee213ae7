//! From what C passes to what Rust's functions take.
//!
//! They require what tz.h asks of a caller. A pointer is aligned, and points to as many values of
//! its type as the length says, or to one. While a call runs nothing else writes to what it reads,
//! and nothing else reads or writes a list that it writes to. With length 0 a pointer is not used,
//! and may be null. One value is written when the call has read all else, so it may be an input.
#![allow(unsafe_code)]

use crate::proved::tz_c::codes::OK;
use core::mem::MaybeUninit;
#[cfg(feature = "zones")]
use core::ptr;
use core::slice;

/// A list, by its first value and its length.
///
/// # Safety
///
/// The length is 0, or the pointer is aligned and points to so many values, and nothing writes to
/// these while the list is used.
#[inline(always)]
pub(crate) unsafe fn list<'a, T>(first: *const T, length: usize) -> &'a [T] {
    if length == 0 {
        return &[];
    }
    // SAFETY: these are the values that the caller gives.
    unsafe { slice::from_raw_parts(first, length) }
}

/// A list to which the call writes, by its first value and its length.
///
/// # Safety
///
/// The length is 0, or the pointer is aligned and points to so many values, and nothing else reads
/// or writes these while the list is used.
#[inline(always)]
pub(crate) unsafe fn list_mut<'a, T>(first: *mut T, length: usize) -> &'a mut [T] {
    if length == 0 {
        return &mut [];
    }
    // SAFETY: these are the values that the caller gives, and gives to this call alone.
    unsafe { slice::from_raw_parts_mut(first, length) }
}

/// One value.
///
/// # Safety
///
/// The pointer is aligned and points to a value, and nothing writes to it while it is used.
#[inline(always)]
pub(crate) unsafe fn one<'a, T>(value: *const T) -> &'a T {
    debug_assert!(!value.is_null() && value.is_aligned());
    // SAFETY: this is the value that the caller gives.
    unsafe { &*value }
}

/// A value that a call writes, and the place of C to which it goes.
pub(crate) struct Out<T> {
    place: *mut T,
    pub(crate) value: T,
}

impl<T: Copy> Out<T> {
    /// A value that is not written yet. What is in the place is not read.
    ///
    /// # Safety
    ///
    /// Zeros are a value of the type.
    #[inline(always)]
    pub(crate) unsafe fn new(place: *mut T) -> Self {
        debug_assert!(!place.is_null() && place.is_aligned());
        // SAFETY: the caller says so.
        let value = unsafe { MaybeUninit::zeroed().assume_init() };
        Out { place, value }
    }

    /// Writes the value to its place, if the call's code is that of no error.
    ///
    /// # Safety
    ///
    /// The place is aligned and may be written, and nothing that was made of C's pointers is used
    /// any more.
    #[inline(always)]
    pub(crate) unsafe fn write(self, code: u32) {
        if code == OK {
            // SAFETY: this is the place that the caller gives.
            unsafe { self.place.write(self.value) }
        }
    }
}

/// A list of the library's own memory, as C sees it.
#[cfg(feature = "zones")]
#[inline]
pub(crate) fn raw_parts<T>(list: &'static [T]) -> (*const T, usize) {
    if list.is_empty() {
        return (ptr::null(), 0);
    }
    (list.as_ptr(), list.len())
}
