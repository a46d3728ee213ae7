//! Vectors and text, whose growth may fail.

use super::alloc::{AllocError, Allocator, Global};
use core::fmt;
use core::ops::{Deref, DerefMut};

/// A vector whose growth may fail.
pub struct Vec<T, A: Allocator = Global> {
    items: alloc::vec::Vec<T>,
    allocator: A,
}

impl<T, A: Allocator> Vec<T, A> {
    /// An empty vector.
    #[inline]
    pub fn new(allocator: A) -> Self {
        let items = alloc::vec::Vec::new();
        Vec { items, allocator }
    }

    /// An empty vector with room for so many items.
    #[inline]
    pub fn with_capacity(alloc: A, capacity: usize) -> Result<Self, AllocError> {
        let mut made = Vec::new(alloc);
        made.reserve_exact(capacity)?;
        Ok(made)
    }

    /// The vector of an array's items.
    pub fn from_array<const N: usize>(alloc: A, array: [T; N]) -> Result<Self, AllocError> {
        let mut made = Vec::with_capacity(alloc, N)?;
        made.items.extend(array);
        Ok(made)
    }

    /// Makes room for so many more.
    #[inline]
    pub fn reserve(&mut self, more: usize) -> Result<(), AllocError> {
        self.grow(more, |items| items.try_reserve(more).is_ok())
    }

    /// Makes room for so many more, and for no others.
    #[inline]
    pub fn reserve_exact(&mut self, more: usize) -> Result<(), AllocError> {
        self.grow(more, |items| items.try_reserve_exact(more).is_ok())
    }

    /// Makes room for so many more by a call, if there is none and the allocator gives a block.
    #[inline]
    fn grow(
        &mut self,
        more: usize,
        reserve: impl FnOnce(&mut alloc::vec::Vec<T>) -> bool,
    ) -> Result<(), AllocError> {
        let capacity = self.items.capacity();
        if more <= capacity - self.items.len() {
            return Ok(());
        }
        if !self.allocator.gives() || !reserve(&mut self.items) {
            return Err(AllocError);
        }
        if capacity > 0 {
            self.allocator.takes_back();
        }
        Ok(())
    }

    /// Appends an item.
    #[inline]
    pub fn push(&mut self, item: T) -> Result<(), AllocError> {
        self.reserve(1).map(|()| self.items.push(item))
    }

    /// Appends the items of an iterator that knows their number.
    #[inline]
    pub fn extend(&mut self, items: impl ExactSizeIterator<Item = T>) -> Result<(), AllocError> {
        self.reserve(items.len()).map(|()| self.items.extend(items))
    }

    /// The items.
    #[inline]
    pub fn as_slice(&self) -> &[T] {
        self
    }
}

impl<T: Clone, A: Allocator> Vec<T, A> {
    /// Appends these items.
    #[inline]
    pub fn extend_from_slice(&mut self, items: &[T]) -> Result<(), AllocError> {
        let room = self.reserve(items.len());
        room.map(|()| self.items.extend_from_slice(items))
    }

    /// A copy, on the same allocator.
    // Rattle's vectors have this name for it.
    #[allow(clippy::should_implement_trait)]
    pub fn clone(&self) -> Result<Self, AllocError>
    where
        A: Copy,
    {
        let mut made = Vec::with_capacity(self.allocator, self.len())?;
        made.items.extend_from_slice(self);
        Ok(made)
    }
}

impl<T, A: Allocator> Drop for Vec<T, A> {
    #[inline]
    fn drop(&mut self) {
        if self.items.capacity() > 0 {
            self.allocator.takes_back();
        }
    }
}

impl<T> Vec<T> {
    /// Rust's vector of the items, which are not moved.
    #[inline]
    pub fn into_std(mut self) -> alloc::vec::Vec<T> {
        core::mem::take(&mut self.items)
    }

    /// The vector of the items of Rust's, which are not moved.
    #[inline]
    pub fn from_std(items: alloc::vec::Vec<T>) -> Self {
        let allocator = Global;
        Vec { items, allocator }
    }
}

impl<T, A: Allocator> Deref for Vec<T, A> {
    type Target = [T];

    #[inline]
    fn deref(&self) -> &[T] {
        &self.items
    }
}

impl<T, A: Allocator> DerefMut for Vec<T, A> {
    #[inline]
    fn deref_mut(&mut self) -> &mut [T] {
        &mut self.items
    }
}

impl<T: PartialEq, A: Allocator> PartialEq for Vec<T, A> {
    fn eq(&self, other: &Self) -> bool {
        **self == **other
    }
}

impl<T: Eq, A: Allocator> Eq for Vec<T, A> {}

impl<T: fmt::Debug, A: Allocator> fmt::Debug for Vec<T, A> {
    fn fmt(&self, f: &mut fmt::Formatter<'_>) -> fmt::Result {
        (**self).fmt(f)
    }
}

/// Text whose growth may fail.
pub struct String<A: Allocator = Global> {
    bytes: Vec<u8, A>,
}

impl<A: Allocator> String<A> {
    /// Empty text with room for so many bytes.
    pub fn with_capacity(alloc: A, capacity: usize) -> Result<Self, AllocError> {
        Ok(String {
            bytes: Vec::with_capacity(alloc, capacity)?,
        })
    }

    /// Appends a text.
    pub fn push_str(&mut self, text: &str) -> Result<(), AllocError> {
        self.bytes.extend_from_slice(text.as_bytes())
    }

    /// The text.
    pub fn as_str(&self) -> &str {
        super::text(&self.bytes)
    }
}
