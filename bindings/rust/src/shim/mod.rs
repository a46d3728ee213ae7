//! What the proved sources use of their standard library, over Rust's: allocations that can fail, errors of any kind, files.
//!
//! What allocates is there with the feature `alloc`, and files with `std`.

pub mod alloc;
#[cfg(feature = "alloc")]
pub mod anyhow;
mod array_string;
#[cfg(feature = "std")]
pub mod fs;
#[cfg(feature = "std")]
pub mod io;
#[cfg(feature = "std")]
pub mod rt;
#[cfg(test)]
mod tests;
#[cfg(feature = "alloc")]
mod vec;

#[cfg(feature = "alloc")]
pub(crate) use anyhow::anyhow;
pub use array_string::ArrayString;
#[cfg(feature = "alloc")]
pub use vec::{String, Vec};

/// The text of bytes that the proof shows to be text.
#[inline]
pub(crate) const fn text(bytes: &[u8]) -> &str {
    match core::str::from_utf8(bytes) {
        Ok(text) => text,
        Err(_) => panic!("bytes that are not text"),
    }
}

/// The text of the first bytes, which the proof shows to be text. Rust checks 16 bytes at once, and those left over one by one: so the bytes up to the
/// next multiple of 16 are checked with them, which are zeros in a new line.
#[inline]
pub(crate) fn text_before(bytes: &[u8; 128], len: usize) -> &str {
    let blocks = core::str::from_utf8(&bytes[..len.next_multiple_of(16)]);
    blocks.map_or_else(|_| text(&bytes[..len]), |whole| &whole[..len])
}

/// The lesser of two numbers, in constants too.
macro_rules! least {
    ($left:expr, $right:expr) => {{
        let (left, right) = ($left, $right);
        if right < left { right } else { left }
    }};
}

/// The greater of two numbers, in constants too.
macro_rules! greatest {
    ($left:expr, $right:expr) => {{
        let (left, right) = ($left, $right);
        if right < left { left } else { right }
    }};
}

pub(crate) use {greatest, least};

/// A number does not fit 64 bits.
pub(crate) struct TooLarge;

/// A number in 64 bits, if it fits.
#[inline]
pub(crate) const fn narrow(number: i128) -> Result<i64, TooLarge> {
    let narrow = number as i64;
    if narrow as i128 == number {
        Ok(narrow)
    } else {
        Err(TooLarge)
    }
}
