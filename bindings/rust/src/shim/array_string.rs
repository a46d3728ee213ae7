//! Text in an array.

use core::fmt;

/// Text of at most `N` bytes.
pub struct ArrayString<const N: usize> {
    bytes: [u8; N],
    len: usize,
}

/// There is no room for a text.
#[derive(Debug)]
pub struct Full;

impl<const N: usize> ArrayString<N> {
    /// Empty text.
    pub fn new() -> Self {
        ArrayString {
            bytes: [0; N],
            len: 0,
        }
    }

    /// Makes the text empty.
    pub fn clear(&mut self) {
        self.len = 0;
    }

    /// Appends a text if there is room for all of it.
    pub fn try_push_str(&mut self, text: &str) -> Result<(), Full> {
        let rest = &mut self.bytes[self.len..];
        let room = rest.get_mut(..text.len()).ok_or(Full)?;
        room.copy_from_slice(text.as_bytes());
        self.len += text.len();
        Ok(())
    }

    /// The text.
    pub fn as_str(&self) -> &str {
        super::text(&self.bytes[..self.len])
    }
}

impl<const N: usize> fmt::Write for ArrayString<N> {
    fn write_str(&mut self, text: &str) -> fmt::Result {
        self.try_push_str(text).map_err(|Full| fmt::Error)
    }
}
