// Generated from crates/tz_format/src/line.rt by bindings/erase: its contracts are cut. Change that file instead.
//! A line of text, as it is printed.

use crate::proved::tz::inner::pair_of;

/// Bytes of a line, at most 128. They are text once all of them stand there: those of one
/// character come one by one.
pub struct Line {
    bytes: [u8; 128],
    len: usize,
}

impl Line {
    /// An empty line.
    #[must_use]
    pub fn new() -> Self {
        Line {
            bytes: [0; 128],
            len: 0,
        }
    }

    /// The bytes.
    #[must_use]
    pub fn as_bytes(&self) -> &[u8] {
        &self.bytes[..self.len]
    }

    /// The text.
    pub(crate) fn as_str(&self) -> &str {
        crate::shim::text_before(&self.bytes, self.len)
    }

    /// Appends a byte.
    pub(crate) fn push(&mut self, byte: u8) {
        self.bytes[self.len] = byte;
        self.len += 1;
    }

    /// Appends bytes.
    pub(crate) fn push_all(&mut self, bytes: &[u8]) {
        let end = self.len + bytes.len();
        self.bytes[self.len..end].copy_from_slice(bytes);
        self.len = end;
    }

    /// Appends a number below 100 as two digits.
    pub(crate) fn push_two_digits(&mut self, number: u8) {
        self.push_all(&pair_of(number));
    }

    /// Appends the digits of a number.
    pub(crate) fn push_digits(&mut self, number: u64) {
        if number < 10 {
            self.push(b'0' + number as u8);
        } else if number < 100 {
            self.push_two_digits(number as u8);
        } else {
            self.push_digits(number / 100);
            self.push_two_digits((number % 100) as u8);
        }
    }
}
