// Generated from crates/tz_query/src/query/output.rt by bindings/erase: its contracts are cut. Change that file instead.
//! Answers on their way out: a page of them, and all before it.

use super::read_query::Nanoseconds;
use super::suffixes::Suffix;
use crate::shim::Vec;
use crate::shim::alloc::{AllocError, Allocator};
use tz::proved::tz::inner::{Fields, TextBuffer, middle_of, two_pairs};

/// What writing returns: nothing, or that an allocation failed.
pub type Written = Result<(), AllocError>;

/// Where answers are written: onto a page. If the page has no room for one more line and its front
/// (what stands before the date time, such as `N `), it is first appended to the answers before it.
pub struct Output<A: Allocator> {
    pub answers: Vec<u8, A>,
    pub page: Page,
}

impl<A: Allocator> Output<A> {
    /// Appends what is on the page to the answers, and clears it.
    #[inline(never)]
    pub fn flush(&mut self) -> Written {
        self.answers.extend_from_slice(self.page.as_bytes())?;
        self.page.clear();
        Ok(())
    }

    /// Makes room for one more line, with its front, on the page.
    pub fn make_room(&mut self) -> Written {
        if self.page.has_room() {
            return Ok(());
        }
        self.flush()
    }

    /// Writes a line of two pieces.
    fn push_line(&mut self, front: &[u8], text: &[u8]) -> Written {
        self.make_room()?;
        self.page.push(front);
        self.page.push(text);
        self.page.push(b"\n");
        Ok(())
    }

    /// Writes the line of an error.
    pub fn push_error(&mut self, name: &str) -> Written {
        self.push_line(b"E ", name.as_bytes())
    }

    /// Writes a line with a letter and a count.
    pub fn push_count(&mut self, letter: u8, count: usize) -> Written {
        let mut text = TextBuffer::new();
        text.push_count(count as u64);
        self.push_line(&[letter, b' '], text.as_bytes())
    }

    /// Writes `front` and the line of fields that the type of a suffix shows.
    #[inline(always)]
    pub fn push_shown(
        &mut self,
        front: &[u8],
        fields: &Fields,
        suffix: &Suffix,
        nanoseconds: &Nanoseconds,
    ) -> Written {
        self.make_room()?;
        self.page.push(front);
        self.page.push_date_time(fields, nanoseconds, suffix);
        Ok(())
    }
}

/// The number of bytes that a page holds.
const SIZE: usize = 2040;

/// Room that is made at once: for a short line, or for a front (what stands before a date time,
/// such as `N `) and the line of the date time. Neither is longer.
const LONGEST: usize = 160;

/// Printed text of at most 2040 bytes, which is kept without an allocation.
///
/// A line is put together from pieces that are copied whole: the year, the rest of the date and
/// time, the nanoseconds and the suffix of the type.
pub struct Page {
    bytes: [u8; SIZE],
    len: usize,
}

impl Page {
    /// Makes an empty page.
    pub fn new() -> Page {
        Page {
            bytes: [0; SIZE],
            len: 0,
        }
    }

    /// Whether one more line, with its front, fits onto the page.
    pub fn has_room(&self) -> bool {
        self.len <= SIZE - LONGEST
    }

    /// Clears the page.
    pub fn clear(&mut self) {
        self.len = 0;
    }

    /// Returns the text on the page.
    pub fn as_bytes(&self) -> &[u8] {
        &self.bytes[..self.len]
    }

    /// Appends bytes to the page.
    pub fn push(&mut self, text: &[u8]) {
        let end = self.len + text.len();
        self.bytes[self.len..end].copy_from_slice(text);
        self.len = end;
    }

    /// Removes the last byte, if there is one.
    pub fn pop(&mut self) {
        self.len = self.len.saturating_sub(1);
    }

    /// Appends a year of any number of digits.
    #[inline(never)]
    fn push_any_year(&mut self, year: i32) {
        let mut text = TextBuffer::new();
        text.push_year(year);
        self.push(text.as_bytes());
    }

    /// Appends a year, in few steps if it has four digits.
    #[allow(clippy::manual_range_contains)]
    #[inline(always)]
    fn push_year(&mut self, year: i32) {
        if year < 1000 || year > 9999 {
            self.push_any_year(year);
        } else {
            let (front, back) = two_pairs(year.unsigned_abs());
            self.push(&front);
            self.push(&back);
        }
    }

    /// Appends what follows the year on the line of a date time: month to second, the nanoseconds,
    /// and the suffix of its type.
    #[inline(always)]
    fn push_rest(&mut self, middle: &[u8; 16], digits: &[u8; 9], suffix: &Suffix) {
        let at = self.len;
        self.bytes[at..at + 16].copy_from_slice(middle);
        self.bytes[at + 16..at + 25].copy_from_slice(digits);
        self.bytes[at + 25..at + 57].copy_from_slice(&suffix.bytes);
        self.len = at + 25 + suffix.len;
    }

    /// Appends the line of a date time: the fields with these nanoseconds in the place of their
    /// own, the offset and the name of its type, and LF.
    #[inline(always)]
    pub fn push_date_time(&mut self, fields: &Fields, nanoseconds: &Nanoseconds, suffix: &Suffix) {
        self.push_year(fields.year);
        self.push_rest(&middle_of(fields), &nanoseconds.digits, suffix);
    }
}
