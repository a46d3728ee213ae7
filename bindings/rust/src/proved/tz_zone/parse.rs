// Generated from crates/tz_zone/src/parse.rt by bindings/erase: its contracts are cut. Change that file instead.
//! Readers of TZif files and of TZ strings, and the writer of TZ strings.

pub(crate) mod tz_file;
pub(crate) mod tz_string;
pub(crate) mod tz_string_writer;

/// The rest of the bytes, if the first of them is `byte`.
#[must_use]
pub fn after_byte(text: &[u8], byte: u8) -> Option<&[u8]> {
    match text {
        [first, rest @ ..] if *first == byte => Some(rest),
        _ => None,
    }
}
