// Generated from crates/tz_zone/src/timezone/zone_names.rt by bindings/erase: its contracts are cut. Change that file instead.
//! Names of time zones.

#[cfg(feature = "alloc")]
use crate::shim::anyhow;

/// Whether a name may have the byte.
fn is_name_byte(byte: u8) -> bool {
    matches!(byte, b'0'..=b'9' | b'A'..=b'Z' | b'a'..=b'z' | b'.' | b'_' | b'+' | b'-')
}

/// Whether all of the bytes may stand in a name.
fn are_name_bytes(part: &[u8]) -> bool {
    for byte in part {
        if !is_name_byte(*byte) {
            return false;
        }
    }
    true
}

/// Whether a name may have the part.
fn is_name_part(part: &[u8]) -> bool {
    !matches!(part, [] | [b'.'] | [b'.', b'.']) && are_name_bytes(part)
}

/// Whether the text is a name of the form that [`TimeZone::named`](crate::timezone::TimeZone::named) looks
/// for. (tz database, Timezone identifiers)
///
/// A name has one part or several, with `/` between them. A part is one or more ASCII letters,
/// digits, `.`, `_`, `+` and `-`, and neither `.` nor `..`.
#[must_use]
pub fn is_zone_name(name: &str) -> bool {
    name.as_bytes()
        .split(|byte| *byte == b'/')
        .all(is_name_part)
}

/// The error of a text that is no name.
#[cfg(feature = "alloc")]
pub(super) fn not_a_name(text: &str) -> crate::shim::anyhow::Error {
    anyhow!("not a time zone name: {text}")
}

/// The error of a name that no zone has.
#[cfg(feature = "alloc")]
pub(super) fn no_such_zone(name: &str) -> crate::shim::anyhow::Error {
    anyhow!("no time zone has the name {name}")
}
