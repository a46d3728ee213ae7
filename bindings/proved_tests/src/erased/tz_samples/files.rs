// Tests from crates/tz_samples/src/files.rt by bindings/erase. Change that file instead.
//! TZif files.

use crate::kit::Vec;
use tz::shim::alloc::{AllocError, Global};

/// A file of version 1 with one type, UTC.
pub const UTC_V1: &[u8] = b"TZif\0\
    \0\0\0\0\0\0\0\0\0\0\0\0\0\0\0\
    \0\0\0\0\0\0\0\0\0\0\0\0\0\0\0\0\0\0\0\x01\0\0\0\x04\
    \0\0\0\0\0\0UTC\0";

/// Israel from 2038 on, as a file of version 3: one type of two hours east, in the second block a
/// transition to it, and a rule.
pub const JERUSALEM_V3: &[u8] = b"TZif3\
    \0\0\0\0\0\0\0\0\0\0\0\0\0\0\0\
    \0\0\0\0\0\0\0\0\0\0\0\0\0\0\0\0\0\0\0\x01\0\0\0\x04\
    \0\0\x1c\x20\0\0IST\0\
    TZif3\
    \0\0\0\0\0\0\0\0\0\0\0\0\0\0\0\
    \0\0\0\x01\0\0\0\x01\0\0\0\0\0\0\0\x01\0\0\0\x01\0\0\0\x04\
    \0\0\0\0\x7f\xe8\x17\x80\0\0\0\x1c\x20\0\0IST\0\x01\x01\
    \nIST-2IDT,M3.4.4/26,M10.5.0\n";

/// A file of version 4 with one type, UTC, and leap seconds from 2016 on that expire.
pub const UTC_V4: &[u8] = b"TZif4\
    \0\0\0\0\0\0\0\0\0\0\0\0\0\0\0\
    \0\0\0\0\0\0\0\0\0\0\0\0\0\0\0\0\0\0\0\x01\0\0\0\x04\
    \0\0\0\0\0\0UTC\0\
    TZif4\
    \0\0\0\0\0\0\0\0\0\0\0\0\0\0\0\
    \0\0\0\0\0\0\0\0\0\0\0\x02\0\0\0\0\0\0\0\x01\0\0\0\x04\
    \0\0\0\0\0\0UTC\0\
    \0\0\0\0\x58\x68\x46\x9a\0\0\0\x1b\
    \0\0\0\0\x65\x53\xf1\0\0\0\0\x1b\
    \n\n";

/// Writes a header: the counts of UT/local and standard/wall indicators, leap seconds, transitions,
/// types and name bytes.
pub fn push_header(bytes: &mut Vec<u8>, version: u8, counts: &[u32]) -> Result<(), AllocError> {
    bytes.extend_from_slice(b"TZif")?;
    bytes.push(version)?;
    bytes.extend_from_slice(&[0; 15])?;
    for count in counts {
        bytes.extend_from_slice(&count.to_be_bytes())?;
    }
    Ok(())
}

/// A file with one type, UTC, without transitions, and a footer.
pub fn without_transitions(
    alloc: Global,
    version: u8,
    footer: &[u8],
) -> Result<Vec<u8>, AllocError> {
    let mut bytes = Vec::new(alloc);
    for version in [b'2', version] {
        push_header(&mut bytes, version, &[0, 0, 0, 0, 1, 4])?;
        bytes.extend_from_slice(b"\0\0\0\0\0\0UTC\0")?;
    }
    bytes.extend_from_slice(footer)?;
    Ok(bytes)
}
