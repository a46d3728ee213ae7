// Generated from crates/tz_zone/src/timezone/files.rt by bindings/erase: its contracts are cut. Change that file instead.
//! Files of zones: reading one, and no more of it than a limit.

#[cfg(feature = "alloc")]
use crate::proved::tz_base::error::ReadFault;
#[cfg(feature = "alloc")]
use crate::shim::Vec;
#[cfg(feature = "alloc")]
use crate::shim::alloc::Allocator;
#[cfg(feature = "std")]
use crate::shim::alloc::Global;
#[cfg(feature = "std")]
use crate::shim::anyhow;
#[cfg(feature = "std")]
use crate::shim::fs::File;
#[cfg(feature = "std")]
use crate::shim::io::{self, Read};
#[cfg(feature = "std")]
use crate::shim::rt::Files;

/// How many bytes are read at once. A longer buffer takes longer to clear than a second read of the
/// longest files of time zones.
const PIECE: usize = 2_000;

/// The number of the system's error `ENOENT`.
const NO_SUCH_FILE: i32 = 2;

/// Reads a piece into the beginning of the buffer.
#[cfg(feature = "std")]
fn read_piece<I: Read>(input: &mut I, buffer: &mut [u8]) -> Result<usize, ReadFault> {
    match input.read(buffer) {
        Ok(count) => Ok(count),
        Err(error) => Err(ReadFault::Failed(crate::shim::anyhow::Error::from(error))),
    }
}

/// Appends a piece. The first one reserves room for this number of bytes.
#[cfg(feature = "alloc")]
fn append<A: Allocator>(
    bytes: &mut Vec<u8, A>,
    piece: &[u8],
    room: usize,
) -> Result<(), ReadFault> {
    if bytes.is_empty() {
        bytes.reserve(room)?;
    }
    bytes.extend_from_slice(piece)?;
    Ok(())
}

/// Reads the input to its end. Where it is not empty, room for this number of bytes is reserved,
/// since a growth may copy everything.
#[cfg(all(feature = "std", feature = "inner"))]
pub fn read_to_end<A: Allocator, I: Read>(
    alloc: A,
    input: &mut I,
    room: usize,
) -> Result<Vec<u8, A>, ReadFault> {
    let mut bytes = Vec::new(alloc);
    let mut buffer = [0; PIECE];
    for _ in 0..u64::MAX {
        let count = read_piece(input, &mut buffer)?;
        if count == 0 {
            return Ok(bytes);
        }
        append(&mut bytes, &buffer[..count], room)?;
    }
    Err(ReadFault::Failed(anyhow!("file has no end")))
}

/// Reads the next piece, and at most this many bytes.
#[cfg(feature = "std")]
fn read_piece_up_to<I: Read>(
    input: &mut I,
    buffer: &mut [u8; PIECE],
    most: usize,
) -> Result<usize, ReadFault> {
    read_piece(input, &mut buffer[..most])
}

/// The bytes of the input, read to its end, if there are at most `limit` of them. At most one byte
/// more than that is read.
///
/// [`read_file_up_to`] opens a file and calls this.
///
/// # Errors
///
/// - [`ReadFault::Failed`] if the input cannot be read, or with a text that says so if it is
///   longer, after one byte more than the limit was read;
/// - [`ReadFault::Memory`] if an allocation for its bytes fails.
#[cfg(feature = "std")]
pub fn read_up_to<A: Allocator, I: Read>(
    alloc: A,
    input: &mut I,
    limit: usize,
) -> Result<Vec<u8, A>, ReadFault> {
    let mut bytes = Vec::new(alloc);
    let mut buffer = [0; PIECE];
    for _ in 0..u64::MAX {
        let left = limit - bytes.len();
        let count = read_piece_up_to(input, &mut buffer, left.min(PIECE - 1) + 1)?;
        if count == 0 {
            return Ok(bytes);
        }
        if left < count {
            return Err(ReadFault::Failed(anyhow!(
                "file is longer than {limit} bytes"
            )));
        }
        append(&mut bytes, &buffer[..count], 0)?;
    }
    Err(ReadFault::Failed(anyhow!("file has no end")))
}

/// Why a file could not be opened. Most paths of a search have no file, so the system's text of
/// that error is not looked up.
#[cfg(feature = "std")]
#[must_use]
pub fn open_fault(error: io::Error) -> ReadFault {
    if error.raw_os_error() == Some(NO_SUCH_FILE) {
        return ReadFault::Failed(anyhow!("No such file or directory (os error 2)"));
    }
    ReadFault::Failed(crate::shim::anyhow::Error::from(error))
}

/// The bytes of the file at the path, read to its end.
///
/// With the runtime passed in by a closure, this is a reader for
/// [`TimeZoneSettings`](super::TimeZoneSettings).
///
/// # Errors
///
/// - [`ReadFault::Failed`] if the file cannot be opened or read, such as a directory;
/// - [`ReadFault::Memory`] if an allocation for its bytes fails.
#[cfg(all(feature = "std", feature = "inner"))]
pub fn read_file<R: Files>(rt: &R, alloc: Global, path: &str) -> Result<Vec<u8>, ReadFault> {
    match File::open(rt, path) {
        Ok(mut file) => read_to_end(alloc, &mut file, 0),
        Err(error) => Err(open_fault(error)),
    }
}

/// The bytes of the file at the path, read to its end, if there are at most `limit` of them.
///
/// So a file that someone else chooses takes no more memory than the limit needs. Files of time
/// zones take less than 10,000 bytes, so 65,536 are ample.
///
/// # Errors
///
/// Those of [`read_file`], and [`ReadFault::Failed`] with a text that says so if the file is
/// longer, after one byte more than the limit was read.
#[cfg(feature = "std")]
pub fn read_file_up_to<R: Files>(
    rt: &R,
    alloc: Global,
    limit: usize,
    path: &str,
) -> Result<Vec<u8>, ReadFault> {
    match File::open(rt, path) {
        Ok(mut file) => read_up_to(alloc, &mut file, limit),
        Err(error) => Err(open_fault(error)),
    }
}
