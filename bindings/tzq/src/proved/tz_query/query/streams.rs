// Generated from crates/tz_query/src/query/streams.rt by bindings/erase: its contracts are cut. Change that file instead.
//! The program's streams: queries are read to their end, and answers are written.

use super::answers::answer;
use crate::shim::alloc::Allocator;
use crate::shim::io::{Read, Write};
use core::{error, fmt};
use tz::proved::tz::TimeZoneRef;
use tz::proved::tz::error::ReadFault;
use tz::proved::tz::inner::read_to_end;

/// Why a run ends without all answers.
#[derive(Debug)]
pub enum RunFault {
    /// A read of the queries failed.
    Read,
    /// The queries or their answers ran out of memory.
    Memory,
    /// A write of the answers failed, or accepted no byte.
    Write,
}

/// Writes the bytes as far as can be, and returns whether all are written.
pub(super) fn write_front<W: Write>(out: &mut W, bytes: &[u8]) -> bool {
    let mut rest = bytes;
    while !rest.is_empty() {
        let Ok(count @ 1..) = out.write(rest) else {
            return false;
        };
        rest = &rest[count..];
    }
    true
}

/// The initial capacity for input. Memory that is not written to costs little.
const FIRST_ROOM: usize = 262_144;

/// Reads the input to its end, and then writes the answers of its lines over a zone, as [`answer`]
/// makes them.
///
/// # Errors
///
/// The first of these:
///
/// - [`RunFault::Read`] if a read of the queries fails;
/// - [`RunFault::Memory`] if an allocation for the queries or their answers fails;
/// - [`RunFault::Write`] if a write of the answers fails, or accepts no byte.
///
/// After the first two the writer is as it was; after the last a prefix of the answers may have
/// been written.
pub fn run<A: Allocator + Copy, R: Read, W: Write>(
    alloc: A,
    zone: TimeZoneRef<'_>,
    input: &mut R,
    out: &mut W,
) -> Result<(), RunFault> {
    let queries = read_to_end(alloc, input, FIRST_ROOM).map_err(|fault| match fault {
        ReadFault::Memory(_) => RunFault::Memory,
        ReadFault::Failed(_) => RunFault::Read,
    })?;
    let answers = answer(alloc, zone, &queries).map_err(|_| RunFault::Memory)?;
    if write_front(out, &answers) {
        Ok(())
    } else {
        Err(RunFault::Write)
    }
}

impl fmt::Display for RunFault {
    fn fmt(&self, f: &mut fmt::Formatter<'_>) -> fmt::Result {
        match self {
            RunFault::Read => f.write_str("cannot read queries"),
            RunFault::Memory => f.write_str("no memory"),
            RunFault::Write => f.write_str("cannot write answers"),
        }
    }
}

impl error::Error for RunFault {}
