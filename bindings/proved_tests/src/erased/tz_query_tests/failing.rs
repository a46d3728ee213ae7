// Tests from crates/tz_query_tests/src/failing.rt by bindings/erase. Change that file instead.
//! Readers and a writer over memory that fail at calls that the test chooses.

use crate::kit::Vec;
use crate::shim::io::Write;
use std::io::{self, Read};

/// The fault of a call that fails.
fn broken() -> io::Error {
    io::Error::from(io::ErrorKind::BrokenPipe)
}

/// Reads bytes of memory at as many calls as it is allowed; each later call fails.
pub struct FailingReader<'a> {
    pub bytes: &'a [u8],
    pub calls: u8,
}

impl Read for FailingReader<'_> {
    fn read(&mut self, buf: &mut [u8]) -> io::Result<usize> {
        self.calls = self.calls.checked_sub(1).ok_or(broken())?;
        self.bytes.read(buf)
    }
}

/// Takes bytes into memory, up to a piece at each of as many calls as it is allowed; each later
/// call fails.
pub struct FailingWriter {
    pub bytes: Vec<u8>,
    pub piece: usize,
    pub calls: u8,
}

impl Write for FailingWriter {
    fn write(&mut self, buf: &[u8]) -> io::Result<usize> {
        self.calls = self.calls.checked_sub(1).ok_or(broken())?;
        let count = buf.len().min(self.piece);
        self.bytes.write(&buf[..count])
    }

    fn flush(&mut self) -> io::Result<()> {
        Ok(())
    }
}

/// Is interrupted at so many calls, and then reads bytes of memory.
pub struct InterruptedReader<'a> {
    pub bytes: &'a [u8],
    pub interruptions: u8,
}

impl Read for InterruptedReader<'_> {
    fn read(&mut self, buf: &mut [u8]) -> io::Result<usize> {
        if let Some(left) = self.interruptions.checked_sub(1) {
            self.interruptions = left;
            return Err(io::Error::from(io::ErrorKind::Interrupted));
        }
        self.bytes.read(buf)
    }
}
