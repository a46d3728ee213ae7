//! The streams with which the program was started: without a buffer, and with every error of the
//! system.
//!
//! Those of std read nothing from a stream that cannot be read, and drop what is written to one
//! that cannot be written.

use std::fs::File;
use std::io::{self, Read, Write};

#[cfg(not(windows))]
use std::os::fd::AsFd;
#[cfg(windows)]
use std::os::windows::io::AsHandle;

/// A stream of bytes, or why there is none.
pub struct Stream(io::Result<File>);

/// A file that is this stream.
#[cfg(not(windows))]
fn file_of(stream: impl AsFd) -> io::Result<File> {
    stream.as_fd().try_clone_to_owned().map(File::from)
}

/// A file that is this stream.
#[cfg(windows)]
fn file_of(stream: impl AsHandle) -> io::Result<File> {
    stream.as_handle().try_clone_to_owned().map(File::from)
}

impl Stream {
    /// Standard input.
    pub fn input() -> Stream {
        Stream(file_of(io::stdin()))
    }

    /// Standard output.
    pub fn output() -> Stream {
        Stream(file_of(io::stdout()))
    }

    /// The stream's file.
    fn file(&mut self) -> io::Result<&mut File> {
        match &mut self.0 {
            Ok(file) => Ok(file),
            Err(error) => Err(error.kind().into()),
        }
    }
}

impl Read for Stream {
    fn read(&mut self, buffer: &mut [u8]) -> io::Result<usize> {
        self.file()?.read(buffer)
    }
}

impl Write for Stream {
    fn write(&mut self, bytes: &[u8]) -> io::Result<usize> {
        self.file()?.write(bytes)
    }

    fn flush(&mut self) -> io::Result<()> {
        Ok(())
    }
}
