//! What a program has of the system.

use super::io::{self, Read};

/// Files of the system.
pub trait Files {
    /// A file that is open.
    type File: Read;

    /// Opens the file at a path.
    fn open(&self, path: &str) -> Result<Self::File, io::Error>;
}

/// The machine's files.
pub struct Machine;

impl Files for Machine {
    type File = std::fs::File;

    fn open(&self, path: &str) -> Result<std::fs::File, io::Error> {
        std::fs::File::open(path)
    }
}
