//! Files.

use super::io;
use super::rt::Files;
use core::marker::PhantomData;

/// A name for what opens files.
pub struct File<R>(PhantomData<R>);

impl<R: Files> File<R> {
    /// Opens the file at a path.
    pub fn open(rt: &R, path: &str) -> Result<R::File, io::Error> {
        rt.open(path)
    }
}
