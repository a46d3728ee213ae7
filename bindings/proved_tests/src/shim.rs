//! What the program's proved library uses of its standard library: all that the program has, but
//! writers, of which the vectors of tests are some.

pub use crate::shim_of_program::{ArrayString, Vec, alloc, dec2flt};

/// Input and output.
pub mod io {
    use super::Vec;
    use super::alloc::Allocator;

    pub use std::io::{Read, Result};

    /// What is written to: a trait of this package, so that `Vec` can have it.
    pub trait Write: Sized {
        fn write(&mut self, bytes: &[u8]) -> Result<usize>;

        /// As std's writers have it: the program calls none.
        #[allow(dead_code)]
        fn flush(&mut self) -> Result<()>;
    }

    impl<A: Allocator> Write for Vec<u8, A> {
        fn write(&mut self, bytes: &[u8]) -> Result<usize> {
            let appended = self.extend_from_slice(bytes);
            appended.map_err(|error| std::io::Error::other(error.to_string()))?;
            Ok(bytes.len())
        }

        fn flush(&mut self) -> Result<()> {
            Ok(())
        }
    }
}
