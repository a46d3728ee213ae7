//! Input and output.

pub use std::io::{Read, Write};
