//! Input.

pub use std::io::{Error, Read};
