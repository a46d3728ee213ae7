//! What the proved sources use of their standard library.

pub mod dec2flt;
pub mod io;

pub use tz::shim::{ArrayString, Vec, alloc};
