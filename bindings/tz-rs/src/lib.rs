//! The crate `tz` under the name and version of tz-rs, for `[patch]`: the same types and calls.
#![forbid(unsafe_code)]
#![no_std]

pub use tz::*;
