//! The C library by cargo: the functions of tz.h over the proved sources without their contracts.
//!
//! Unsafe code stands in few modules. [`pointers`] makes references of C's pointers; [`exports`],
//! which is generated, calls it for each function by one pattern, and `built_in` does for zones of
//! the tz database.
//!
//! No panic crosses into C: one that leaves an `extern "C"` function ends the process. (Rust 1.81)
#![deny(unsafe_code)]
#![deny(unsafe_op_in_unsafe_fn)]
#![deny(clippy::undocumented_unsafe_blocks)]

#[cfg(feature = "zones")]
mod built_in;
mod exports;
mod pointers;
mod proved;
