//! The C library as a WebAssembly module: its sources, a heap, and what a panic does.
//!
//! For another target this crate is empty, so that a workspace with it builds everywhere.
#![cfg(target_arch = "wasm32")]
#![no_std]
#![deny(unsafe_code)]
#![deny(unsafe_op_in_unsafe_fn)]
#![deny(clippy::undocumented_unsafe_blocks)]

#[cfg(feature = "zones")]
#[path = "../../c/src/built_in.rs"]
mod built_in;
#[path = "../../c/src/exports.rs"]
mod exports;
mod heap;
#[path = "../../c/src/pointers.rs"]
mod pointers;
#[path = "../../c/src/proved/mod.rs"]
mod proved;

/// JavaScript gets a `WebAssembly.RuntimeError`.
#[panic_handler]
fn panic(_: &core::panic::PanicInfo<'_>) -> ! {
    core::arch::wasm32::unreachable()
}
