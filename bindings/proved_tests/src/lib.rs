//! The tests of the proved crates, over the crates that cargo builds of them: `erased` is made of
//! the sources of these tests by bindings/erase, and `kit` is what they use of Rattle's standard
//! library.
#![forbid(unsafe_code)]

#[cfg(test)]
#[allow(dead_code, invalid_from_utf8, unused_imports, unused_variables)]
#[allow(clippy::all)]
mod erased;
#[cfg(test)]
mod kit;
// The program's library, of which no package makes a crate.
#[cfg(test)]
#[path = "../../tzq/src/proved/mod.rs"]
#[allow(dead_code, unused_imports)]
mod proved;
#[cfg(test)]
mod shim;
#[cfg(test)]
#[path = "../../tzq/src/shim/mod.rs"]
#[allow(unused_imports)]
mod shim_of_program;
