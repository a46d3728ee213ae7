// Tests from crates/tz_examples/src/lib.rt by bindings/erase. Change that file instead.
//! Examples of the crates `tz` and `tz_query`, each a short function with a test. docs/GUIDE.md
//! leads through them.

#[cfg(test)]
mod changes;
#[cfg(test)]
mod clocks;
#[cfg(test)]
mod converter;
#[cfg(test)]
mod expect;
#[cfg(test)]
mod meetings;
#[cfg(test)]
mod queries;
#[cfg(test)]
mod tests;
#[cfg(test)]
mod zones;
