// Tests from crates/tz_tests/src/lib.rt by bindings/erase. Change that file instead.
//! Tests of date times, of printed text, and of searches by rows.

#[cfg(test)]
mod date_times;
#[cfg(test)]
mod expect;
#[cfg(test)]
mod find;
#[cfg(test)]
mod meanings;
#[cfg(test)]
mod memory;
#[cfg(test)]
mod parsed;
#[cfg(test)]
mod searches;
#[cfg(test)]
mod tz_strings;
