// Tests from crates/tz_query_tests/src/lib.rt by bindings/erase. Change that file instead.
//! Tests of query lines and of the program.

#[cfg(test)]
mod expect;
#[cfg(test)]
mod failing;
#[cfg(test)]
mod growths;
#[cfg(test)]
mod large;
#[cfg(test)]
mod lines;
#[cfg(test)]
mod meetings;
#[cfg(test)]
mod program;
#[cfg(test)]
mod search;
#[cfg(test)]
mod streams;
#[cfg(test)]
mod tzif;
