// Tests from crates/tz_civil_tests/src/lib.rt by bindings/erase. Change that file instead.
//! Tests of dates, of steps from one to another, and of their starts in zones, by rows.

#[cfg(test)]
mod dates;
#[cfg(test)]
mod expect;
#[cfg(test)]
mod starts;
#[cfg(test)]
mod steps;
#[cfg(test)]
mod week_dates;
