// Tests from crates/tz_zone_tests/src/lib.rt by bindings/erase. Change that file instead.
//! Tests of the calendar, of errors and of rules, and of zones from TZif files, TZ strings, settings
//! and parts: what is refused, looks, leap times, segments and changes.

#[cfg(test)]
mod calendar;
#[cfg(test)]
mod changes;
#[cfg(test)]
mod clocks;
#[cfg(test)]
mod errors;
#[cfg(test)]
mod expect;
#[cfg(test)]
mod files;
#[cfg(test)]
mod guesses;
#[cfg(test)]
mod leap_times;
#[cfg(test)]
mod looks;
#[cfg(test)]
mod owned_zones;
#[cfg(test)]
mod refusing;
#[cfg(test)]
mod rules;
#[cfg(test)]
mod segments;
#[cfg(test)]
mod settings;
#[cfg(test)]
mod tz_files;
#[cfg(test)]
mod tz_strings;
#[cfg(test)]
mod zones;
