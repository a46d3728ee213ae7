// Tests from crates/tz_samples/src/lib.rt by bindings/erase. Change that file instead.
//! What several test crates use: instants, rules, zones and files, and an allocator that refuses.

pub mod faults;
pub mod files;
pub mod footers;
pub mod instants;
pub mod refusing;
pub mod rules;
pub mod tz_strings;
pub mod zones;
