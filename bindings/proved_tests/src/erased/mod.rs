//! The tests, and what they share.

mod tz_civil_tests;
mod tz_examples;
mod tz_query_tests;
mod tz_samples;
mod tz_tests;
mod tz_zone_tests;
