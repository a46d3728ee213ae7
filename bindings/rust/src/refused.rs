//! Constants that do not compile, since the check refuses them.
//!
//! A rule whose start, March 1st at noon, comes after its end, the sixtieth day of the year at 18:00, in leap years alone:
//!
//! ```compile_fail
//! use tz::LocalTimeType;
//! use tz::timezone::{AlternateTime, Julian0WithLeap, Julian1WithoutLeap, RuleDay};
//!
//! const RULE: AlternateTime = match (Julian1WithoutLeap::new(60), Julian0WithLeap::new(59)) {
//!     (Ok(start), Ok(end)) => {
//!         let (start, end) = (RuleDay::Julian1WithoutLeap(start), RuleDay::Julian0WithLeap(end));
//!         let utc = LocalTimeType::utc();
//!         match AlternateTime::new(utc, utc, start, 43_200, end, 64_800) {
//!             Ok(rule) => rule,
//!             Err(_) => panic!("refused"),
//!         }
//!     }
//!     _ => unreachable!(),
//! };
//! # fn main() { let _ = RULE; }
//! ```
//!
//! Transitions that are not in order:
//!
//! ```compile_fail
//! use tz::timezone::Transition;
//! use tz::{LocalTimeType, TimeZoneRef};
//!
//! const TRANSITIONS: &[Transition] = &[Transition::new(1, 0), Transition::new(0, 0)];
//! const TYPES: &[LocalTimeType] = &[LocalTimeType::utc()];
//! const ZONE: TimeZoneRef<'static> = match TimeZoneRef::new(TRANSITIONS, TYPES, &[], &None) {
//!     Ok(zone) => zone,
//!     Err(_) => panic!("refused"),
//! };
//! # fn main() { let _ = ZONE; }
//! ```
//!
//! A transition to a type that is not there:
//!
//! ```compile_fail
//! use tz::timezone::Transition;
//! use tz::{LocalTimeType, TimeZoneRef};
//!
//! const TRANSITIONS: &[Transition] = &[Transition::new(0, 1)];
//! const TYPES: &[LocalTimeType] = &[LocalTimeType::utc()];
//! const ZONE: TimeZoneRef<'static> = match TimeZoneRef::new(TRANSITIONS, TYPES, &[], &None) {
//!     Ok(zone) => zone,
//!     Err(_) => panic!("refused"),
//! };
//! # fn main() { let _ = ZONE; }
//! ```
//!
//! The same, but for what is wrong, compiles:
//!
//! ```
//! use tz::timezone::{AlternateTime, Julian0WithLeap, Julian1WithoutLeap, RuleDay, Transition};
//! use tz::{LocalTimeType, TimeZoneRef};
//!
//! const TRANSITIONS: &[Transition] = &[Transition::new(0, 0), Transition::new(1, 0)];
//! const TYPES: &[LocalTimeType] = &[LocalTimeType::utc()];
//! const ZONE: TimeZoneRef<'static> = match TimeZoneRef::new(TRANSITIONS, TYPES, &[], &None) {
//!     Ok(zone) => zone,
//!     Err(_) => panic!("refused"),
//! };
//! const RULE: AlternateTime = match (Julian1WithoutLeap::new(60), Julian0WithLeap::new(60)) {
//!     (Ok(start), Ok(end)) => {
//!         let (start, end) = (RuleDay::Julian1WithoutLeap(start), RuleDay::Julian0WithLeap(end));
//!         let utc = LocalTimeType::utc();
//!         match AlternateTime::new(utc, utc, start, 43_200, end, 64_800) {
//!             Ok(rule) => rule,
//!             Err(_) => panic!("refused"),
//!         }
//!     }
//!     _ => unreachable!(),
//! };
//! # fn main() { let _ = (ZONE, RULE); }
//! ```
