//! The proved sources, generated but for this file and those that say so.

pub mod tz;
pub mod tz_base;
pub mod tz_civil;
pub mod tz_format;
pub mod tz_rule;
pub mod tz_zone;
