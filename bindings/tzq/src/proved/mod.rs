//! The proved sources, generated but for this file.

pub mod tz_query;
