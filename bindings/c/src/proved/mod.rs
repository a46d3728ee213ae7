//! The proved sources, generated but for this file.

pub(crate) mod tz_c;
