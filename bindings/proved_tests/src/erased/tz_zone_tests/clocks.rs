// Tests from crates/tz_zone_tests/src/clocks.rt by bindings/erase. Change that file instead.
//! Instants, types and leap seconds of clocks, which several modules of tests use.

use crate::utc;
use tz::proved::tz_base::error::TzError;
use tz::proved::tz_zone::timezone::{LeapSecond, LocalTimeType};

/// When Central Europe sets its clocks forward in 2024.
pub(crate) const SPRING_2024: i64 = utc!(2024-03-31 01:00:00);

/// When it sets them back in 2024.
pub(crate) const AUTUMN_2024: i64 = utc!(2024-10-27 01:00:00);

/// When it sets them forward in 2025.
pub(crate) const SPRING_2025: i64 = utc!(2025-03-30 01:00:00);

/// Three types, which their offsets tell apart.
pub(crate) fn three_types() -> Result<[LocalTimeType; 3], TzError> {
    Ok([
        LocalTimeType::new(0, false, Some(b"ZERO"))?,
        LocalTimeType::new(3600, false, Some(b"CET"))?,
        LocalTimeType::new(7200, true, Some(b"CEST"))?,
    ])
}

/// A table of leap seconds that begins with the fifth, so that there is no clock before it.
pub(crate) fn leap_seconds_from_the_fifth() -> [LeapSecond; 2] {
    [
        LeapSecond::new(78_796_800, 5),
        LeapSecond::new(94_694_401, 6),
    ]
}
