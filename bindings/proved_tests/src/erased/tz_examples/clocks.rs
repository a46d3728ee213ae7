// Tests from crates/tz_examples/src/clocks.rt by bindings/erase. Change that file instead.
//! From instants to what clocks show.

use crate::kit::time::{Clock, SystemTime, UNIX_EPOCH};
use crate::kit::{String, format_in};
use tz::proved::tz::{DateTime, LocalTimeType, TimeZone, TimeZoneRef, TzError, UtcDateTime};
use tz::shim::alloc::{Allocator, Global};

/// What clocks an hour behind UTC show at the beginning of 2024 in UTC.
pub fn new_year_an_hour_behind(alloc: Global) -> Result<DateTime, TzError> {
    let zone = TimeZone::fixed(alloc, -3600)?;
    UtcDateTime::new(2024, 1, 1, 0, 0, 0, 0)?.project(zone.as_ref())
}

/// What clocks of a zone show at a Unix time, and the name of their time.
pub fn print_instant(
    alloc: Global,
    zone: TimeZoneRef<'_>,
    unix_time: i64,
) -> Result<String, TzError> {
    let date_time = DateTime::from_timespec(unix_time, 0, zone)?;
    let name = date_time.local_time_type().time_zone_designation();
    Ok(format_in!(alloc; "{date_time} {name}")?)
}

/// What clocks of a zone show now. The crate `tz` reads no clock: the current time is an argument.
pub fn show_now<C: Clock>(clock: &C, zone: TimeZoneRef<'_>) -> crate::kit::Result<DateTime> {
    let since_1970 = SystemTime::now(clock)?.duration_since(UNIX_EPOCH)?;
    let seconds = i64::try_from(since_1970.as_secs())?;
    Ok(DateTime::from_timespec(
        seconds,
        since_1970.subsec_nanos(),
        zone,
    )?)
}

/// The Moon landing, in UTC.
pub fn moon_landing() -> Result<UtcDateTime, TzError> {
    UtcDateTime::new(1969, 7, 20, 20, 17, 40, 0)
}

/// The date time that clocks nine hours ahead of UTC show on 2024-05-01 at 8:30.
pub fn morning_in_tokyo() -> Result<DateTime, TzError> {
    let tokyo = LocalTimeType::with_ut_offset(32_400)?;
    DateTime::new(2024, 5, 1, 8, 30, 0, 0, tokyo)
}
