//! Zones of TZ strings without the machine's files, so also without the feature `std`.

use tz::{Error, TimeZone, TimeZoneSettings};

/// The zone of a TZ string, for which no file is looked for.
pub fn zone_of(tz_string: &str) -> Result<TimeZone, Error> {
    let settings = TimeZoneSettings::new(&[], |_| Err("there are no files".into()));
    settings.parse_posix_tz(tz_string)
}
