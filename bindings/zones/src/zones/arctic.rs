// Made by `generate` of the tz database, which is in the public domain.

//! Zones of `Arctic`.

use tz::TimeZoneRef;

/// `Arctic/Longyearbyen`, the same as [`Europe/Berlin`](crate::europe::BERLIN).
pub const LONGYEARBYEN: TimeZoneRef<'static> = crate::europe::BERLIN;
