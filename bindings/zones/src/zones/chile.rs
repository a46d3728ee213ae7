// Made by `generate` of the tz database, which is in the public domain.

//! Zones of `Chile`.

use tz::TimeZoneRef;

/// `Chile/Continental`, the same as [`America/Santiago`](crate::america::SANTIAGO).
pub const CONTINENTAL: TimeZoneRef<'static> = crate::america::SANTIAGO;

/// `Chile/EasterIsland`, the same as [`Pacific/Easter`](crate::pacific::EASTER).
pub const EASTERISLAND: TimeZoneRef<'static> = crate::pacific::EASTER;
