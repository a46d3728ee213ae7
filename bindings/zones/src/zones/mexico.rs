// Made by `generate` of the tz database, which is in the public domain.

//! Zones of `Mexico`.

use tz::TimeZoneRef;

/// `Mexico/BajaNorte`, the same as [`America/Tijuana`](crate::america::TIJUANA).
pub const BAJANORTE: TimeZoneRef<'static> = crate::america::TIJUANA;

/// `Mexico/BajaSur`, the same as [`America/Mazatlan`](crate::america::MAZATLAN).
pub const BAJASUR: TimeZoneRef<'static> = crate::america::MAZATLAN;

/// `Mexico/General`, the same as [`America/Mexico_City`](crate::america::MEXICO_CITY).
pub const GENERAL: TimeZoneRef<'static> = crate::america::MEXICO_CITY;
