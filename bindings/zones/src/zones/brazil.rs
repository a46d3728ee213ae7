// Made by `generate` of the tz database, which is in the public domain.

//! Zones of `Brazil`.

use tz::TimeZoneRef;

/// `Brazil/Acre`, the same as [`America/Rio_Branco`](crate::america::RIO_BRANCO).
pub const ACRE: TimeZoneRef<'static> = crate::america::RIO_BRANCO;

/// `Brazil/DeNoronha`, the same as [`America/Noronha`](crate::america::NORONHA).
pub const DENORONHA: TimeZoneRef<'static> = crate::america::NORONHA;

/// `Brazil/East`, the same as [`America/Sao_Paulo`](crate::america::SAO_PAULO).
pub const EAST: TimeZoneRef<'static> = crate::america::SAO_PAULO;

/// `Brazil/West`, the same as [`America/Manaus`](crate::america::MANAUS).
pub const WEST: TimeZoneRef<'static> = crate::america::MANAUS;
