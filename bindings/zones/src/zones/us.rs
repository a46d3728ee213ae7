// Made by `generate` of the tz database, which is in the public domain.

//! Zones of `US`.

use tz::TimeZoneRef;

/// `US/Alaska`, the same as [`America/Anchorage`](crate::america::ANCHORAGE).
pub const ALASKA: TimeZoneRef<'static> = crate::america::ANCHORAGE;

/// `US/Aleutian`, the same as [`America/Adak`](crate::america::ADAK).
pub const ALEUTIAN: TimeZoneRef<'static> = crate::america::ADAK;

/// `US/Arizona`, the same as [`America/Phoenix`](crate::america::PHOENIX).
pub const ARIZONA: TimeZoneRef<'static> = crate::america::PHOENIX;

/// `US/Central`, the same as [`America/Chicago`](crate::america::CHICAGO).
pub const CENTRAL: TimeZoneRef<'static> = crate::america::CHICAGO;

/// `US/East-Indiana`, the same as
/// [`America/Indiana/Indianapolis`](crate::america::indiana::INDIANAPOLIS).
pub const EAST_INDIANA: TimeZoneRef<'static> = crate::america::indiana::INDIANAPOLIS;

/// `US/Eastern`, the same as [`America/New_York`](crate::america::NEW_YORK).
pub const EASTERN: TimeZoneRef<'static> = crate::america::NEW_YORK;

/// `US/Hawaii`, the same as [`Pacific/Honolulu`](crate::pacific::HONOLULU).
pub const HAWAII: TimeZoneRef<'static> = crate::pacific::HONOLULU;

/// `US/Indiana-Starke`, the same as [`America/Indiana/Knox`](crate::america::indiana::KNOX).
pub const INDIANA_STARKE: TimeZoneRef<'static> = crate::america::indiana::KNOX;

/// `US/Michigan`, the same as [`America/Detroit`](crate::america::DETROIT).
pub const MICHIGAN: TimeZoneRef<'static> = crate::america::DETROIT;

/// `US/Mountain`, the same as [`America/Denver`](crate::america::DENVER).
pub const MOUNTAIN: TimeZoneRef<'static> = crate::america::DENVER;

/// `US/Pacific`, the same as [`America/Los_Angeles`](crate::america::LOS_ANGELES).
pub const PACIFIC: TimeZoneRef<'static> = crate::america::LOS_ANGELES;

/// `US/Samoa`, the same as [`Pacific/Pago_Pago`](crate::pacific::PAGO_PAGO).
pub const SAMOA: TimeZoneRef<'static> = crate::pacific::PAGO_PAGO;
