// Made by `generate` of the tz database, which is in the public domain.

//! Zones of `Canada`.

use tz::TimeZoneRef;

/// `Canada/Atlantic`, the same as [`America/Halifax`](crate::america::HALIFAX).
pub const ATLANTIC: TimeZoneRef<'static> = crate::america::HALIFAX;

/// `Canada/Central`, the same as [`America/Winnipeg`](crate::america::WINNIPEG).
pub const CENTRAL: TimeZoneRef<'static> = crate::america::WINNIPEG;

/// `Canada/Eastern`, the same as [`America/Toronto`](crate::america::TORONTO).
pub const EASTERN: TimeZoneRef<'static> = crate::america::TORONTO;

/// `Canada/Mountain`, the same as [`America/Edmonton`](crate::america::EDMONTON).
pub const MOUNTAIN: TimeZoneRef<'static> = crate::america::EDMONTON;

/// `Canada/Newfoundland`, the same as [`America/St_Johns`](crate::america::ST_JOHNS).
pub const NEWFOUNDLAND: TimeZoneRef<'static> = crate::america::ST_JOHNS;

/// `Canada/Pacific`, the same as [`America/Vancouver`](crate::america::VANCOUVER).
pub const PACIFIC: TimeZoneRef<'static> = crate::america::VANCOUVER;

/// `Canada/Saskatchewan`, the same as [`America/Regina`](crate::america::REGINA).
pub const SASKATCHEWAN: TimeZoneRef<'static> = crate::america::REGINA;

/// `Canada/Yukon`, the same as [`America/Whitehorse`](crate::america::WHITEHORSE).
pub const YUKON: TimeZoneRef<'static> = crate::america::WHITEHORSE;
