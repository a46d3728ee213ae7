//! chrono's `TimeZone` over zones of the crates tz and tz-zones, so that `chrono::DateTime` has exact searches, zones of your own and those of the machine.
//!
//! ```
//! use chrono::TimeZone;
//! use tz_chrono::Zone;
//!
//! const PARIS: Zone<'static> = Zone::new(tz_zones::europe::PARIS).unwrap();
//!
//! let shown = PARIS.timestamp_opt(1_751_328_000, 0).unwrap();
//! assert_eq!(shown.to_string(), "2025-07-01 02:00:00 CEST");
//! // Clocks are set back at 3:00, so half past two comes twice.
//! let twice = PARIS.with_ymd_and_hms(2025, 10, 26, 2, 30, 0);
//! assert_eq!(twice.latest().unwrap().to_rfc3339(), "2025-10-26T02:30:00+01:00");
//! ```
#![forbid(unsafe_code)]
#![deny(missing_docs)]

#[cfg(doctest)]
#[doc = include_str!("../README.md")]
#[doc = include_str!("../../../docs/ADOPTING.md")]
mod pages {}

use chrono::{
    Datelike, FixedOffset, LocalResult, NaiveDate, NaiveDateTime, NaiveTime, Offset, TimeZone,
    Timelike,
};
use core::fmt;
use tz::datetime::{FoundDateTimeKind, Meaning};
use tz::timezone::TransitionRule;
use tz::{DateTime, LocalTimeType, TimeZoneRef, UtcDateTime};

/// A day, in seconds. chrono's offsets are shorter.
const DAY: i32 = 86_400;

/// Whether chrono has the offset.
const fn fits(local_time_type: &LocalTimeType) -> bool {
    -DAY < local_time_type.ut_offset() && local_time_type.ut_offset() < DAY
}

/// A zone of tz as a `chrono::TimeZone`.
#[derive(Clone, Copy, Debug, PartialEq, Eq)]
pub struct Zone<'a>(TimeZoneRef<'a>);

impl<'a> Zone<'a> {
    /// The zone, if chrono can have an offset of it at each instant: each is shorter than a day, and a rule follows the transitions, if there are some.
    ///
    /// All zones of tz-zones are such.
    #[must_use]
    pub const fn new(zone: TimeZoneRef<'a>) -> Option<Self> {
        let types = zone.local_time_types();
        let mut index = 0;
        while index < types.len() {
            if !fits(&types[index]) {
                return None;
            }
            index += 1;
        }
        let is_whole = match zone.extra_rule() {
            None => zone.transitions().is_empty(),
            Some(TransitionRule::Fixed(local_time_type)) => fits(local_time_type),
            Some(TransitionRule::Alternate(rule)) => fits(rule.std()) && fits(rule.dst()),
        };
        if is_whole { Some(Zone(zone)) } else { None }
    }

    /// The zone of tz.
    #[must_use]
    pub const fn zone(&self) -> TimeZoneRef<'a> {
        self.0
    }

    /// The offset of this type.
    const fn offset(&self, local_time_type: LocalTimeType) -> ZoneOffset<'a> {
        let zone = *self;
        ZoneOffset {
            zone,
            local_time_type,
        }
    }

    /// The offset at a Unix time.
    fn offset_at(&self, unix_time: i64) -> ZoneOffset<'a> {
        let found = self.0.find_local_time_type(unix_time);
        self.offset(
            *found.expect("a zone with a rule has a type at each instant of chrono's years"),
        )
    }
}

/// The offset of a zone at some instant.
#[derive(Clone, Copy, PartialEq, Eq)]
pub struct ZoneOffset<'a> {
    zone: Zone<'a>,
    local_time_type: LocalTimeType,
}

impl ZoneOffset<'_> {
    /// Its local time type: the offset, whether it is daylight saving time, and the name.
    #[must_use]
    pub const fn local_time_type(&self) -> &LocalTimeType {
        &self.local_time_type
    }
}

impl Offset for ZoneOffset<'_> {
    fn fix(&self) -> FixedOffset {
        let offset = FixedOffset::east_opt(self.local_time_type.ut_offset());
        offset.expect("`Zone::new` has checked it")
    }
}

/// Prints the name of the local time type, or the offset if it has none.
impl fmt::Display for ZoneOffset<'_> {
    fn fmt(&self, f: &mut fmt::Formatter<'_>) -> fmt::Result {
        match self.local_time_type.time_zone_designation() {
            "" => self.fix().fmt(f),
            name => f.write_str(name),
        }
    }
}

/// Prints the offset, and the name of the local time type if it has one: `+02:00 CEST`. The zone's
/// tables, which would fill pages, are in `Zone`'s.
impl fmt::Debug for ZoneOffset<'_> {
    fn fmt(&self, f: &mut fmt::Formatter<'_>) -> fmt::Result {
        fmt::Debug::fmt(&self.fix(), f)?;
        match self.local_time_type.time_zone_designation() {
            "" => Ok(()),
            name => write!(f, " {name}"),
        }
    }
}

impl<'a> TimeZone for Zone<'a> {
    type Offset = ZoneOffset<'a>;

    fn from_offset(offset: &Self::Offset) -> Self {
        offset.zone
    }

    fn offset_from_local_date(&self, local: &NaiveDate) -> LocalResult<Self::Offset> {
        self.offset_from_local_datetime(&local.and_time(NaiveTime::default()))
    }

    /// No offset where clocks skip the local time, one, or the first and the last of several.
    fn offset_from_local_datetime(&self, local: &NaiveDateTime) -> LocalResult<Self::Offset> {
        let small = |number: u32| number as u8; // All of these are below 61.
        let (date, time) = (local.date(), local.time());
        let fields = UtcDateTime::new(
            date.year(),
            small(date.month()),
            small(date.day()),
            small(time.hour()),
            small(time.minute()),
            small(time.second()),
            0,
        );
        let fields = fields.expect("chrono's fields are in range");
        let offset = |date_time: DateTime| self.offset(*date_time.local_time_type());
        let in_years = "chrono's years are far from the ends of an i32";
        match DateTime::meaning_local(fields, self.0).expect(in_years) {
            Meaning::Nothing | Meaning::Skipped { .. } => LocalResult::None,
            Meaning::Once(shown) => LocalResult::Single(offset(shown)),
            Meaning::Twice { first, last } => LocalResult::Ambiguous(offset(first), offset(last)),
            Meaning::More(_) => {
                let found = DateTime::find_local(fields, self.0).expect(in_years);
                let mut shown = found.iter().filter_map(|entry| match entry {
                    FoundDateTimeKind::Normal(date_time) => Some(offset(*date_time)),
                    FoundDateTimeKind::Skipped { .. } => None,
                });
                match (shown.next(), shown.next_back()) {
                    (None, _) => LocalResult::None,
                    (Some(first), None) => LocalResult::Single(first),
                    (Some(first), Some(last)) => LocalResult::Ambiguous(first, last),
                }
            }
        }
    }

    fn offset_from_utc_date(&self, utc: &NaiveDate) -> Self::Offset {
        self.offset_from_utc_datetime(&utc.and_time(NaiveTime::default()))
    }

    fn offset_from_utc_datetime(&self, utc: &NaiveDateTime) -> Self::Offset {
        #[allow(deprecated)] // Of newer versions: this is also there in the oldest.
        self.offset_at(utc.timestamp())
    }
}
