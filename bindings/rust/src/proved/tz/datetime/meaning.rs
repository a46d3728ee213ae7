// Generated from crates/tz/src/datetime/meaning.rt by bindings/erase: its contracts are cut. Change that file instead.
//! What a local time means in a zone: how often clocks show it, and whether they are set forward
//! over it.

use super::entry_ends::{Entry, ends_by_types};
use super::gaps_and_folds::{types_of_window, window_of};
use super::{DateTime, UtcDateTime};
use crate::proved::tz_base::error::TzError;
use crate::proved::tz_base::fields::Fields;
use crate::proved::tz_zone::inner::ZoneData;
use crate::proved::tz_zone::timezone::TimeZoneRef;

/// What a local time means in a zone: the instants at which clocks show it, and the jumps over it.
#[derive(Clone, Copy, Debug, PartialEq, Eq)]
pub enum Meaning {
    /// Clocks never show it, and are not set forward over it. This is so if the zone has no clock
    /// then.
    Nothing,
    /// Clocks show it once.
    Once(DateTime),
    /// Clocks show it twice, as when they are set back.
    Twice {
        /// The earlier date time.
        first: DateTime,
        /// The later one.
        last: DateTime,
    },
    /// Clocks are set forward over it. Both sides have the Unix time of the jump, and the
    /// nanoseconds of the local time.
    Skipped {
        /// The date time that the clock would have shown without the jump.
        before_transition: DateTime,
        /// The date time that the clock shows.
        after_transition: DateTime,
    },
    /// Any other list, as of a jump and a date time, by the number of its entries.
    /// [`DateTime::find`] returns them.
    More(usize),
}

/// What fields mean in a zone.
#[inline]
fn meaning_in(fields: &Fields, zone: &ZoneData<'_>) -> Result<Meaning, TzError> {
    fields.check()?;
    let reading = fields.reading();
    let (low, high) = window_of(zone, reading);
    let types = types_of_window(zone, low, high);
    let ends = ends_by_types(reading, zone, types, low, high)?;
    let Some(first) = ends.first else {
        return Ok(Meaning::Nothing);
    };
    let Some(last) = ends.last else {
        return Ok(Meaning::Nothing);
    };
    match first {
        Entry::Shown(unix_time, local_time_type) if ends.count == 1 => {
            let date_time = DateTime::of_fields(fields, *local_time_type, unix_time);
            Ok(Meaning::Once(date_time))
        }
        Entry::Jump(unix_time, before, after) if ends.count == 1 => {
            let before_transition = DateTime::shown_by(unix_time, fields.nanoseconds, *before)?;
            let after_transition = DateTime::shown_by(unix_time, fields.nanoseconds, *after)?;
            Ok(Meaning::Skipped {
                before_transition,
                after_transition,
            })
        }
        Entry::Shown(unix_time, before) if ends.count == 2 => match last {
            Entry::Shown(later, after) => {
                let first = DateTime::of_fields(fields, *before, unix_time);
                let last = DateTime::of_fields(fields, *after, later);
                Ok(Meaning::Twice { first, last })
            }
            Entry::Jump(..) => Ok(Meaning::More(2)),
        },
        _ => Ok(Meaning::More(ends.count)),
    }
}

impl DateTime {
    /// What the fields mean in the zone: how often clocks show them, and whether they are set
    /// forward over them. This call does not allocate.
    ///
    /// The month is from 1 to 12, the day of the month from 1, the hour from 0 to 23, the minute
    /// from 0 to 59, the second from 0 to 60 and the nanoseconds below 10^9.
    ///
    /// # Errors
    ///
    /// Those of [`DateTime::find`] but `Memory`.
    #[allow(clippy::too_many_arguments)]
    #[inline]
    pub fn meaning(
        year: i32,
        month: u8,
        month_day: u8,
        hour: u8,
        minute: u8,
        second: u8,
        nanoseconds: u32,
        time_zone_ref: TimeZoneRef<'_>,
    ) -> Result<Meaning, TzError> {
        let fields = Fields::new(year, month, month_day, hour, minute, second, nanoseconds);
        meaning_in(&fields, &ZoneData::of(&time_zone_ref))
    }

    /// What the local time means in the zone. The `UtcDateTime` is read as a local time, without an
    /// offset. This call does not allocate.
    ///
    /// # Errors
    ///
    /// [`TzError::OutOfRange`] as for [`DateTime::find`].
    #[inline]
    pub fn meaning_local(
        local: UtcDateTime,
        time_zone_ref: TimeZoneRef<'_>,
    ) -> Result<Meaning, TzError> {
        meaning_in(local.fields(), &ZoneData::of(&time_zone_ref))
    }
}
