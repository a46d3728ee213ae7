// Generated from crates/tz_c/src/date_time_data.rt by bindings/erase: its contracts are cut. Change that file instead.
//! Date times, and what a search finds, in C's layout.

use tz::proved::tz::datetime::FoundDateTimeKind;
use tz::proved::tz::inner::{DateTimeSlot, Fields, Slot, fields_of, utc_fields_of};
use tz::proved::tz::{DateTime, UtcDateTime};
use tz::proved::tz_rule::timezone::LocalTimeType;

/// The data of a [`UtcDateTime`], laid out as that is.
#[repr(C)]
#[derive(Clone, Copy)]
pub struct UtcData {
    /// The fields.
    pub(crate) fields: Fields,
    /// The reading of the fields: the seconds from 1970-01-01T00:00:00 to them, where second 60 is
    /// the next minute's second 0.
    pub(crate) unix_time: i64,
}

/// The data of a [`DateTime`], laid out as that is.
#[repr(C)]
#[derive(Clone, Copy)]
pub struct DateTimeData {
    /// The fields.
    pub(crate) fields: Fields,
    /// The type that shows them.
    pub(crate) local_time_type: LocalTimeType,
    /// The Unix time of the date time.
    pub(crate) unix_time: i64,
}

/// The data of a [`FoundDateTimeKind`].
#[repr(C)]
#[derive(Clone, Copy)]
pub struct FoundData {
    /// Whether the clock was set forward over the date time.
    pub(crate) is_skipped: bool,
    /// The date time, or the one before the jump.
    pub(crate) before: DateTimeData,
    /// The date time, or the one after the jump.
    pub(crate) after: DateTimeData,
}

impl UtcData {
    /// The data of a date time.
    pub(crate) fn of(date_time: &UtcDateTime) -> Self {
        UtcData {
            fields: *utc_fields_of(date_time),
            unix_time: date_time.unix_time(),
        }
    }
}

impl DateTimeData {
    /// The data of a date time.
    pub(crate) fn of(date_time: &DateTime) -> Self {
        DateTimeData {
            fields: *fields_of(date_time),
            local_time_type: *date_time.local_time_type(),
            unix_time: date_time.unix_time(),
        }
    }
}

impl DateTimeSlot for DateTimeData {
    fn set(&mut self, fields: &Fields, local_time_type: &LocalTimeType, unix_time: i64) {
        *self = DateTimeData {
            fields: *fields,
            local_time_type: *local_time_type,
            unix_time,
        };
    }
}

impl Slot for FoundData {
    fn set(&mut self, found: &FoundDateTimeKind) {
        let (is_skipped, before, after) = match found {
            FoundDateTimeKind::Normal(date_time) => (false, date_time, date_time),
            FoundDateTimeKind::Skipped {
                before_transition,
                after_transition,
            } => (true, before_transition, after_transition),
        };
        self.is_skipped = is_skipped;
        self.before = DateTimeData::of(before);
        self.after = DateTimeData::of(after);
    }
}
