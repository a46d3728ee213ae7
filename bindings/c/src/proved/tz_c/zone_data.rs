// Generated from crates/tz_c/src/zone_data.rt by bindings/erase: its contracts are cut. Change that file instead.
//! Zones as C passes them.

use crate::proved::tz_c::zones::{OffsetsData, PartsData, rule_of_lists};
use tz::proved::tz_zone::inner;

/// Parts that make a zone, and its offsets.
#[repr(C)]
#[derive(Clone, Copy)]
pub struct TzZone<'a> {
    pub parts: PartsData<'a>,
    pub offsets: OffsetsData,
}

impl<'a> TzZone<'a> {
    /// The zone as calls of the library take it.
    pub(crate) fn as_zone_data(&self) -> inner::ZoneData<'a> {
        inner::ZoneData::from_valid_parts(
            self.parts.transitions,
            self.parts.local_time_types,
            self.parts.leap_seconds,
            rule_of_lists(self.parts.fixed, self.parts.alternate),
            self.offsets.least,
            self.offsets.greatest,
        )
    }
}
