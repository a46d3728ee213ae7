// Generated from crates/tz_zone/src/clock/segment.rt by bindings/erase: its contracts are cut. Change that file instead.
//! Changes of a clock, and segments: spans of time through which it keeps its type.

use super::binary_search::position_at;
use super::lookup::{after_table, before, type_of};
use crate::proved::tz_rule::timezone::LocalTimeType;
use crate::proved::tz_zone::leap::LeapSecond;
use crate::proved::tz_zone::leap::leap_time::{
    effect_of_reached, first_begun, has_begun, last_before, last_instant, last_instant_up_to,
};
use crate::proved::tz_zone::table::{Transition, TransitionView};
use crate::proved::tz_zone::timezone::zone_data::ZoneData;

/// A change of the clock of a zone, from one type to another.
#[derive(Clone, Copy, Debug, PartialEq, Eq, Hash)]
pub struct Change<'a> {
    unix_time: i64,
    before: &'a LocalTimeType,
    after: &'a LocalTimeType,
}

impl<'a> Change<'a> {
    /// The change with these parts.
    pub(crate) const fn new(
        unix_time: i64,
        before: &'a LocalTimeType,
        after: &'a LocalTimeType,
    ) -> Self {
        Change {
            unix_time,
            before,
            after,
        }
    }

    /// The first instant with the new type, in Unix seconds.
    #[must_use]
    pub const fn unix_time(&self) -> i64 {
        self.unix_time
    }

    /// The type at the instant before.
    #[must_use]
    pub const fn before(&self) -> &'a LocalTimeType {
        self.before
    }

    /// The type from the instant on.
    #[must_use]
    pub const fn after(&self) -> &'a LocalTimeType {
        self.after
    }
}

/// The change at an instant, by the types at the instant before and at it.
#[inline]
pub(super) const fn change_at<'a>(
    unix_time: i64,
    before: Option<&'a LocalTimeType>,
    after: Option<&'a LocalTimeType>,
) -> Option<Change<'a>> {
    let before = match before {
        Some(value) => value,
        None => return None,
    };
    let after = match after {
        Some(value) => value,
        None => return None,
    };
    if before.is_same(after) {
        return None;
    }
    Some(Change::new(unix_time, before, after))
}

/// A span of time through which the clock of a zone has one type, or none.
///
/// The next segment may have the same type: a segment also ends at a transition to an equal type. A
/// [`Change`](super::Change) is an instant at which the type differs.
#[derive(Clone, Copy, Debug, PartialEq, Eq, Hash)]
pub struct Segment<'a> {
    pub(super) from: i64,
    pub(super) last: i64,
    pub(super) local_time_type: Option<&'a LocalTimeType>,
}

impl<'a> Segment<'a> {
    /// The first instant, in Unix seconds.
    #[must_use]
    pub const fn from(&self) -> i64 {
        self.from
    }

    /// The last instant, in Unix seconds. The segment around the next one may begin before it.
    #[must_use]
    pub const fn last(&self) -> i64 {
        self.last
    }

    /// The type that the clock has throughout the segment, or `None` if it has none.
    #[must_use]
    pub const fn local_time_type(&self) -> Option<&'a LocalTimeType> {
        self.local_time_type
    }

    /// Whether an instant, in Unix seconds, is in the segment.
    #[must_use]
    pub const fn contains(&self, unix_time: i64) -> bool {
        self.from <= unix_time && unix_time <= self.last
    }
}

/// The last instant before a truncated start.
#[inline]
const fn last_before_start(leap_seconds: &[LeapSecond], unix_time: i64) -> i64 {
    let Some(first) = first_begun(leap_seconds, unix_time) else {
        return i64::MAX;
    };
    first - 1
}

/// The first instant from which on none has a leap time, because it would leave 64 bits.
#[inline]
const fn first_past(leap_seconds: &[LeapSecond], _unix_time: i64) -> i64 {
    last_instant(leap_seconds) + 1
}

/// The segment of instants that have no leap time.
#[inline]
const fn undefined_segment<'a>(leap_seconds: &[LeapSecond], unix_time: i64) -> Segment<'a> {
    if has_begun(leap_seconds, unix_time) {
        return Segment {
            from: first_past(leap_seconds, unix_time),
            last: i64::MAX,
            local_time_type: None,
        };
    }
    Segment {
        from: i64::MIN,
        last: last_before_start(leap_seconds, unix_time),
        local_time_type: None,
    }
}

/// The segment around an instant at which the last transition is reached.
#[inline]
const fn segment_from_last<'a>(
    zone: &ZoneData<'a>,
    last: Transition,
    unix_time: i64,
) -> Segment<'a> {
    let from = effect_of_reached(zone.leap_seconds, last.unix_leap_time());
    let segment = after_table(zone, false, unix_time);
    Segment {
        from: crate::shim::greatest!(from, segment.from),
        last: last_instant_up_to(zone.leap_seconds, segment.last),
        local_time_type: segment.local_time_type,
    }
}

/// The segment around an instant that lies at a position.
#[inline(always)]
const fn segment_at_position<'a>(
    view: &mut TransitionView<'_>,
    zone: &ZoneData<'a>,
    position: usize,
    unix_time: i64,
) -> Segment<'a> {
    let before = before(view, position);
    if position == view.len() {
        return segment_from_last(zone, before, unix_time);
    }
    let next = view.look(position);
    Segment {
        from: effect_of_reached(zone.leap_seconds, before.unix_leap_time()),
        last: last_before(zone.leap_seconds, next.unix_leap_time()),
        local_time_type: Some(type_of(zone, before)),
    }
}

/// The segment of the clock around an instant.
#[inline(always)]
pub const fn clock_segment_at<'a>(
    view: &mut TransitionView<'_>,
    zone: &ZoneData<'a>,
    unix_time: i64,
) -> Segment<'a> {
    if view.len() == 0 {
        return after_table(zone, true, unix_time);
    }
    let Some(position) = position_at(view, zone, unix_time) else {
        return undefined_segment(zone.leap_seconds, unix_time);
    };
    segment_at_position(view, zone, position, unix_time)
}
