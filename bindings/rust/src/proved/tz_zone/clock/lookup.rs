// Generated from crates/tz_zone/src/clock/lookup.rt by bindings/erase: its contracts are cut. Change that file instead.
//! The clock's type at an instant, over a view of the transitions.

use super::binary_search::position_at;
use super::segment::Segment;
use crate::proved::tz_base::error::TzError;
use crate::proved::tz_rule::timezone::LocalTimeType;
use crate::proved::tz_zone::table::{Transition, TransitionView};
use crate::proved::tz_zone::timezone::zone_data::ZoneData;

/// The segment around an instant of a clock whose transitions are all reached, or of one that has
/// none: that of the extra rule. Without a rule the segment is all time, with type number 0 if the
/// zone has no transitions, and otherwise with none.
#[inline(always)]
pub(super) const fn after_table<'a>(
    zone: &ZoneData<'a>,
    is_empty: bool,
    unix_time: i64,
) -> Segment<'a> {
    let Some(rule) = zone.rule() else {
        return Segment {
            from: i64::MIN,
            last: i64::MAX,
            local_time_type: if is_empty {
                Some(&zone.local_time_types[0])
            } else {
                None
            },
        };
    };
    let segment = crate::proved::tz_rule::inner::segment_at(rule, unix_time);
    Segment {
        from: segment.from,
        last: segment.last,
        local_time_type: segment.local_time_type,
    }
}

/// The type at an instant from the last transition on.
#[inline]
pub(super) const fn type_from_last<'a>(
    zone: &ZoneData<'a>,
    unix_time: i64,
) -> Option<&'a LocalTimeType> {
    after_table(zone, false, unix_time).local_time_type
}

/// The last transition before a position. Position 0 has none: there it is one at the least leap
/// time, to the first type.
#[inline]
pub(super) const fn before(view: &mut TransitionView<'_>, position: usize) -> Transition {
    if position == 0 {
        return Transition::new(i64::MIN, 0);
    }
    view.look(position - 1)
}

/// The type of a transition.
#[inline]
pub(super) const fn type_of<'a>(zone: &ZoneData<'a>, change: Transition) -> &'a LocalTimeType {
    &zone.local_time_types[change.local_time_type_index()]
}

/// The type of the last transition before a position, or the first type if there is none.
#[inline]
pub(super) const fn type_before<'a>(
    view: &mut TransitionView<'_>,
    zone: &ZoneData<'a>,
    position: usize,
) -> &'a LocalTimeType {
    let change = before(view, position);
    type_of(zone, change)
}

/// The type at an instant, from a position at which it lies, or from an earlier position whose type
/// is the same.
#[inline]
pub(super) const fn type_at<'a>(
    zone: &ZoneData<'a>,
    position: usize,
    unix_time: i64,
) -> Option<&'a LocalTimeType> {
    let transitions = zone.transitions;
    if position == transitions.len() {
        return type_from_last(zone, unix_time);
    }
    Some(type_before(
        &mut TransitionView::new(transitions),
        zone,
        position,
    ))
}

/// Why there is no type from the last transition on, or in a zone without transitions: there is no
/// rule, or it is not defined at the instant.
#[inline]
const fn fault_after(zone: &ZoneData<'_>) -> TzError {
    match zone.rule() {
        Some(_) => TzError::OutOfRange,
        None => TzError::NoAvailableLocalTimeType,
    }
}

/// The clock's type at an instant. (RFC 8536, section 3.2)
#[inline(always)]
pub const fn find_local_time_type<'a>(
    view: &mut TransitionView<'_>,
    zone: &ZoneData<'a>,
    unix_time: i64,
) -> Result<&'a LocalTimeType, TzError> {
    let count = view.len();
    if count > 0 {
        let Some(position) = position_at(view, zone, unix_time) else {
            return Err(TzError::OutOfRange);
        };
        if position < count {
            return Ok(type_before(view, zone, position));
        }
    }
    match after_table(zone, count == 0, unix_time).local_time_type {
        Some(local_time_type) => Ok(local_time_type),
        None => Err(fault_after(zone)),
    }
}
