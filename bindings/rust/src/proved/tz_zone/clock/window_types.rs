// Generated from crates/tz_zone/src/clock/window_types.rt by bindings/erase: its contracts are cut. Change that file instead.
//! The types that a clock has in a window of instants, and its spans one after the other.

use super::binary_search::{position_at, position_of};
use super::lookup::{after_table, type_before, type_of};
use crate::proved::tz_rule::timezone::LocalTimeType;
use crate::proved::tz_zone::leap::leap_time::{
    effect_of_reached, first_begun, last_before, leap_time, stay_before,
};
use crate::proved::tz_zone::table::TransitionView;
use crate::proved::tz_zone::timezone::zone_data::ZoneData;

/// How far a walk along a clock has come.
#[derive(Clone, Copy)]
pub struct Stage<'a> {
    /// How many transitions are passed. The next one may take effect at the same instant; then the
    /// span between them is empty.
    pub position: usize,
    /// The type of the last of them, or the first type. After all transitions it is not used: there
    /// the rule has the types.
    pub local_time_type: &'a LocalTimeType,
}

/// A span of time through which a clock has one type, or none: a piece of a `Segment`, from where a
/// walk has come to up to the segment's end or the walk's last instant.
#[derive(Clone, Copy)]
pub struct Span<'a> {
    /// The last instant, which is before the first one in an empty span.
    pub last: i64,
    /// The type, where the clock has one.
    pub local_time_type: Option<&'a LocalTimeType>,
    /// Where the walk goes on after it.
    pub next: Stage<'a>,
}

/// The first instant from `unix_time` on that has a leap time, and the stage of a walk that begins
/// there. `position` is that of `unix_time`, or `None` if there are transitions and it has no leap
/// time. In a zone without transitions the first instant is `unix_time` itself.
pub const fn first_stage<'a>(
    view: &mut TransitionView<'_>,
    zone: &ZoneData<'a>,
    position: Option<usize>,
    unix_time: i64,
) -> Option<(i64, Stage<'a>)> {
    if let Some(position) = position {
        let local_time_type = type_before(view, zone, position);
        return Some((
            unix_time,
            Stage {
                position,
                local_time_type,
            },
        ));
    }
    let first = match first_begun(zone.leap_seconds, unix_time) {
        Some(value) => value,
        None => return None,
    };
    let position = match position_at(view, zone, first) {
        Some(value) => value,
        None => return None,
    };
    let local_time_type = type_before(view, zone, position);
    Some((
        first,
        Stage {
            position,
            local_time_type,
        },
    ))
}

/// The span of a clock from where a walk has come to, up to `high` at most. `high` is not above
/// `ALWAYS_DEFINED_UP_TO` of `leap_time.rt`, so every instant from `since` to it has a leap time.
pub const fn span_from<'a>(
    view: &mut TransitionView<'_>,
    zone: &ZoneData<'a>,
    stage: Stage<'a>,
    since: i64,
    high: i64,
) -> Span<'a> {
    let count = view.len();
    if stage.position == count {
        let segment = after_table(zone, count == 0, since);
        return Span {
            last: crate::shim::least!(segment.last, high),
            local_time_type: segment.local_time_type,
            next: stage,
        };
    }
    let next = view.look(stage.position);
    Span {
        last: crate::shim::least!(last_before(zone.leap_seconds, next.unix_leap_time()), high),
        local_time_type: Some(stage.local_time_type),
        next: Stage {
            position: stage.position + 1,
            local_time_type: type_of(zone, next),
        },
    }
}

/// The types that a clock has in a window of instants.
#[derive(Clone, Copy)]
pub enum WindowTypes<'a> {
    /// One type throughout.
    One(&'a LocalTimeType),
    /// One type up to an instant, and another from there on.
    Two {
        /// The instant from which on the clock has the second type.
        unix_time: i64,
        /// The type before that.
        before: &'a LocalTimeType,
        /// The type from there on.
        after: &'a LocalTimeType,
    },
    /// Perhaps more, or none at some instant; with the position at which the first instant lies, or
    /// `None` if there are transitions and it has no leap time.
    More(Option<usize>),
}

/// The type that the clock has throughout, from one instant up to another, both from the last
/// transition on or in a zone without transitions; `None` if it has none or several.
#[inline]
const fn type_through<'a>(
    zone: ZoneData<'a>,
    is_empty: bool,
    unix_time: i64,
    high: i64,
) -> Option<&'a LocalTimeType> {
    let segment = after_table(&zone, is_empty, unix_time);
    if segment.last < high {
        return None;
    }
    segment.local_time_type
}

/// The types in a window after the last of so many transitions, or in a zone that has none.
#[inline(always)]
const fn types_after_table<'a>(
    zone: ZoneData<'a>,
    count: usize,
    low: i64,
    high: i64,
) -> WindowTypes<'a> {
    let first = after_table(&zone, count == 0, low);
    let Some(before) = first.local_time_type else {
        return WindowTypes::More(Some(count));
    };
    if high <= first.last {
        return WindowTypes::One(before);
    }
    let unix_time = first.last + 1;
    match type_through(zone, count == 0, unix_time, high) {
        Some(after) => WindowTypes::Two {
            unix_time,
            before,
            after,
        },
        None => WindowTypes::More(Some(count)),
    }
}

/// The types in a window that begins at a position before the last transition, whose first instant
/// has a leap time.
#[inline(always)]
const fn types_at_position<'a>(
    view: &mut TransitionView<'_>,
    zone: ZoneData<'a>,
    position: usize,
    low: i64,
    low_leap_time: i64,
    high: i64,
) -> WindowTypes<'a> {
    let leap_seconds = zone.leap_seconds;
    let count = view.len();
    let next = view.look(position);
    let next_leap_time = next.unix_leap_time();
    // Without leap seconds the leap time of `high` is `high` itself, so that this test would save
    // nothing.
    if !leap_seconds.is_empty()
        && stay_before(leap_seconds, low, low_leap_time, high, next_leap_time)
    {
        return WindowTypes::One(type_before(view, &zone, position));
    }
    let Some(high_leap_time) = leap_time(leap_seconds, high) else {
        return WindowTypes::More(Some(position));
    };
    if high_leap_time < next_leap_time {
        return WindowTypes::One(type_before(view, &zone, position));
    }
    // From the last transition on the rule has the types: a walk finds them.
    if position + 1 == count {
        return WindowTypes::More(Some(position));
    }
    let later = view.look(position + 1);
    let later_leap_time = later.unix_leap_time();
    if later_leap_time <= high_leap_time {
        return WindowTypes::More(Some(position));
    }
    let unix_time = effect_of_reached(leap_seconds, next_leap_time);
    let before = type_before(view, &zone, position);
    let after = type_of(&zone, next);
    WindowTypes::Two {
        unix_time,
        before,
        after,
    }
}

/// The types of the clock in a window.
///
/// One or two types are known by the position at which the first instant lies and the one or two
/// transitions that come next, or by the rule; but not two if the last transition lies in the
/// window. Otherwise the answer is `More`.
#[inline(always)]
pub const fn window_types<'a>(
    view: &mut TransitionView<'_>,
    zone: ZoneData<'a>,
    low: i64,
    high: i64,
) -> WindowTypes<'a> {
    let count = view.len();
    if count > 0 {
        let last = view.look(count - 1);
        let Some(low_leap_time) = leap_time(zone.leap_seconds, low) else {
            return WindowTypes::More(None);
        };
        let position = position_of(view, last, low_leap_time);
        if position < count {
            return types_at_position(view, zone, position, low, low_leap_time, high);
        }
        // A window may end after the last instant that has a leap time; that of a search never
        // does.
        let Some(_) = leap_time(zone.leap_seconds, high) else {
            return WindowTypes::More(Some(position));
        };
    }
    types_after_table(zone, count, low, high)
}
