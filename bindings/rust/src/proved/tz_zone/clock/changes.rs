// Generated from crates/tz_zone/src/clock/changes.rt by bindings/erase: its contracts are cut. Change that file instead.
//! The first change of a zone's clock after an instant, and the last one before it.
//!
//! Up to the last transition a walk goes from position to position. It reads the types of
//! transitions, and looks for the instant at which one takes effect only if its type differs from
//! the one before. From the last one on the rule has the changes. The walk back does the same from
//! the rule on.

use super::binary_search::position_in;
use super::lookup::{type_at, type_before, type_of};
use super::segment::{Change, change_at};
use crate::proved::tz_rule::inner::{change_after, change_up_to};
use crate::proved::tz_rule::timezone::LocalTimeType;
use crate::proved::tz_zone::leap::leap_time::{
    effect_if_reached, effect_of_reached, existing_leap_time, first_begun, last_instant_up_to,
    leap_time,
};
use crate::proved::tz_zone::table::TransitionView;
use crate::proved::tz_zone::timezone::zone_data::ZoneData;

/// The first change of a rule after an instant: that of a zone with the rule and without
/// transitions.
#[inline]
const fn following_by_rule<'a>(zone: &ZoneData<'a>, unix_time: i64) -> Option<Change<'a>> {
    let rule = match zone.rule() {
        Some(value) => value,
        None => return None,
    };
    let change = match change_after(rule, unix_time) {
        Some(value) => value,
        None => return None,
    };
    Some(Change::new(change.unix_time, change.before, change.after))
}

/// The position at which the effect of a transition lies. It is not right after the transition
/// where the next one takes effect at the same instant.
const fn position_at_effect(zone: &ZoneData<'_>, index: usize, effect: i64) -> usize {
    let transitions = zone.transitions;
    let mut position = index + 1;
    if zone.leap_seconds.is_empty() {
        return position;
    }
    let unix_leap_time = existing_leap_time(zone.leap_seconds, effect);
    while position < transitions.len() && transitions[position].unix_leap_time() <= unix_leap_time {
        position += 1;
    }
    position
}

/// The last position of the run of `position`: the transitions from `position` up to it are to one
/// type, `local_time_type`. The position after all transitions is a run of its own: from there on
/// the rule has the types.
#[inline]
const fn end_of_run(
    zone: &ZoneData<'_>,
    position: usize,
    local_time_type: &LocalTimeType,
) -> usize {
    let transitions = zone.transitions;
    let mut end = position;
    while end + 1 < transitions.len() && type_of(zone, transitions[end]).is_same(local_time_type) {
        end += 1;
    }
    end
}

/// The first instant from `unix_time` on that has a leap time, and the position at which it lies.
#[inline(always)]
const fn first_position(zone: &ZoneData<'_>, unix_time: i64) -> Option<(i64, usize)> {
    let first = match first_begun(zone.leap_seconds, unix_time) {
        Some(value) => value,
        None => return None,
    };
    let position = match position_in(zone, first) {
        Some(value) => value,
        None => return None,
    };
    Some((first, position))
}

/// The change at the next transition after an instant that lies at a position, and the position
/// after it, if there are no leap seconds, that transition is to another type, and it is not the
/// last one. That is the usual case, and needs no walk.
#[inline]
const fn change_at_next<'a>(
    zone: &ZoneData<'a>,
    _unix_time: i64,
    position: usize,
) -> Option<(Change<'a>, usize)> {
    let transitions = zone.transitions;
    if !zone.leap_seconds.is_empty() || transitions.len() <= position + 1 {
        return None;
    }
    let next = transitions[position];
    let before = type_before(&mut TransitionView::new(transitions), zone, position);
    let after = type_of(zone, next);
    let change = match change_at(next.unix_leap_time(), Some(before), Some(after)) {
        Some(value) => value,
        None => return None,
    };
    Some((change, position + 1))
}

/// The first change of the clock after an instant that lies at a position, and the position after
/// it.
#[inline]
const fn following_from<'a>(
    zone: &ZoneData<'a>,
    unix_time: i64,
    position: usize,
) -> Option<(Change<'a>, usize)> {
    let transitions = zone.transitions;
    let mut since = unix_time;
    let mut position = position;
    while position < transitions.len() {
        let before = type_before(&mut TransitionView::new(transitions), zone, position);
        let end = end_of_run(zone, position, before);
        let effect = match effect_if_reached(zone.leap_seconds, transitions[end].unix_leap_time()) {
            Some(value) => value,
            None => return None,
        };
        let next = position_at_effect(zone, end, effect);
        let after = type_at(zone, next, effect);
        if let Some(change) = change_at(effect, Some(before), after) {
            return Some((change, next));
        }
        since = effect;
        position = next;
    }
    let change = match following_by_rule(zone, since) {
        Some(value) => value,
        None => return None,
    };
    Some((change, position))
}

/// The change at the transition with the index `position`, and the position after it, if the
/// transition before takes effect at the instant: as times rise, this one comparison shows that the
/// instant lies at `position`.
#[inline]
#[must_use]
pub const fn change_after_last<'a>(
    zone: &ZoneData<'a>,
    unix_time: i64,
    position: usize,
) -> Option<(Change<'a>, usize)> {
    let transitions = zone.transitions;
    if position == 0 || transitions.len() <= position || !zone.leap_seconds.is_empty() {
        return None;
    }
    if transitions[position - 1].unix_leap_time() != unix_time {
        return None;
    }
    change_at_next(zone, unix_time, position)
}

/// The first change of the clock after an instant, and the position after it.
#[inline(always)]
#[must_use]
pub const fn find_following<'a>(
    zone: &ZoneData<'a>,
    unix_time: i64,
) -> Option<(Change<'a>, usize)> {
    let transitions = zone.transitions;
    if transitions.is_empty() {
        let change = match following_by_rule(zone, unix_time) {
            Some(value) => value,
            None => return None,
        };
        return Some((change, 0));
    }
    let (since, position) = match first_position(zone, unix_time) {
        Some(value) => value,
        None => return None,
    };
    if position == transitions.len() {
        let change = match following_by_rule(zone, since) {
            Some(value) => value,
            None => return None,
        };
        return Some((change, position));
    }
    if let Some(found) = change_at_next(zone, since, position) {
        return Some(found);
    }
    following_from(zone, since, position)
}

/// The last change of a rule up to an instant: that of a zone with the rule and without
/// transitions.
#[inline]
const fn preceding_by_rule<'a>(zone: &ZoneData<'a>, last: i64) -> Option<Change<'a>> {
    let rule = match zone.rule() {
        Some(value) => value,
        None => return None,
    };
    let change = match change_up_to(rule, last) {
        Some(value) => value,
        None => return None,
    };
    Some(Change::new(change.unix_time, change.before, change.after))
}

/// The first position, from 1 on, of the run of `position`: the transitions from the one before it
/// up to `position` are to one type, `local_time_type`.
#[inline]
const fn start_of_run(
    zone: &ZoneData<'_>,
    position: usize,
    local_time_type: &LocalTimeType,
) -> usize {
    let transitions = zone.transitions;
    let mut start = position;
    while start > 1 && type_of(zone, transitions[start - 2]).is_same(local_time_type) {
        start -= 1;
    }
    start
}

/// The last instant before `unix_time` that has a leap time, and the position at which it lies.
#[inline(always)]
const fn last_position(zone: &ZoneData<'_>, unix_time: i64) -> Option<(i64, usize)> {
    let last = last_instant_up_to(zone.leap_seconds, unix_time - 1);
    let position = match position_in(zone, last) {
        Some(value) => value,
        None => return None,
    };
    Some((last, position))
}

/// The last change of the clock up to an instant that lies at a position, if it comes after all
/// transitions. From the effect of the last transition on, the seam, the rule has the types.
#[inline]
const fn preceding_after_table<'a>(
    zone: &ZoneData<'a>,
    position: usize,
    last: i64,
) -> Option<Change<'a>> {
    let transitions = zone.transitions;
    if position < transitions.len() {
        return None;
    }
    let change = match preceding_by_rule(zone, last) {
        Some(value) => value,
        None => return None,
    };
    let seam = effect_of_reached(
        zone.leap_seconds,
        transitions[position - 1].unix_leap_time(),
    );
    if change.unix_time() <= seam {
        return None;
    }
    Some(change)
}

/// The first position, from 1 on, of the run of a position. The position after all transitions is a
/// run of its own: from there on the rule has the types.
#[inline]
const fn first_of_run(zone: &ZoneData<'_>, position: usize) -> usize {
    let transitions = zone.transitions;
    if position == transitions.len() {
        return position;
    }
    let local_time_type = type_before(&mut TransitionView::new(transitions), zone, position);
    start_of_run(zone, position, local_time_type)
}

/// The first position of the run of a position, and the instant at which the transition before it
/// takes effect.
#[inline]
const fn run_start(zone: &ZoneData<'_>, position: usize) -> (usize, i64) {
    let transitions = zone.transitions;
    let start = first_of_run(zone, position);
    let effect = effect_of_reached(zone.leap_seconds, transitions[start - 1].unix_leap_time());
    (start, effect)
}

/// The change at the last transition before an instant, and the position before it, if the instant
/// a second earlier lies at a position, there are no leap seconds, that transition is from another
/// type, and it is not the last one of all. That is the usual case, and needs no walk.
#[inline]
const fn change_at_last<'a>(
    zone: &ZoneData<'a>,
    _unix_time: i64,
    position: usize,
) -> Option<(Change<'a>, usize)> {
    let transitions = zone.transitions;
    if transitions.len() <= position || position == 0 || !zone.leap_seconds.is_empty() {
        return None;
    }
    let last = transitions[position - 1];
    let time = last.unix_leap_time();
    if time == i64::MIN {
        return None;
    }
    let before = type_before(&mut TransitionView::new(transitions), zone, position - 1);
    let after = type_of(zone, last);
    let change = match change_at(time, Some(before), Some(after)) {
        Some(value) => value,
        None => return None,
    };
    Some((change, position - 1))
}

/// The change at the transition before `position`, and the position before it, if the transition
/// with the index `position` takes effect at the instant: then the instant a second earlier lies at
/// `position`.
#[inline]
#[must_use]
pub const fn change_before_next<'a>(
    zone: &ZoneData<'a>,
    unix_time: i64,
    position: usize,
) -> Option<(Change<'a>, usize)> {
    let transitions = zone.transitions;
    if position == 0 || transitions.len() <= position || !zone.leap_seconds.is_empty() {
        return None;
    }
    if transitions[position].unix_leap_time() != unix_time {
        return None;
    }
    change_at_last(zone, unix_time, position)
}

/// The position at which the instant before the effect of a transition lies, if it has a leap time.
/// Where several transitions take effect at that instant, it is the one before the first of them.
const fn position_before_effect(zone: &ZoneData<'_>, index: usize, effect: i64) -> Option<usize> {
    let transitions = zone.transitions;
    let unix_leap_time = match leap_time(zone.leap_seconds, effect - 1) {
        Some(value) => value,
        None => return None,
    };
    let mut position = index;
    while position > 0 && unix_leap_time < transitions[position - 1].unix_leap_time() {
        position -= 1;
    }
    Some(position)
}

/// The last change of the clock before an instant, and the position before it. After `last`, which
/// lies at `position`, there is none.
#[inline]
const fn preceding_from<'a>(
    zone: &ZoneData<'a>,
    _unix_time: i64,
    last: i64,
    position: usize,
) -> Option<(Change<'a>, usize)> {
    if let Some(change) = preceding_after_table(zone, position, last) {
        return Some((change, position));
    }
    let mut position = position;
    while position > 0 {
        let (start, effect) = run_start(zone, position);
        if effect == i64::MIN {
            return None;
        }
        let earlier = match position_before_effect(zone, start - 1, effect) {
            Some(value) => value,
            None => return None,
        };
        let before = type_before(&mut TransitionView::new(zone.transitions), zone, earlier);
        let after = type_at(zone, start, effect);
        if let Some(change) = change_at(effect, Some(before), after) {
            return Some((change, earlier));
        }
        position = earlier;
    }
    None
}

/// The last change of the clock before an instant, and the position before it.
#[inline(always)]
#[must_use]
pub const fn find_preceding<'a>(
    zone: &ZoneData<'a>,
    unix_time: i64,
) -> Option<(Change<'a>, usize)> {
    if unix_time == i64::MIN {
        return None;
    }
    if zone.transitions.is_empty() {
        let change = match preceding_by_rule(zone, unix_time - 1) {
            Some(value) => value,
            None => return None,
        };
        return Some((change, 0));
    }
    let (last, position) = match last_position(zone, unix_time) {
        Some(value) => value,
        None => return None,
    };
    if let Some(found) = change_at_last(zone, last + 1, position) {
        return Some(found);
    }
    preceding_from(zone, unix_time, last, position)
}
