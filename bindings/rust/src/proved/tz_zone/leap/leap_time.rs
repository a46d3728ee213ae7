// Generated from crates/tz_zone/src/leap/leap_time.rt by bindings/erase: its contracts are cut. Change that file instead.
//! Leap times of instants, and instants of leap times.
//!
//! An instant may have a leap time (`leap_time`), is known to have one (`existing_leap_time`), or
//! is refused if it has none (`unix_time_to_unix_leap_time`). The way back is the effect: that of
//! a leap time which is known to be reached (`effect_of_reached`), which may be
//! (`effect_if_reached`), or which is refused if it is not (`effect`); `wide_effect` has more than
//! 64 bits.

use super::LeapSecond;
use super::table_checks::{correction_at_start, correction_before, truncated_start};
use crate::proved::tz_base::error::TzError;

/// Up to this instant no leap second takes the leap time out of 64 bits, whatever the table. It is
/// past all years of 32 bits, and far below 2^63 less any correction.
const ALWAYS_DEFINED_UP_TO: i64 = 80_000_000_000_000_000;

/// A leap time less a correction, in 128 bits.
pub(crate) const fn without_correction(time: i64, correction: i32) -> i128 {
    time as i128 - correction as i128
}

/// The first instant that does not lie before a truncated start, which may lie past 64 bits, or the
/// least instant where there is none.
pub(crate) const fn first_instant(leap_seconds: &[LeapSecond]) -> i128 {
    match truncated_start(leap_seconds) {
        Some(start) => without_correction(start.unix_leap_time(), start.correction()),
        None => i64::MIN as i128,
    }
}

/// Whether the instant is not before a truncated start.
pub(crate) const fn has_begun(leap_seconds: &[LeapSecond], unix_time: i64) -> bool {
    first_instant(leap_seconds) <= unix_time as i128
}

/// The first instant from `unix_time` on that does not lie before a truncated start, if there is
/// one.
#[inline]
pub(crate) const fn first_begun(leap_seconds: &[LeapSecond], unix_time: i64) -> Option<i64> {
    if has_begun(leap_seconds, unix_time) {
        return Some(unix_time);
    }
    match crate::shim::narrow(first_instant(leap_seconds)) {
        Ok(first) => Some(first),
        Err(_) => None,
    }
}

/// How many leap seconds are at or before a leap time, by binary search.
pub(crate) const fn leap_seconds_up_to(leap_seconds: &[LeapSecond], unix_leap_time: i64) -> usize {
    let mut low = 0;
    let mut high = leap_seconds.len();
    while low < high {
        let index = low + (high - low) / 2;
        if leap_seconds[index].unix_leap_time() <= unix_leap_time {
            low = index + 1;
        } else {
            high = index;
        }
    }
    low
}

/// Whether the leap second at an index is reached at an instant.
const fn is_reached(leap_seconds: &[LeapSecond], index: usize, unix_time: i64) -> bool {
    let correction = correction_before(leap_seconds, index);
    let time = leap_seconds[index].unix_leap_time();
    time as i128 <= unix_time as i128 + correction as i128
}

/// The first index, from `from` on, whose leap second is not reached, or the length of the list.
const fn first_not_reached(leap_seconds: &[LeapSecond], from: usize, unix_time: i64) -> usize {
    let mut index = from;
    while index < leap_seconds.len() && is_reached(leap_seconds, index, unix_time) {
        index += 1;
    }
    index
}

/// The index after the last leap second before another index that is reached, or 0.
const fn after_last_reached(leap_seconds: &[LeapSecond], until: usize, unix_time: i64) -> usize {
    let mut index = until;
    while index > 0 && !is_reached(leap_seconds, index - 1, unix_time) {
        index -= 1;
    }
    index
}

/// How many leap seconds are reached at an instant.
///
/// Corrections change by a second in four weeks at most. So in any real table these are the leap
/// seconds whose time is at most the sum of the instant and the correction at the start of the
/// table, or one more or one fewer.
const fn leap_seconds_reached(leap_seconds: &[LeapSecond], unix_time: i64) -> usize {
    let correction = correction_at_start(leap_seconds);
    let likely = unix_time.saturating_add(correction as i64);
    let index = leap_seconds_up_to(leap_seconds, likely);
    let index = first_not_reached(leap_seconds, index, unix_time);
    after_last_reached(leap_seconds, index, unix_time)
}

/// The last instant up to `high` at which the leap second at an index does not take the leap time
/// out of 64 bits: it is not reached there, or the sum with its correction fits.
const fn last_with(leap_seconds: &[LeapSecond], index: usize, high: i64) -> i64 {
    let leap_second = &leap_seconds[index];
    let correction = correction_before(leap_seconds, index);
    let before = without_correction(leap_second.unix_leap_time(), correction) - 1;
    let fitting = without_correction(i64::MAX, leap_second.correction());
    crate::shim::least!(crate::shim::greatest!(before, fitting), high as i128) as i64
}

/// The last instant up to `high` at which no leap second takes the leap time out of 64 bits.
const fn last_with_all(leap_seconds: &[LeapSecond], high: i64) -> i64 {
    let mut last = high;
    {
        let mut index = 0;
        let index_end = leap_seconds.len();
        while index < index_end {
            last = last_with(leap_seconds, index, last);
            index += 1;
        }
    }
    last
}

/// The last instant up to `high` at which no leap second takes the leap time out of 64 bits. Mostly
/// it is `high` itself, and no leap second is read.
pub(crate) const fn last_instant_up_to(leap_seconds: &[LeapSecond], high: i64) -> i64 {
    if high <= ALWAYS_DEFINED_UP_TO {
        return high;
    }
    last_with_all(leap_seconds, high)
}

/// The last instant at which no leap second takes the leap time out of 64 bits.
pub(crate) const fn last_instant(leap_seconds: &[LeapSecond]) -> i64 {
    last_instant_up_to(leap_seconds, i64::MAX)
}

/// Whether the instant has a leap time: it lies between the first and the last that have one.
pub(crate) const fn has_leap_time(leap_seconds: &[LeapSecond], unix_time: i64) -> bool {
    has_begun(leap_seconds, unix_time) && unix_time <= last_instant_up_to(leap_seconds, unix_time)
}

/// The leap time of an instant that has one.
pub(crate) const fn existing_leap_time(leap_seconds: &[LeapSecond], unix_time: i64) -> i64 {
    let reached = leap_seconds_reached(leap_seconds, unix_time);
    unix_time + correction_before(leap_seconds, reached) as i64
}

/// The leap time of an instant, if it has one, by the leap seconds that are reached.
const fn leap_time_by_seconds(leap_seconds: &[LeapSecond], unix_time: i64) -> Option<i64> {
    if !has_leap_time(leap_seconds, unix_time) {
        return None;
    }
    Some(existing_leap_time(leap_seconds, unix_time))
}

/// The leap time of an instant, if it has one. Mostly there are no leap seconds, and it is the
/// instant itself.
#[inline(always)]
pub(crate) const fn leap_time(leap_seconds: &[LeapSecond], unix_time: i64) -> Option<i64> {
    if leap_seconds.is_empty() {
        return Some(unix_time);
    }
    leap_time_by_seconds(leap_seconds, unix_time)
}

/// The leap time of an instant. (RFC 8536, section 2)
#[cfg(feature = "inner")]
pub const fn unix_time_to_unix_leap_time(
    leap_seconds: &[LeapSecond],
    unix_time: i64,
) -> Result<i64, TzError> {
    match leap_time_by_seconds(leap_seconds, unix_time) {
        Some(unix_leap_time) => Ok(unix_leap_time),
        None => Err(TzError::OutOfRange),
    }
}

/// Whether all instants of a window have a leap time before a given one, by the leap time of the
/// window's first instant alone.
///
/// Leap time grows as fast as Unix time, but by one second more or less at a leap second, of which
/// there is at most one in about four weeks. So three times the seconds of a window are a generous
/// bound, and one that ends long before the given leap time needs no second search of the leap
/// seconds.
pub(crate) const fn stay_before(
    _leap_seconds: &[LeapSecond],
    low: i64,
    low_leap_time: i64,
    high: i64,
    unix_leap_time: i64,
) -> bool {
    if high > ALWAYS_DEFINED_UP_TO {
        return false;
    }
    let seconds = high as i128 - low as i128;
    low_leap_time as i128 + 3 * seconds < unix_leap_time as i128
}

/// The effect of a leap time that is not before a truncated start, in 128 bits: the leap time less
/// the correction in force, but not before the first instant at which the leap second of that
/// correction is reached: its time less the correction before it.
const fn wide_effect_from_start(leap_seconds: &[LeapSecond], unix_leap_time: i64) -> i128 {
    let count = leap_seconds_up_to(leap_seconds, unix_leap_time);
    if count == 0 {
        // Before the first leap second of a table that is not truncated there is no correction.
        return without_correction(unix_leap_time, 0);
    }
    let last = &leap_seconds[count - 1];
    let unix_time = without_correction(unix_leap_time, last.correction());
    let begins = without_correction(
        last.unix_leap_time(),
        correction_before(leap_seconds, count - 1),
    );
    crate::shim::greatest!(unix_time, begins)
}

/// The effect of a leap time, in 128 bits. It may lie past 64 bits, or have no leap time; then the
/// given leap time takes effect at no instant. Before a truncated start it is the effect of the
/// start.
pub(crate) const fn wide_effect(leap_seconds: &[LeapSecond], unix_leap_time: i64) -> i128 {
    match truncated_start(leap_seconds) {
        Some(start) if unix_leap_time < start.unix_leap_time() => {
            wide_effect_from_start(leap_seconds, start.unix_leap_time())
        }
        _ => wide_effect_from_start(leap_seconds, unix_leap_time),
    }
}

/// The effect of a leap time that is reached at some instant: then the effect is an instant, and
/// fits 64 bits.
#[inline]
pub(crate) const fn effect_of_reached(leap_seconds: &[LeapSecond], unix_leap_time: i64) -> i64 {
    if leap_seconds.is_empty() {
        return unix_leap_time;
    }
    wide_effect(leap_seconds, unix_leap_time) as i64
}

/// The instant at which a leap time takes effect: the least one whose leap time is not below it.
pub const fn effect(leap_seconds: &[LeapSecond], unix_leap_time: i64) -> Result<i64, TzError> {
    // As in tz-rs, the least leap time is refused.
    if unix_leap_time == i64::MIN {
        return Err(TzError::OutOfRange);
    }
    let Ok(unix_time) = crate::shim::narrow(wide_effect(leap_seconds, unix_leap_time)) else {
        return Err(TzError::OutOfRange);
    };
    if !has_leap_time(leap_seconds, unix_time) {
        return Err(TzError::OutOfRange);
    }
    Ok(unix_time)
}

/// The instant at which a leap time takes effect, if it is reached at any, by the leap seconds.
const fn effect_by_seconds(leap_seconds: &[LeapSecond], unix_leap_time: i64) -> Option<i64> {
    let Ok(effect) = crate::shim::narrow(wide_effect(leap_seconds, unix_leap_time)) else {
        return None;
    };
    if last_instant_up_to(leap_seconds, effect) < effect {
        return None;
    }
    Some(effect)
}

/// The instant at which a leap time takes effect, if it is reached at any. Mostly there are no leap
/// seconds, and it is the leap time itself.
#[inline]
pub(crate) const fn effect_if_reached(
    leap_seconds: &[LeapSecond],
    unix_leap_time: i64,
) -> Option<i64> {
    if leap_seconds.is_empty() {
        return Some(unix_leap_time);
    }
    effect_by_seconds(leap_seconds, unix_leap_time)
}

/// The last instant that has a leap time and at which `unix_leap_time` is not yet reached, by the
/// leap seconds.
const fn last_before_by_seconds(leap_seconds: &[LeapSecond], unix_leap_time: i64) -> i64 {
    let before = wide_effect(leap_seconds, unix_leap_time) - 1;
    let last = crate::shim::least!(before, i64::MAX as i128) as i64;
    last_instant_up_to(leap_seconds, last)
}

/// The last instant that has a leap time and at which `unix_leap_time` is not yet reached. Mostly
/// there are no leap seconds, and it is the instant right before `unix_leap_time`.
#[inline]
pub(crate) const fn last_before(leap_seconds: &[LeapSecond], unix_leap_time: i64) -> i64 {
    if leap_seconds.is_empty() {
        return unix_leap_time - 1;
    }
    last_before_by_seconds(leap_seconds, unix_leap_time)
}
