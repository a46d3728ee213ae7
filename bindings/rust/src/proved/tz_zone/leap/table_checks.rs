// Generated from crates/tz_zone/src/leap/table_checks.rt by bindings/erase: its contracts are cut. Change that file instead.
//! The table of leap seconds, and its checks.

use crate::proved::tz_base::constants::SECONDS_PER_28_DAYS;
use core::hash::{Hash, Hasher};

/// A leap time from which on leap time is ahead of Unix time by a correction.
#[repr(C)]
#[derive(Clone, Copy, Debug, PartialEq, Eq)]
pub struct LeapSecond {
    unix_leap_time: i64,
    correction: i32,
}

impl Hash for LeapSecond {
    fn hash<H: Hasher>(&self, state: &mut H) {
        self.unix_leap_time.hash(state);
        self.correction.hash(state);
    }
}

impl LeapSecond {
    /// The leap second at this leap time, from which on leap time is ahead of Unix time by this
    /// correction.
    #[must_use]
    pub const fn new(unix_leap_time: i64, correction: i32) -> Self {
        LeapSecond {
            unix_leap_time,
            correction,
        }
    }

    /// The leap time at which the correction begins.
    #[must_use]
    pub const fn unix_leap_time(&self) -> i64 {
        self.unix_leap_time
    }

    /// The seconds by which leap time is ahead of Unix time from then on.
    #[must_use]
    pub const fn correction(&self) -> i32 {
        self.correction
    }
}

/// Whether a leap second may come first.
const fn may_be_first(leap_second: LeapSecond) -> bool {
    leap_second.unix_leap_time() >= 0
}

/// Whether two corrections differ by one second.
const fn is_one_second_apart(correction: i32, next: i32) -> bool {
    let apart = next as i64 - correction as i64;
    apart == 1 || apart == -1
}

/// Whether `next` comes at least 28 days, less a second, after the leap time `time`.
const fn is_far_from(time: i64, next: i64) -> bool {
    time as i128 + SECONDS_PER_28_DAYS as i128 - 1 <= next as i128
}

/// Whether the leap second `next` may come after `leap_second`.
const fn may_follow(leap_second: &LeapSecond, next: &LeapSecond) -> bool {
    is_far_from(leap_second.unix_leap_time(), next.unix_leap_time())
        && is_one_second_apart(leap_second.correction(), next.correction())
}

/// Whether the record after an index comes later and, unless it is the table's expiry, is a leap
/// second that may follow.
const fn follows_at(leap_seconds: &[LeapSecond], index: usize) -> bool {
    if index + 1 == leap_seconds.len() {
        return true;
    }
    let leap_second = &leap_seconds[index];
    let next = &leap_seconds[index + 1];
    if index + 2 == leap_seconds.len() && next.correction() == leap_second.correction() {
        return leap_second.unix_leap_time() < next.unix_leap_time();
    }
    may_follow(leap_second, next)
}

/// Whether the leap seconds make a table.
pub(crate) const fn are_leap_seconds(leap_seconds: &[LeapSecond]) -> bool {
    if leap_seconds.is_empty() {
        return true;
    }
    if !may_be_first(leap_seconds[0]) {
        return false;
    }
    {
        let mut i = 0;
        let i_end = leap_seconds.len();
        while i < i_end {
            if !follows_at(leap_seconds, i) {
                return false;
            }
            i += 1;
        }
    }
    true
}

/// The truncated start: the first record, if its correction is neither 1 nor -1. Instants before it
/// have no leap time. (RFC 9636, 3.2)
pub(crate) const fn truncated_start(leap_seconds: &[LeapSecond]) -> Option<&LeapSecond> {
    let first = match leap_seconds.first() {
        Some(value) => value,
        None => return None,
    };
    let correction = first.correction();
    if correction == 1 || correction == -1 {
        return None;
    }
    Some(first)
}

/// Whether the table has begun at the leap time: it has no truncated start, or that is reached.
pub(crate) const fn has_begun_at(leap_seconds: &[LeapSecond], unix_leap_time: i64) -> bool {
    match truncated_start(leap_seconds) {
        Some(start) => start.unix_leap_time() <= unix_leap_time,
        None => true,
    }
}

/// The leap time at which the table expires: that of a last record that repeats the correction
/// before it.
pub(crate) const fn expiry(leap_seconds: &[LeapSecond]) -> Option<i64> {
    if leap_seconds.len() < 2 {
        return None;
    }
    let before = &leap_seconds[leap_seconds.len() - 2];
    let last = &leap_seconds[leap_seconds.len() - 1];
    if last.correction() != before.correction() {
        return None;
    }
    Some(last.unix_leap_time())
}

/// Whether the table begins with its first leap second and does not expire, as in files before
/// version 4.
pub(crate) const fn is_plain_table(leap_seconds: &[LeapSecond]) -> bool {
    truncated_start(leap_seconds).is_none() && expiry(leap_seconds).is_none()
}

/// The correction before the first index of the list: 0, or at a truncated start that of the first
/// record.
pub(crate) const fn correction_at_start(leap_seconds: &[LeapSecond]) -> i32 {
    match truncated_start(leap_seconds) {
        Some(start) => start.correction(),
        None => 0,
    }
}

/// The correction before an index of the list.
pub(crate) const fn correction_before(leap_seconds: &[LeapSecond], index: usize) -> i32 {
    if index == 0 {
        return correction_at_start(leap_seconds);
    }
    leap_seconds[index - 1].correction()
}
