// Generated from crates/tz_query/src/query/kept_segment.rt by bindings/erase: its contracts are cut. Change that file instead.
//! The segment that is kept from line to line. The clock has one type throughout it, so that an
//! instant in it need not be looked up.

use super::answers::Answers;
use super::suffixes::Suffix;
use crate::shim::alloc::Allocator;

/// 30 days in seconds. If two lookups, one after the other, are for instants less than this apart,
/// lines are taken to be in order, so that another segment is worth keeping.
const NEAR: u64 = 2_592_000;

/// Instants throughout which a clock has one type.
pub struct KeptSegment {
    /// The first instant. The segment is empty if this is after the last.
    pub from: i64,
    /// The last instant.
    pub last: i64,
    /// The suffix of the type.
    pub suffix: Suffix,
}

impl KeptSegment {
    /// Whether the instants from the first one to the second are in the segment.
    pub fn has(&self, low: i64, high: i64) -> bool {
        self.from <= low && high <= self.last
    }
}

impl<'a, A: Allocator + Copy> Answers<'a, A> {
    /// Keeps the segment around an instant, if the clock has a type there.
    pub fn keep_segment(&mut self, unix_time: i64) {
        let segment = self.zone.segment_at(unix_time);
        if let Some(local_time_type) = segment.local_time_type() {
            self.segment.from = segment.from();
            self.segment.last = segment.last();
            self.segment.suffix = *self.suffixes.of(local_time_type);
        }
    }

    /// Keeps the segment around an instant that is looked up, if the lines seem to be in order: if
    /// the lookup before was for an instant near it. It serves the lines after this one.
    pub fn follow(&mut self, unix_time: i64) {
        let is_near = unix_time.abs_diff(self.missed) < NEAR;
        self.missed = unix_time;
        if is_near {
            self.keep_segment(unix_time);
        }
    }
}
