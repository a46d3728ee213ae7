// Generated from crates/tz/src/columns.rt by bindings/erase: its contracts are cut. Change that file instead.
//! The offsets of a zone's clock at the instants of a whole column, from an index on, up to the
//! first that has none.
//!
//! Instants are taken in blocks. If a whole block is in the segment of the instant before, one type
//! serves it. In a block that is in order each instant is looked for in the segment of the one
//! before. All others are looked up at once: whether that segment holds them cannot be predicted.

pub mod date_times;
pub mod instants;

use crate::proved::tz_base::error::TzError;
use crate::proved::tz_rule::timezone::LocalTimeType;
use crate::proved::tz_zone::inner::ZoneData;
use crate::proved::tz_zone::timezone::Segment;

/// The most instants of a block.
const BLOCK: usize = 16;

/// The first index that has no answer, and why.
pub struct Unanswered {
    /// The index.
    pub index: usize,
    /// The error there.
    pub error: TzError,
}

/// The end of the block that begins at an index.
fn block_end(index: usize, len: usize) -> usize {
    if len - index < BLOCK {
        len
    } else {
        index + BLOCK
    }
}

/// Whether all instants are in a segment.
fn holds_all(segment: &Segment<'_>, unix_times: &[i64]) -> bool {
    for unix_time in unix_times {
        if !segment.contains(*unix_time) {
            return false;
        }
    }
    true
}

/// The segment of the zone's clock that holds an instant: the one before, if it holds the instant
/// too.
#[inline(always)]
fn segment_around<'a>(zone: &ZoneData<'a>, before: Segment<'a>, unix_time: i64) -> Segment<'a> {
    if before.contains(unix_time) {
        before
    } else {
        zone.segment_at(unix_time)
    }
}

/// The type of the zone's clock at an instant, and the segment to keep. An instant that is near is
/// looked for in the segment that was kept.
fn type_near<'a>(
    zone: &ZoneData<'a>,
    before: Segment<'a>,
    is_near: bool,
    unix_time: i64,
) -> Result<(Segment<'a>, &'a LocalTimeType), TzError> {
    if is_near {
        let segment = segment_around(zone, before, unix_time);
        if let Some(local_time_type) = segment.local_time_type() {
            return Ok((segment, local_time_type));
        }
    }
    match zone.find_local_time_type(unix_time) {
        Ok(local_time_type) => Ok((before, local_time_type)),
        Err(error) => Err(error),
    }
}

/// Writes an offset to the indexes of a block.
fn fill_block(offsets: &mut [i32], index: usize, end: usize, offset: i32) {
    offsets[index..end].fill(offset);
}

/// Writes the offsets of a block. It returns the segment around the last instant.
fn write_offsets_of_block<'a>(
    unix_times: &[i64],
    index: usize,
    end: usize,
    zone: &ZoneData<'a>,
    before: Segment<'a>,
    offsets: &mut [i32],
) -> Result<Segment<'a>, Unanswered> {
    let is_near = unix_times[index..end].is_sorted();
    let mut last = before;
    for i in index..end {
        match type_near(zone, last, is_near, unix_times[i]) {
            Ok((segment, local_time_type)) => {
                last = segment;
                offsets[i] = local_time_type.ut_offset();
            }
            Err(error) => return Err(Unanswered { index: i, error }),
        }
    }
    if is_near {
        Ok(last)
    } else {
        Ok(zone.segment_at(unix_times[end - 1]))
    }
}

/// Writes the offsets of the zone's clock at the instants from an index on, up to the first that
/// has none. The other slots stay as they are.
pub fn write_offsets(
    unix_times: &[i64],
    first: usize,
    zone: &ZoneData<'_>,
    offsets: &mut [i32],
) -> Result<(), Unanswered> {
    let mut segment = zone.segment_at(unix_times.get(first).copied().unwrap_or(0));
    let mut index = first;
    while index < unix_times.len() {
        let end = block_end(index, unix_times.len());
        match segment.local_time_type() {
            Some(local_time_type) if holds_all(&segment, &unix_times[index..end]) => {
                fill_block(offsets, index, end, local_time_type.ut_offset());
            }
            _ => match write_offsets_of_block(unix_times, index, end, zone, segment, offsets) {
                Ok(last) => segment = last,
                Err(unanswered) => return Err(unanswered),
            },
        }
        index = end;
    }
    Ok(())
}
