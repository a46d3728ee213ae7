// Generated from crates/tz/src/columns/instants.rt by bindings/erase: its contracts are cut. Change that file instead.
//! The instants that the local times of a whole column mean by a choice, from an index on, up to
//! the first that means none.
//!
//! A column of readings has no fields, so most of its instants take one subtraction: far enough
//! from changes on both sides a type of the clock serves a stretch of readings, by all choices.
//! From a reading on that is not in the stretch before, a block of them is taken. If it is in
//! order, each is looked for in the stretch around the one before, or else around itself. If it is
//! not, the stretch stays, since whether another one would serve the next reading cannot be
//! predicted.

use super::block_end;
use crate::proved::tz::datetime::disambiguation::{find_instant, find_one, find_one_valid};
use crate::proved::tz::datetime::{DateTime, Disambiguation, UtcDateTime};
use crate::proved::tz_base::error::TzError;
use crate::proved::tz_base::fields::{Fields, is_reading};
use crate::proved::tz_zone::inner::ZoneData;

/// The first reading of the years of 32 bits.
const FIRST_READING: i64 = -67_768_100_567_971_200;

/// The last reading of the years of 32 bits.
const LAST_READING: i64 = 67_767_976_233_532_799;

/// The first index that has no instant.
pub struct NoInstant {
    /// The index.
    pub index: usize,
    /// The error there, or none if its local time means no instant by the choice.
    pub error: Option<TzError>,
}

/// What holds one instant of a column.
pub trait InstantSlot {
    /// Writes an instant, in Unix seconds, to the slot.
    fn set(&mut self, unix_time: i64);
}

impl InstantSlot for i64 {
    #[inline(always)]
    fn set(&mut self, unix_time: i64) {
        *self = unix_time;
    }
}

impl InstantSlot for Option<i64> {
    #[inline(always)]
    fn set(&mut self, unix_time: i64) {
        *self = Some(unix_time);
    }
}

/// A local time of a column.
pub trait LocalTime {
    /// The one date time that it means by a choice, if there is one.
    fn meaning(
        &self,
        disambiguation: Disambiguation,
        zone: &ZoneData<'_>,
    ) -> Result<Option<DateTime>, TzError>;
}

impl LocalTime for Fields {
    #[inline(always)]
    fn meaning(
        &self,
        disambiguation: Disambiguation,
        zone: &ZoneData<'_>,
    ) -> Result<Option<DateTime>, TzError> {
        find_one(self, disambiguation, zone)
    }
}

/// A date time of UTC that serves as one without a zone.
impl LocalTime for UtcDateTime {
    #[inline(always)]
    fn meaning(
        &self,
        disambiguation: Disambiguation,
        zone: &ZoneData<'_>,
    ) -> Result<Option<DateTime>, TzError> {
        find_one_valid(self.fields(), self.unix_time(), disambiguation, zone)
    }
}

/// The instant that a local time means by a choice.
#[inline(always)]
fn instant_of<L: LocalTime>(
    local: &L,
    disambiguation: Disambiguation,
    zone: &ZoneData<'_>,
) -> Result<i64, Option<TzError>> {
    match local.meaning(disambiguation, zone) {
        Ok(Some(date_time)) => Ok(date_time.unix_time()),
        Ok(None) => Err(None),
        Err(error) => Err(Some(error)),
    }
}

/// Readings from one to another, each of which means the same instant by all choices: as many
/// seconds before it as the offset has.
#[derive(Clone, Copy)]
struct Stretch {
    from: i64,
    last: i64,
    offset: i32,
}

/// A stretch of no readings.
const EMPTY: Stretch = Stretch {
    from: 0,
    last: -1,
    offset: 0,
};

/// The instant at which clocks with an offset show a reading.
#[inline(always)]
fn shown_by(reading: i64, offset: i32) -> i64 {
    reading - i64::from(offset)
}

/// The first reading that can be in a stretch, if a type begins at an instant: the greatest offset
/// after it, or the first reading of all.
fn first_reading(from: i64, greatest: i32) -> i64 {
    if from < FIRST_READING - i64::from(greatest) {
        return FIRST_READING;
    }
    from + i64::from(greatest)
}

/// The last reading that can be in a stretch, if a type ends with an instant: the least offset
/// after it, or the last reading of all.
fn last_reading(last: i64, least: i32) -> i64 {
    if LAST_READING - i64::from(least) < last {
        return LAST_READING;
    }
    last + i64::from(least)
}

/// Writes the instants of the readings from an index on that are in a stretch, up to the first that
/// is not, and returns its index, or the length of the column if there is none.
fn write_in_stretch<S: InstantSlot>(
    readings: &[i64],
    index: usize,
    stretch: Stretch,
    slots: &mut [S],
) -> usize {
    for i in index..readings.len() {
        let reading = readings[i];
        if reading < stretch.from || stretch.last < reading {
            return i;
        }
        slots[i].set(shown_by(reading, stretch.offset));
    }
    readings.len()
}

/// The stretch of the segment in which the window of a reading begins. If the window ends there
/// too, the reading is in the stretch.
fn stretch_around(zone: &ZoneData<'_>, reading: i64) -> Stretch {
    let (least, greatest) = zone.offsets();
    let segment = zone.segment_at(shown_by(reading, greatest));
    match segment.local_time_type() {
        Some(local_time_type) => Stretch {
            from: first_reading(segment.from(), greatest),
            last: last_reading(segment.last(), least),
            offset: local_time_type.ut_offset(),
        },
        None => EMPTY,
    }
}

/// The stretch in which a reading is looked for: the one before, or that around the reading, if it
/// is near.
#[inline(always)]
fn stretch_near(zone: &ZoneData<'_>, before: Stretch, is_near: bool, reading: i64) -> Stretch {
    if before.from <= reading && reading <= before.last {
        return before;
    }
    if is_near && is_reading(reading) {
        return stretch_around(zone, reading);
    }
    before
}

/// The instant that a reading means by a choice, which is looked for in a stretch.
#[inline(always)]
fn instant_in(
    stretch: Stretch,
    reading: i64,
    disambiguation: Disambiguation,
    zone: &ZoneData<'_>,
) -> Result<i64, Option<TzError>> {
    if stretch.from <= reading && reading <= stretch.last {
        return Ok(shown_by(reading, stretch.offset));
    }
    if !is_reading(reading) {
        return Err(Some(TzError::OutOfRange));
    }
    find_instant(reading, disambiguation, zone)
}

/// Writes the instants that local times mean by a choice, from an index on, up to the first that
/// means none or has an error. The other slots stay as they are.
pub fn write_instants<L: LocalTime, S: InstantSlot>(
    local: &[L],
    first: usize,
    disambiguation: Disambiguation,
    zone: &ZoneData<'_>,
    slots: &mut [S],
) -> Result<(), NoInstant> {
    for i in first..local.len() {
        match instant_of(&local[i], disambiguation, zone) {
            Ok(unix_time) => slots[i].set(unix_time),
            Err(error) => return Err(NoInstant { index: i, error }),
        }
    }
    Ok(())
}

/// Writes the instants of the readings of a block. It returns the stretch around the last reading.
fn write_instants_of_block<S: InstantSlot>(
    readings: &[i64],
    index: usize,
    end: usize,
    disambiguation: Disambiguation,
    zone: &ZoneData<'_>,
    before: Stretch,
    slots: &mut [S],
) -> Result<Stretch, NoInstant> {
    let is_near = readings[index..end].is_sorted();
    let mut last = before;
    for i in index..end {
        last = stretch_near(zone, last, is_near, readings[i]);
        match instant_in(last, readings[i], disambiguation, zone) {
            Ok(unix_time) => slots[i].set(unix_time),
            Err(error) => return Err(NoInstant { index: i, error }),
        }
    }
    Ok(stretch_near(zone, last, true, readings[end - 1]))
}

/// Writes the instants that readings mean by a choice, from an index on, up to the first that means
/// none or has an error. A reading is what a clock shows, in seconds from 1970-01-01 00:00:00 on
/// that clock. The other slots stay as they are.
pub fn write_instants_of_readings<S: InstantSlot>(
    readings: &[i64],
    first: usize,
    disambiguation: Disambiguation,
    zone: &ZoneData<'_>,
    slots: &mut [S],
) -> Result<(), NoInstant> {
    let mut stretch = EMPTY;
    let mut index = first;
    while index < readings.len() {
        let from = write_in_stretch(readings, index, stretch, slots);
        if from == readings.len() {
            return Ok(());
        }
        let end = block_end(from, readings.len());
        match write_instants_of_block(readings, from, end, disambiguation, zone, stretch, slots) {
            Ok(last) => stretch = last,
            Err(none) => return Err(none),
        }
        index = end;
    }
    Ok(())
}
