// Tests from crates/tz_zone_tests/src/tz_files/large.rt by bindings/erase. Change that file instead.
//! A file with more of everything than those of the time zone database: no proof says that there is
//! memory for it.

use super::*;
use crate::erased::tz_zone_tests::expect::expect_eq;
use crate::kit::{self, Vec};

/// The numbers of types, of leap seconds and of transitions.
const TYPES: u32 = 255;

const LEAP_SECONDS: u32 = 40;

const TRANSITIONS: u32 = 100_000;

/// The leap time of the transition or the leap second at a place: each comes 30 days after the one
/// before it.
fn leap_time_at(place: u32) -> i64 {
    i64::from(place) * 2_592_000
}

/// The bytes of the file. Transitions name the types in turn, whose offsets are their places.
fn large_file(alloc: Global) -> Result<Vec<u8>, AllocError> {
    let mut bytes = Vec::new(alloc);
    push_header(&mut bytes, b'2', &[0, 0, 0, 0, 1, 4])?;
    bytes.extend_from_slice(b"\0\0\0\0\0\0UTC\0")?;
    push_header(
        &mut bytes,
        b'2',
        &[0, 0, LEAP_SECONDS, TRANSITIONS, TYPES, 4],
    )?;
    for place in 0..TRANSITIONS {
        bytes.extend_from_slice(&leap_time_at(place).to_be_bytes())?;
    }
    for place in 0..TRANSITIONS {
        let [.., index] = (place % TYPES).to_be_bytes();
        bytes.push(index)?;
    }
    for offset in 0..TYPES {
        bytes.extend_from_slice(&offset.to_be_bytes())?;
        bytes.extend_from_slice(&[0, 0])?;
    }
    bytes.extend_from_slice(b"UTC\0")?;
    for place in 0..LEAP_SECONDS {
        bytes.extend_from_slice(&leap_time_at(place).to_be_bytes())?;
        bytes.extend_from_slice(&(place + 1).to_be_bytes())?;
    }
    bytes.extend_from_slice(b"\n\n")?;
    Ok(bytes)
}

/// The zone that the file denotes.
fn large_zone(alloc: Global) -> Result<TimeZone, TzError> {
    let mut transitions = Vec::new(alloc);
    for place in 0..TRANSITIONS {
        let index = (place % TYPES) as usize;
        transitions.push(Transition::new(leap_time_at(place), index))?;
    }
    let mut types = Vec::new(alloc);
    for offset in 0..255i32 {
        types.push(LocalTimeType::new(offset, false, Some(b"UTC"))?)?;
    }
    let mut leap_seconds = Vec::new(alloc);
    let mut correction = 0i32;
    for place in 0..LEAP_SECONDS {
        correction = correction.saturating_add(1);
        leap_seconds.push(LeapSecond::new(leap_time_at(place), correction))?;
    }
    TimeZone::new(transitions, types, leap_seconds, None)
}

#[test]
fn a_large_file_is_read_and_its_zone_copied() -> Result<(), Fail> {
    let rt = kit::HostRuntime;

    let expected = large_zone(rt.alloc())?;
    let zone = TimeZone::from_tz_data(rt.alloc(), &large_file(rt.alloc())?)?;
    expect_eq(&rt, &(zone == expected), &true);
    let copy = zone.try_clone()?;
    expect_eq(&rt, &(copy == expected), &true);
    Ok(())
}
