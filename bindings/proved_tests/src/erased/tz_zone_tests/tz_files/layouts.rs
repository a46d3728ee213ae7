// Tests from crates/tz_zone_tests/src/tz_files/layouts.rt by bindings/erase. Change that file instead.
//! Files as compilers of time zones lay them out: fat ones, and ones with leap seconds.

use super::*;
use crate::erased::tz_samples::rules::central_europe;
use crate::erased::tz_samples::zones::{ExtraRule, ZoneRow, zone_of, zone_with_rule};
use crate::erased::tz_zone_tests::expect::{expect_eq, expect_eq_at};
use crate::kit::{self, Vec};
use std::num::TryFromIntError;

/// What a unit holds: transitions with their types, types with the places of their names, names,
/// leap seconds, and both lists of indicators, which are alike.
#[derive(Clone, Copy)]
struct Unit<'a> {
    transitions: &'a [(i64, usize)],
    types: &'a [(i32, u8, u8)],
    names: &'a [u8],
    leap_seconds: &'a [(i64, i32)],
    indicators: &'a [u8],
}

/// The transitions of Central Europe up to 1998.
const FAT_TRANSITIONS: &[(i64, usize)] = &[
    (utc!(1910-04-30 23:06:32), 1),
    (utc!(1996-03-31 01:00:00), 2),
    (utc!(1996-10-27 01:00:00), 1),
    (utc!(1997-03-30 01:00:00), 2),
    (utc!(1997-10-26 01:00:00), 1),
    (utc!(1998-03-29 01:00:00), 2),
    (utc!(1998-10-25 01:00:00), 1),
];

/// Central Europe up to 1998, after a first type of local mean time.
static FAT: Unit<'static> = Unit {
    transitions: FAT_TRANSITIONS,
    types: &[(3208, 0, 0), (3600, 0, 4), (7200, 1, 8)],
    names: b"LMT\0CET\0CEST\0",
    leap_seconds: &[],
    indicators: &[0, 1, 1],
};

/// The least first block, as `zic -b slim` writes it.
static LEAST: Unit<'static> = Unit {
    transitions: &[],
    types: &[(0, 0, 0)],
    names: b"\0",
    leap_seconds: &[],
    indicators: &[],
};

/// The transitions of Great Britain from 1972 to 1974, whose times count leap seconds.
const LEAPING_TRANSITIONS: &[(i64, usize)] = &[
    (utc!(1972-03-19 02:00:00), 1),
    (utc!(1972-10-29 02:00:00) + 1, 0),
    (utc!(1973-03-18 02:00:00) + 2, 1),
    (utc!(1973-10-28 02:00:00) + 2, 0),
    (utc!(1974-03-17 02:00:00) + 3, 1),
];

/// The leap seconds of these years.
const LEAP_SECONDS: &[(i64, i32)] = &[
    (utc!(1972-07-01 00:00:00), 1),
    (utc!(1973-01-01 00:00:00) + 1, 2),
    (utc!(1974-01-01 00:00:00) + 2, 3),
];

/// Great Britain from 1972 to 1974, with the leap seconds of these years and times that count them.
static LEAPING: Unit<'static> = Unit {
    transitions: LEAPING_TRANSITIONS,
    types: &[(0, 0, 0), (3600, 1, 4)],
    names: b"GMT\0BST\0",
    leap_seconds: LEAP_SECONDS,
    indicators: &[],
};

/// Writes a time in eight bytes, or else in four.
fn push_time(bytes: &mut Vec<u8>, is_long: bool, time: i64) -> Result<(), Fail> {
    if is_long {
        bytes.extend_from_slice(&time.to_be_bytes())?;
    } else {
        bytes.extend_from_slice(&i32::try_from(time)?.to_be_bytes())?;
    }
    Ok(())
}

/// Writes the types of the transitions, and all types with their names.
fn push_types(bytes: &mut Vec<u8>, unit: &Unit<'_>) -> Result<(), Fail> {
    for (_, index) in unit.transitions {
        bytes.push(u8::try_from(*index)?)?;
    }
    for (ut_offset, is_dst, name) in unit.types {
        bytes.extend_from_slice(&ut_offset.to_be_bytes())?;
        bytes.extend_from_slice(&[*is_dst, *name])?;
    }
    bytes.extend_from_slice(unit.names)?;
    Ok(())
}

/// Writes a block with times of eight bytes, or else of four.
fn push_block(bytes: &mut Vec<u8>, is_long: bool, unit: &Unit<'_>) -> Result<(), Fail> {
    for (time, _) in unit.transitions {
        push_time(bytes, is_long, *time)?;
    }
    push_types(bytes, unit)?;
    for (time, correction) in unit.leap_seconds {
        push_time(bytes, is_long, *time)?;
        bytes.extend_from_slice(&correction.to_be_bytes())?;
    }
    bytes.extend_from_slice(unit.indicators)?;
    bytes.extend_from_slice(unit.indicators)?;
    Ok(())
}

/// The counts of a header.
fn counts_of(unit: &Unit<'_>) -> Result<[u32; 6], TryFromIntError> {
    let indicators = u32::try_from(unit.indicators.len())?;
    Ok([
        indicators,
        indicators,
        u32::try_from(unit.leap_seconds.len())?,
        u32::try_from(unit.transitions.len())?,
        u32::try_from(unit.types.len())?,
        u32::try_from(unit.names.len())?,
    ])
}

/// Writes a header of version 2 and a block.
fn push_unit(bytes: &mut Vec<u8>, is_long: bool, unit: &Unit<'_>) -> Result<(), Fail> {
    push_header(bytes, b'2', &counts_of(unit)?)?;
    push_block(bytes, is_long, unit)
}

/// A file of version 2.
fn file(
    alloc: Global,
    first: &Unit<'_>,
    second: &Unit<'_>,
    footer: &[u8],
) -> Result<Vec<u8>, Fail> {
    let mut bytes = Vec::new(alloc);
    push_unit(&mut bytes, false, first)?;
    push_unit(&mut bytes, true, second)?;
    bytes.extend_from_slice(footer)?;
    Ok(bytes)
}

/// The zone's clock shows these offsets from UTC at these instants.
fn expect_offsets(rt: &impl Abort, zone: &TimeZone, offsets: &[(i64, i32)]) -> Result<(), Fail> {
    for (unix_time, ut_offset) in offsets {
        expect_eq_at(
            rt,
            &unix_time,
            &zone.find_local_time_type(*unix_time)?.ut_offset(),
            ut_offset,
        );
    }
    Ok(())
}

/// The zone of the fat file, without its rule.
static FAT_ZONE: ZoneRow = ZoneRow {
    transitions: FAT_TRANSITIONS,
    types: &[
        (3208, false, Some(b"LMT")),
        (3600, false, Some(b"CET")),
        (7200, true, Some(b"CEST")),
    ],
    leap_seconds: &[],
    extra_rule: None,
};

#[test]
fn a_fat_file_is_read() -> Result<(), Fail> {
    let rt = kit::HostRuntime;

    static OFFSETS: [(i64, i32); 8] = [
        (utc!(1910-04-30 23:06:31), 3208),
        (utc!(1910-04-30 23:06:32), 3600),
        (utc!(1996-10-27 00:59:59), 7200),
        (utc!(1996-10-27 01:00:00), 3600),
        (utc!(1998-10-25 00:59:59), 7200),
        (utc!(1998-10-25 01:00:00), 3600),
        (utc!(2024-03-31 00:59:59), 3600),
        (utc!(2024-03-31 01:00:00), 7200),
    ];
    let bytes = file(rt.alloc(), &FAT, &FAT, b"\nCET-1CEST,M3.5.0,M10.5.0/3\n")?;
    let zone = TimeZone::from_tz_data(rt.alloc(), &bytes)?;
    let slim = file(rt.alloc(), &LEAST, &FAT, b"\nCET-1CEST,M3.5.0,M10.5.0/3\n")?;
    assert!(TimeZone::from_tz_data(rt.alloc(), &slim)? == zone);
    let rule = TransitionRule::Alternate(central_europe()?);
    assert!(zone == zone_with_rule(rt.alloc(), &FAT_ZONE, Some(rule))?);
    expect_offsets(&rt, &zone, &OFFSETS)
}

/// The first block of a fat file is a file of version 1.
#[test]
fn times_of_four_bytes_are_read() -> Result<(), Fail> {
    let rt = kit::HostRuntime;

    let mut bytes = Vec::new(rt.alloc());
    push_unit(&mut bytes, false, &FAT)?;
    let bytes = with_byte(rt.alloc(), &bytes, 4, 0)?;
    let zone = TimeZone::from_tz_data(rt.alloc(), &bytes)?;
    assert!(zone == zone_of(rt.alloc(), &FAT_ZONE)?);
    static OFFSETS: [(i64, i32); 2] = [
        (utc!(1910-04-30 23:06:31), 3208),
        (utc!(1998-10-25 00:59:59), 7200),
    ];
    expect_offsets(&rt, &zone, &OFFSETS)?;
    const LAST_TRANSITION: i64 = utc!(1998-10-25 01:00:00);
    let after = zone.find_local_time_type(LAST_TRANSITION).err().map(named);
    expect_eq(&rt, &after, &Some(Fault::NoType));
    Ok(())
}

/// The zone of the file with leap seconds.
fn leaping_zone(alloc: Global) -> Result<TimeZone, Fail> {
    static ZONE: ZoneRow = ZoneRow {
        transitions: LEAPING_TRANSITIONS,
        types: &[(0, false, Some(b"GMT")), (3600, true, Some(b"BST"))],
        leap_seconds: LEAP_SECONDS,
        extra_rule: Some(ExtraRule::Alternate((
            (0, false, Some(b"GMT")),
            (3600, true, Some(b"BST")),
            (Day::Month(3, 3, 0), 7200),
            (Day::Month(10, 5, 0), 10_800),
        ))),
    };
    Ok(zone_of(alloc, &ZONE)?)
}

#[test]
fn a_file_with_leap_seconds_is_read() -> Result<(), Fail> {
    let rt = kit::HostRuntime;

    // The transitions are at the full hour of UTC, without the leap seconds that their times count.
    static OFFSETS: [(i64, i32); 10] = [
        (utc!(1972-03-19 01:59:59), 0),
        (utc!(1972-03-19 02:00:00), 3600),
        (utc!(1972-10-29 01:59:59), 3600),
        (utc!(1972-10-29 02:00:00), 0),
        (utc!(1973-03-18 01:59:59), 0),
        (utc!(1973-03-18 02:00:00), 3600),
        (utc!(1974-03-17 01:59:59), 0),
        (utc!(1974-03-17 02:00:00), 3600),
        (utc!(1974-10-27 01:59:59), 3600),
        (utc!(1974-10-27 02:00:00), 0),
    ];
    let footer = b"\nGMT0BST,M3.3.0/2,M10.5.0/3\n";
    let bytes = file(rt.alloc(), &LEAPING, &LEAPING, footer)?;
    let zone = TimeZone::from_tz_data(rt.alloc(), &bytes)?;
    assert!(zone == leaping_zone(rt.alloc())?);
    expect_offsets(&rt, &zone, &OFFSETS)
}
