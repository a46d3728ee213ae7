// Tests from crates/tz_zone_tests/src/tz_files/altered.rt by bindings/erase. Change that file instead.
//! Files that are cut short, and files with bytes altered.

use super::*;
use crate::erased::tz_zone_tests::expect::{expect_eq, expect_eq_at};
use crate::kit::{self, Resized, Vec, VecIn};
use tz::proved::tz_base::error::LocalTimeTypeError::{
    InvalidTimeZoneDesignationChar, InvalidUtcOffset,
};
use tz::proved::tz_base::error::TimeZoneError::{InvalidLeapSecond, InvalidLocalTimeTypeIndex};
use tz::proved::tz_base::error::TzFileError::{
    InvalidDstIndicator, InvalidFooter, InvalidHeader, InvalidMagicNumber, InvalidStdWallUtLocal,
    InvalidTimeZoneDesignationCharIndex, RemainingDataV1, UnsupportedTzFileVersion,
};
use tz::proved::tz_base::error::TzStringError::InvalidDayTimeHour;

/// The bytes are refused where some are missing at their end, and where one too many is there.
fn expect_cut(rt: &impl Abort, alloc: Global, bytes: &[u8]) -> Result<(), AllocError> {
    for len in 0..bytes.len() {
        expect_eq_at(rt, &len, &fault_of(alloc, &bytes[..len]), &is_cut());
    }
    let mut longer = Vec::from_slice(alloc, bytes)?;
    longer.push(0)?;
    expect_eq(
        rt,
        &fault_of(alloc, &longer),
        &Some(Fault::File(RemainingDataV1)),
    );
    Ok(())
}

#[test]
fn cut_files_are_refused() -> Result<(), Fail> {
    let rt = kit::HostRuntime;

    expect_cut(&rt, rt.alloc(), UTC_V1)?;
    expect_cut(&rt, rt.alloc(), &utc_v1_leap(rt.alloc())?)?;
    Ok(())
}

/// Israel's zone without a rule has a type up to its transition alone.
fn expect_no_rule(rt: &impl Abort, zone: &TimeZone) -> Result<(), TzError> {
    assert!(zone.as_ref().extra_rule().is_none());
    let last = zone.find_local_time_type(NEW_YEAR_2038 - 1)?;
    expect_eq(rt, &last.ut_offset(), &7200);
    let refused = zone.find_local_time_type(NEW_YEAR_2038).err().map(named);
    expect_eq(rt, &refused, &Some(Fault::NoType));
    Ok(())
}

/// Israel's file is refused where it ends in its blocks, where it ends in its footer's text, and
/// not where one line feed of its footer is left.
fn expect_cut_footer(rt: &impl Abort, alloc: Global, bytes: &[u8]) {
    for len in 0..bytes.len() {
        let expected = match len {
            0..=118 => is_cut(),
            120 => None,
            _ => Some(Fault::File(InvalidFooter)),
        };
        expect_eq_at(rt, &len, &fault_of(alloc, &bytes[..len]), &expected);
    }
}

#[test]
fn cut_later_files_are_refused() -> Result<(), Fail> {
    let rt = kit::HostRuntime;

    expect_cut_footer(&rt, rt.alloc(), JERUSALEM_V3);
    let cut = with_footer(rt.alloc(), b'3', b"\n")?;
    expect_no_rule(&rt, &TimeZone::from_tz_data(rt.alloc(), &cut)?)?;
    Ok(())
}

#[test]
fn altered_bytes_are_refused() -> Result<(), Fail> {
    let rt = kit::HostRuntime;

    static ROWS: [Alteration; 13] = [
        (2, b'j', Some(Fault::File(InvalidMagicNumber))),
        (4, b'5', Some(Fault::File(UnsupportedTzFileVersion))),
        (23, 2, Some(Fault::File(InvalidHeader))),
        (27, 2, Some(Fault::File(InvalidHeader))),
        (39, 0, Some(Fault::File(InvalidHeader))),
        (43, 0, Some(Fault::File(InvalidHeader))),
        (43, 3, Some(Fault::File(RemainingDataV1))),
        (48, 2, Some(Fault::File(InvalidDstIndicator))),
        (
            49,
            4,
            Some(Fault::File(InvalidTimeZoneDesignationCharIndex)),
        ),
        (
            53,
            b'x',
            Some(Fault::File(InvalidTimeZoneDesignationCharIndex)),
        ),
        (50, b'_', Some(Fault::Type(InvalidTimeZoneDesignationChar))),
        (44, 0x80, Some(Fault::Type(InvalidUtcOffset))),
        (43, 5, CUT),
    ];
    expect_refusals(&rt, rt.alloc(), UTC_V1, &ROWS)?;
    Ok(())
}

/// One list of indicators may stand without the other one, whose indicators then count as 0. (RFC
/// 8536, sections 3.1 and 3.2)
#[test]
fn one_list_of_indicators() -> Result<(), Fail> {
    let rt = kit::HostRuntime;

    // The position of a count that is set to 0, the indicator that is left, and the fault.
    static ROWS: [(usize, u8, Option<Fault>); 3] = [
        (23, 1, None),
        (27, 0, None),
        (27, 1, Some(Fault::File(InvalidStdWallUtLocal))),
    ];
    let bytes = utc_v1_leap(rt.alloc())?;
    for (position, indicator, expected) in &ROWS {
        let mut one = with_byte(rt.alloc(), &bytes, *position, 0)?;
        one.truncate(270);
        one.push(*indicator)?;
        expect_eq_at(&rt, position, &fault_of(rt.alloc(), &one), expected);
    }
    Ok(())
}

#[test]
fn altered_leap_seconds_are_refused() -> Result<(), Fail> {
    let rt = kit::HostRuntime;

    // The first time is negative, the first correction is 2, the last one expires the table before
    // version 4, a time of UT goes with no standard time; one that goes with it is accepted.
    static ROWS: [Alteration; 6] = [
        (54, 0x80, Some(Fault::Zone(InvalidLeapSecond))),
        (61, 2, Some(Fault::Zone(InvalidLeapSecond))),
        (269, 26, Some(Fault::Zone(InvalidLeapSecond))),
        (271, 1, Some(Fault::File(InvalidStdWallUtLocal))),
        (270, 2, Some(Fault::File(InvalidStdWallUtLocal))),
        (270, 1, None),
    ];
    let bytes = utc_v1_leap(rt.alloc())?;
    expect_refusals(&rt, rt.alloc(), &bytes, &ROWS)?;
    Ok(())
}

#[test]
fn altered_later_files_are_refused() -> Result<(), Fail> {
    let rt = kit::HostRuntime;

    static ROWS: [Alteration; 9] = [
        (2, b'j', Some(Fault::File(InvalidMagicNumber))),
        (4, 0, Some(Fault::File(RemainingDataV1))),
        (56, b'j', Some(Fault::File(InvalidMagicNumber))),
        (58, b'2', Some(Fault::Text(InvalidDayTimeHour))),
        (58, 0, Some(Fault::Text(InvalidDayTimeHour))),
        (58, b'5', Some(Fault::File(UnsupportedTzFileVersion))),
        (106, 1, Some(Fault::Zone(InvalidLocalTimeTypeIndex))),
        (117, 0, Some(Fault::File(InvalidStdWallUtLocal))),
        (146, b' ', Some(Fault::File(InvalidFooter))),
    ];
    expect_refusals(&rt, rt.alloc(), JERUSALEM_V3, &ROWS)?;
    Ok(())
}

/// How the bytes are refused with two of them changed.
fn fault_with_two(
    alloc: Global,
    bytes: &[u8],
    first: (usize, u8),
    second: (usize, u8),
) -> Result<Option<Fault>, AllocError> {
    let other = with_byte(alloc, bytes, first.0, first.1)?;
    let other = with_byte(alloc, &other, second.0, second.1)?;
    Ok(fault_of(alloc, &other))
}

/// How a header is refused that is altered and cut short.
fn fault_with_cut(
    alloc: Global,
    altered: (usize, u8),
    len: usize,
) -> Result<Option<Fault>, AllocError> {
    let mut bytes = with_byte(alloc, UTC_V1, altered.0, altered.1)?;
    bytes.truncate(len);
    Ok(fault_of(alloc, &bytes))
}

/// Of several faults the one is named that is met first, as tz-rs does.
#[test]
fn the_first_fault_that_is_met_is_named() -> Result<(), Fail> {
    let rt = kit::HostRuntime;

    let found = fault_with_cut(rt.alloc(), (2, b'j'), 20)?;
    expect_eq(&rt, &found, &Some(Fault::File(InvalidMagicNumber)));
    let found = fault_with_cut(rt.alloc(), (4, b'5'), 5)?;
    expect_eq(&rt, &found, &Some(Fault::File(UnsupportedTzFileVersion)));
    // No types, and more transitions than there are bytes.
    let found = fault_with_two(rt.alloc(), UTC_V1, (39, 0), (32, 255))?;
    expect_eq(&rt, &found, &Some(Fault::File(InvalidHeader)));

    let has_no_flag = Some(Fault::File(InvalidDstIndicator));
    // A flag of 2, and a name at place 9, where there is none.
    let found = fault_with_two(rt.alloc(), UTC_V1, (48, 2), (49, 9))?;
    expect_eq(&rt, &found, &has_no_flag);
    // A flag of 2, and a time of UT that goes with no standard time.
    let found = fault_with_two(rt.alloc(), &utc_v1_leap(rt.alloc())?, (48, 2), (271, 1))?;
    expect_eq(&rt, &found, &has_no_flag);
    // A flag of 2 in the second block, and a footer without its last line feed.
    let found = fault_with_two(rt.alloc(), JERUSALEM_V3, (111, 2), (146, b' '))?;
    expect_eq(&rt, &found, &has_no_flag);
    Ok(())
}

#[test]
fn a_name_may_be_empty() -> Result<(), Fail> {
    let rt = kit::HostRuntime;

    let bytes = with_byte(rt.alloc(), UTC_V1, 49, 3)?;
    let zone = TimeZone::from_tz_data(rt.alloc(), &bytes)?;
    expect_eq(
        &rt,
        &zone.as_ref().local_time_types(),
        &[LocalTimeType::utc()].as_slice(),
    );
    Ok(())
}

#[test]
fn counts_beyond_the_bytes_take_no_memory() -> Result<(), Fail> {
    let rt = kit::HostRuntime;

    let mut bytes = Vec::from_slice(rt.alloc(), UTC_V1)?;
    for place in 32..36 {
        bytes = with_byte(rt.alloc(), &bytes, place, 0xff)?;
    }
    let heap = Refusing::new(rt.alloc(), 0);
    expect_eq(
        &rt,
        &TimeZone::from_tz_data(&heap, &bytes).err().map(named),
        &is_cut(),
    );
    expect_eq(&rt, &heap.refused(), &0);
    Ok(())
}

/// The parts that the zone lends make an equal zone.
fn expect_same_zone(rt: &impl Abort, zone: TimeZoneRef<'_>) {
    let again = TimeZoneRef::new(
        zone.transitions(),
        zone.local_time_types(),
        zone.leap_seconds(),
        zone.extra_rule(),
    );
    assert!(again.is_ok_and(|again| again == zone));
}

/// Sets each byte to each other value, and returns how many of these files are accepted. The others
/// are refused, and never as out of memory; of an accepted one the parts that its zone lends make
/// an equal zone.
fn accepted_alterations(rt: &impl Abort, alloc: Global, bytes: &mut Vec<u8>) -> u32 {
    let mut accepted = 0u32;
    for place in 0..bytes.len() {
        let byte = bytes[place];
        for other in 0..=255u8 {
            if other != byte {
                bytes[place] = other;
                match TimeZone::from_tz_data(alloc, bytes) {
                    Ok(zone) => {
                        expect_same_zone(rt, zone.as_ref());
                        accepted = accepted.saturating_add(1);
                    }
                    Err(error) => assert!(named(error) != Fault::Memory),
                }
            }
        }
        bytes[place] = byte;
    }
    accepted
}

/// tz-rs accepts as many.
#[test]
fn each_byte_of_a_first_version_is_altered() -> Result<(), Fail> {
    let rt = kit::HostRuntime;

    let accepted = accepted_alterations(&rt, rt.alloc(), &mut Vec::from_slice(rt.alloc(), UTC_V1)?);
    expect_eq(&rt, &accepted, &5040);
    Ok(())
}

/// tz-rs accepts as many, but for the two with a header of version 4.
#[test]
fn each_byte_of_a_later_version_is_altered() -> Result<(), Fail> {
    let rt = kit::HostRuntime;

    let accepted = accepted_alterations(
        &rt,
        rt.alloc(),
        &mut Vec::from_slice(rt.alloc(), JERUSALEM_V3)?,
    );
    expect_eq(&rt, &accepted, &11_449);
    Ok(())
}
