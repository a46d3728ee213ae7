// Tests from crates/tz_zone_tests/src/tz_files.rt by bindings/erase. Change that file instead.
//! TZif files: vectors and the zones that they denote, footers, and refused memory.

use crate::erased::tz_samples::faults::{Fault, named};
use crate::erased::tz_samples::files::{JERUSALEM_V3, UTC_V1, push_header, without_transitions};
use crate::erased::tz_samples::instants::LEAP_TIMES;
use crate::erased::tz_samples::refusing::Refusing;
use crate::erased::tz_samples::rules::{Day, RuleRow, rule_of};
use crate::erased::tz_zone_tests::expect::{expect_eq, expect_eq_at};
use crate::kit::process::Abort;
use crate::kit::test::Fail;
use crate::kit::{self, Vec, VecIn};
use crate::utc;
use tz::proved::tz_base::error::ParseDataError::{InvalidData, UnexpectedEof};
use tz::proved::tz_base::error::TimeZoneError::InconsistentExtraRule;
use tz::proved::tz_base::error::TzFileError::{InvalidFooter, Utf8};
use tz::proved::tz_base::error::TzStringError::InvalidDayTimeHour;
use tz::proved::tz_base::error::{
    LocalTimeTypeError, ParseDataError, TimeZoneError, TzError, TzFileError, TzStringError,
};
use tz::proved::tz_zone::timezone::{
    LeapSecond, LocalTimeType, TimeZone, TimeZoneRef, Transition, TransitionRule,
};
use tz::shim::alloc::{AllocError, Global};

/// How the bytes are refused.
fn fault_of(alloc: Global, bytes: &[u8]) -> Option<Fault> {
    TimeZone::from_tz_data(alloc, bytes).err().map(named)
}

/// Bytes are missing: a row of a table says so.
const CUT: Option<Fault> = Some(Fault::File(TzFileError::ParseData(UnexpectedEof)));

/// Bytes are missing.
fn is_cut() -> Option<Fault> {
    CUT
}

/// UTC with its leap seconds, and both indicators.
fn utc_v1_leap(alloc: Global) -> Result<Vec<u8>, AllocError> {
    let mut bytes = Vec::new(alloc);
    push_header(&mut bytes, 0, &[1, 1, 27, 0, 1, 4])?;
    bytes.extend_from_slice(b"\0\0\0\0\0\0UTC\0")?;
    let mut correction = 0u32;
    for time in &LEAP_TIMES {
        correction = correction.saturating_add(1);
        bytes.extend_from_slice(&time.to_be_bytes()[4..])?;
        bytes.extend_from_slice(&correction.to_be_bytes())?;
    }
    bytes.extend_from_slice(&[0, 0])?;
    Ok(bytes)
}

/// The bytes with one of them changed.
fn with_byte(alloc: Global, bytes: &[u8], place: usize, byte: u8) -> Result<Vec<u8>, AllocError> {
    let mut other = Vec::from_slice(alloc, bytes)?;
    if place < other.len() {
        other[place] = byte;
    }
    Ok(other)
}

/// A place, another byte there, and how the file is then refused.
type Alteration = (usize, u8, Option<Fault>);

/// The bytes are refused so with each of these alterations.
fn expect_refusals(
    rt: &impl Abort,
    alloc: Global,
    bytes: &[u8],
    rows: &[Alteration],
) -> Result<(), AllocError> {
    for (place, byte, expected) in rows {
        let other = with_byte(alloc, bytes, *place, *byte)?;
        expect_eq_at(rt, place, &fault_of(alloc, &other), expected);
    }
    Ok(())
}

/// The leap seconds are those up to 2017.
fn expect_leap_seconds(rt: &impl Abort, leap_seconds: &[LeapSecond]) {
    expect_eq(rt, &leap_seconds.len(), &27);
    let mut correction = 0i32;
    for (leap_second, time) in leap_seconds.iter().zip(&LEAP_TIMES) {
        correction = correction.saturating_add(1);
        expect_eq(rt, leap_second, &LeapSecond::new(*time, correction));
    }
}

#[test]
fn leap_seconds_are_read() -> Result<(), Fail> {
    let rt = kit::HostRuntime;

    let types = [LocalTimeType::new(0, false, Some(b"UTC"))?];
    let bytes = utc_v1_leap(rt.alloc())?;
    let zone = TimeZone::from_tz_data(rt.alloc(), &bytes)?;
    let zone = zone.as_ref();
    expect_eq(&rt, &zone.local_time_types(), &types.as_slice());
    assert!(zone.extra_rule().is_none());
    expect_leap_seconds(&rt, zone.leap_seconds());
    Ok(())
}

/// Each growth is refused in turn: the answer is an allocation failure, until none is refused and
/// it is the zone. The bytes stay as they are.
fn expect_memory(rt: &impl Abort, alloc: Global, bytes: &[u8]) -> Result<(), Fail> {
    let lent = Vec::from_slice(alloc, bytes)?;
    let ample = TimeZone::from_tz_data(alloc, bytes)?;
    for left in 0..10u64 {
        let heap = Refusing::new(alloc, left);
        let answer = TimeZone::from_tz_data(&heap, bytes);
        expect_eq_at(rt, &left, &bytes, &lent.as_slice());
        let refused = match answer {
            Ok(zone) => {
                assert!(zone.as_ref() == ample.as_ref());
                None
            }
            Err(error) => Some(named(error)),
        };
        expect_eq_at(rt, &left, &heap.held(), &0);
        if heap.refused() == 0 {
            expect_eq_at(rt, &left, &refused, &None);
            return Ok(());
        }
        expect_eq_at(rt, &left, &refused, &Some(Fault::Memory));
    }
    assert!(false, "growths without end");
    Ok(())
}

#[test]
fn memory_is_refused() -> Result<(), Fail> {
    let rt = kit::HostRuntime;

    expect_memory(&rt, rt.alloc(), UTC_V1)?;
    expect_memory(&rt, rt.alloc(), &utc_v1_leap(rt.alloc())?)
}

/// One type of two hours east in both blocks, a transition in the second one, and a footer after
/// it.
fn with_footer(alloc: Global, version: u8, footer: &[u8]) -> Result<Vec<u8>, AllocError> {
    let mut bytes = Vec::new(alloc);
    push_header(&mut bytes, b'3', &[0, 0, 0, 0, 1, 4])?;
    bytes.extend_from_slice(b"\0\0\x1c\x20\0\0IST\0")?;
    push_header(&mut bytes, version, &[1, 1, 0, 1, 1, 4])?;
    bytes.extend_from_slice(&2_145_916_800i64.to_be_bytes())?;
    bytes.extend_from_slice(b"\0\0\0\x1c\x20\0\0IST\0\x01\x01")?;
    bytes.extend_from_slice(footer)?;
    Ok(bytes)
}

/// The transitions of Honolulu's times.
static HONOLULU: [(i64, u8); 7] = [
    (utc!(1896-01-13 22:31:26), 1),
    (utc!(1933-04-30 12:30:00), 2),
    (utc!(1933-05-21 21:30:00), 1),
    (utc!(1942-02-09 12:30:00), 3),
    (utc!(1945-08-14 23:00:00), 4),
    (utc!(1945-09-30 11:30:00), 1),
    (utc!(1947-06-08 12:30:00), 5),
];

/// The types, their names and their indicators.
fn push_honolulu_types(bytes: &mut Vec<u8>) -> Result<(), AllocError> {
    static TYPES: [(i32, u8, u8); 6] = [
        (-37_886, 0, 0),
        (-37_800, 0, 4),
        (-34_200, 1, 8),
        (-34_200, 1, 12),
        (-34_200, 1, 16),
        (-36_000, 0, 4),
    ];
    for (_, index) in &HONOLULU {
        bytes.push(*index)?;
    }
    for (ut_offset, is_dst, name) in &TYPES {
        bytes.extend_from_slice(&ut_offset.to_be_bytes())?;
        bytes.push(*is_dst)?;
        bytes.push(*name)?;
    }
    bytes.extend_from_slice(b"LMT\0HST\0HDT\0HWT\0HPT\0")?;
    bytes.extend_from_slice(b"\0\0\0\0\x01\0\0\0\0\0\x01\0")
}

/// Honolulu from 1896 on.
fn honolulu_v2(alloc: Global) -> Result<Vec<u8>, AllocError> {
    let mut bytes = Vec::new(alloc);
    push_header(&mut bytes, b'2', &[6, 6, 0, 7, 6, 20])?;
    // Four bytes hold no time of 1896.
    for (time, _) in &HONOLULU {
        let time = i32::try_from(*time).unwrap_or(i32::MIN);
        bytes.extend_from_slice(&time.to_be_bytes())?;
    }
    push_honolulu_types(&mut bytes)?;
    push_header(&mut bytes, b'2', &[6, 6, 0, 7, 6, 20])?;
    for (time, _) in &HONOLULU {
        bytes.extend_from_slice(&time.to_be_bytes())?;
    }
    push_honolulu_types(&mut bytes)?;
    bytes.extend_from_slice(b"\nHST10\n")?;
    Ok(bytes)
}

/// The rule of Israel.
static JERUSALEM: RuleRow = (
    (7200, false, Some(b"IST")),
    (10_800, true, Some(b"IDT")),
    (Day::Month(3, 4, 4), 93_600),
    (Day::Month(10, 5, 0), 7200),
);

/// The only transition of Israel's zone.
const NEW_YEAR_2038: i64 = utc!(2038-01-01 00:00:00);

/// The bytes are Israel's zone.
fn expect_jerusalem(rt: &impl Abort, alloc: Global, bytes: &[u8]) -> Result<(), TzError> {
    let types = [LocalTimeType::new(7200, false, Some(b"IST"))?];
    let rule = Some(TransitionRule::Alternate(rule_of(&JERUSALEM)?));
    let zone = TimeZone::from_tz_data(alloc, bytes)?;
    let zone = zone.as_ref();
    let transitions = [Transition::new(NEW_YEAR_2038, 0)];
    expect_eq(rt, &zone.transitions(), &transitions.as_slice());
    expect_eq(rt, &zone.local_time_types(), &types.as_slice());
    assert!(zone.leap_seconds().is_empty());
    expect_eq(rt, zone.extra_rule(), &rule);
    Ok(())
}

#[test]
fn jerusalem_is_read() -> Result<(), Fail> {
    let rt = kit::HostRuntime;

    // The first header's version and the first block's content make no difference, nor does a time
    // of UT.
    static ALTERED: [(usize, u8); 4] = [(4, b'2'), (48, 7), (58, b'4'), (118, 0)];
    expect_jerusalem(&rt, rt.alloc(), JERUSALEM_V3)?;
    for (place, byte) in &ALTERED {
        let altered = with_byte(rt.alloc(), JERUSALEM_V3, *place, *byte)?;
        expect_jerusalem(&rt, rt.alloc(), &altered)?;
    }
    Ok(())
}

/// Holds a zone to the transitions, the types and the rule of Honolulu.
fn expect_honolulu(rt: &impl Abort, zone: TimeZoneRef<'_>) -> Result<(), TzError> {
    let transitions = zone.transitions();
    expect_eq(rt, &transitions.len(), &7);
    for (transition, (time, index)) in transitions.iter().zip(&HONOLULU) {
        expect_eq(
            rt,
            transition,
            &(Transition::new(*time, usize::from(*index))),
        );
    }
    let summer = LocalTimeType::new(-34_200, true, Some(b"HDT"))?;
    let now = LocalTimeType::new(-36_000, false, Some(b"HST"))?;
    const MAY_1933: i64 = utc!(1933-05-04 12:00:00);
    const NEW_YEAR_2019: i64 = utc!(2019-01-01 00:00:00);
    expect_eq(rt, zone.find_local_time_type(MAY_1933)?, &summer);
    expect_eq(rt, zone.find_local_time_type(NEW_YEAR_2019)?, &now);
    expect_eq(rt, zone.extra_rule(), &Some(TransitionRule::Fixed(now)));
    Ok(())
}

#[test]
fn honolulu_is_read() -> Result<(), Fail> {
    let rt = kit::HostRuntime;

    let bytes = honolulu_v2(rt.alloc())?;
    let zone = TimeZone::from_tz_data(rt.alloc(), &bytes)?;
    expect_honolulu(&rt, zone.as_ref())?;
    Ok(())
}

#[test]
fn footers_are_read() -> Result<(), Fail> {
    let rt = kit::HostRuntime;

    // Footers, and whether they are the rule of two hours.
    static ROWS: [(&[u8], bool); 5] = [
        (b"\n\n", false),
        (b"\n \t\n", false),
        (b"\nIST-2\n", true),
        (b"\nIST-2\r\n", true),
        (b"\n\x0c IST-2 \n", true),
    ];
    let fixed = TransitionRule::Fixed(LocalTimeType::new(7200, false, Some(b"IST"))?);
    for (footer, has_rule) in &ROWS {
        let expected = if *has_rule { Some(fixed) } else { None };
        let bytes = with_footer(rt.alloc(), b'3', footer)?;
        let zone = TimeZone::from_tz_data(rt.alloc(), &bytes)?;
        expect_eq(&rt, zone.as_ref().extra_rule(), &expected);
    }
    Ok(())
}

#[test]
fn footers_are_refused() -> Result<(), Fail> {
    let rt = kit::HostRuntime;

    static ROWS: [(&[u8], Option<Fault>); 7] = [
        (b"", Some(Fault::File(InvalidFooter))),
        (b"\nIST-2", Some(Fault::File(InvalidFooter))),
        (b"IST-2\n", Some(Fault::File(InvalidFooter))),
        (b"\n:x\n", Some(Fault::File(InvalidFooter))),
        (b"\nA\0\x30\n", Some(Fault::File(InvalidFooter))),
        (b"\nIST-3\n", Some(Fault::Zone(InconsistentExtraRule))),
        (
            b"\nIST-2IDT,J1.J2\n",
            Some(Fault::Text(TzStringError::ParseData(InvalidData))),
        ),
    ];
    for (footer, expected) in &ROWS {
        let bytes = with_footer(rt.alloc(), b'3', footer)?;
        expect_eq(&rt, &fault_of(rt.alloc(), &bytes), expected);
    }
    Ok(())
}

/// A footer that is not UTF-8 is refused for that, whatever else is wrong with it.
#[test]
fn footers_that_are_not_utf_8_are_refused_first() -> Result<(), Fail> {
    let rt = kit::HostRuntime;

    static ROWS: [&[u8]; 5] = [
        b"\n\xff\n",
        b"\xff",
        b"IST-2\xff",
        b"\n:\xff\n",
        b"\n\0\xff\n",
    ];
    for footer in &ROWS {
        let bytes = with_footer(rt.alloc(), b'3', footer)?;
        let refused = fault_of(rt.alloc(), &bytes);
        assert!(matches!(refused, Some(Fault::File(Utf8(_)))), "{footer:?}");
    }
    Ok(())
}

/// The footer's text is refused so where the second header has version 2, and is the rule where it
/// has version 3.
fn expect_extended(
    rt: &impl Abort,
    alloc: Global,
    footer: &[u8],
    fault: Fault,
    rule: &RuleRow,
) -> Result<(), TzError> {
    let rule = Some(TransitionRule::Alternate(rule_of(rule)?));
    let bytes = without_transitions(alloc, b'2', footer)?;
    expect_eq(rt, &fault_of(alloc, &bytes), &Some(fault));
    let bytes = without_transitions(alloc, b'3', footer)?;
    let zone = TimeZone::from_tz_data(alloc, &bytes)?;
    expect_eq(rt, zone.as_ref().extra_rule(), &rule);
    Ok(())
}

#[test]
fn the_second_header_extends_texts() -> Result<(), Fail> {
    let rt = kit::HostRuntime;

    static SIGNED: RuleRow = (
        (-10_800, false, Some(b"-03")),
        (-7200, true, Some(b"-02")),
        (Day::Month(3, 5, 0), -7200),
        (Day::Month(10, 5, 0), -3600),
    );
    static ALL_YEAR: RuleRow = (
        (-18_000, false, Some(b"EST")),
        (-14_400, true, Some(b"EDT")),
        (Day::Julian0(0), 0),
        (Day::Julian1(365), 90_000),
    );
    let footer = b"\n<-03>3<-02>,M3.5.0/-2,M10.5.0/-1\n";
    expect_extended(&rt, rt.alloc(), footer, Fault::Number, &SIGNED)?;
    let footer = b"\nEST5EDT,0/0,J365/25\n";
    let is_late = Fault::Text(InvalidDayTimeHour);
    expect_extended(&rt, rt.alloc(), footer, is_late, &ALL_YEAR)?;
    Ok(())
}

#[test]
fn memory_is_refused_in_later_files() -> Result<(), Fail> {
    let rt = kit::HostRuntime;

    expect_memory(&rt, rt.alloc(), JERUSALEM_V3)?;
    expect_memory(&rt, rt.alloc(), &honolulu_v2(rt.alloc())?)
}

mod altered;
mod large;
mod layouts;
mod version_4;
