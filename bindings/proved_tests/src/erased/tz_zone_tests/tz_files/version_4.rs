// Tests from crates/tz_zone_tests/src/tz_files/version_4.rt by bindings/erase. Change that file instead.
//! Files of version 4, whose leap-second tables may begin later and expire.

use super::*;
use crate::erased::tz_samples::files::UTC_V4;
use crate::erased::tz_zone_tests::expect::expect_eq;
use crate::kit::{self};
use tz::proved::tz_base::error::TimeZoneError::InvalidLeapSecond;
use tz::proved::tz_base::error::TzFileError::{
    InvalidFooter, RemainingDataV1, UnsupportedTzFileVersion,
};

/// The leap seconds and their expiry are those of the bytes.
fn expect_utc(
    rt: &impl Abort,
    alloc: Global,
    bytes: &[u8],
    correction: i32,
    expiry: Option<i64>,
) -> Result<(), TzError> {
    let types = [LocalTimeType::new(0, false, Some(b"UTC"))?];
    let zone = TimeZone::from_tz_data(alloc, bytes)?;
    let zone = zone.as_ref();
    assert!(zone.transitions().is_empty());
    expect_eq(rt, &zone.local_time_types(), &types.as_slice());
    expect_eq(
        rt,
        &zone.leap_seconds(),
        &[
            LeapSecond::new(1_483_228_826, 27),
            LeapSecond::new(1_700_000_000, correction),
        ]
        .as_slice(),
    );
    assert!(zone.extra_rule().is_none());
    expect_eq(rt, &zone.leap_expiry(), &expiry);
    Ok(())
}

#[test]
fn a_table_that_begins_later_and_expires() -> Result<(), Fail> {
    let rt = kit::HostRuntime;

    expect_utc(&rt, rt.alloc(), UTC_V4, 27, Some(1_700_000_000))?;
    // The first header's version makes no difference.
    for version in [b'2', b'3'] {
        let other = with_byte(rt.alloc(), UTC_V4, 4, version)?;
        expect_utc(&rt, rt.alloc(), &other, 27, Some(1_700_000_000))?;
    }
    // Of another correction the last record is a leap second.
    let other = with_byte(rt.alloc(), UTC_V4, 131, 0x1c)?;
    expect_utc(&rt, rt.alloc(), &other, 28, None)?;
    Ok(())
}

#[test]
fn tables_that_are_refused() -> Result<(), Fail> {
    let rt = kit::HostRuntime;

    static ROWS: [Alteration; 8] = [
        (4, 0, Some(Fault::File(RemainingDataV1))),
        (4, b'5', Some(Fault::File(UnsupportedTzFileVersion))),
        (58, 0, Some(Fault::Zone(InvalidLeapSecond))),
        (58, b'2', Some(Fault::Zone(InvalidLeapSecond))),
        (58, b'3', Some(Fault::Zone(InvalidLeapSecond))),
        (58, b'5', Some(Fault::File(UnsupportedTzFileVersion))),
        (131, 0x1d, Some(Fault::Zone(InvalidLeapSecond))),
        (108, 0x80, Some(Fault::Zone(InvalidLeapSecond))),
    ];
    expect_refusals(&rt, rt.alloc(), UTC_V4, &ROWS)?;
    Ok(())
}

/// Of a table that the version may not hold and a footer that is none, the footer is named, as
/// tz-rs does.
#[test]
fn a_footer_is_named_before_leap_seconds() -> Result<(), Fail> {
    let rt = kit::HostRuntime;

    let is_no_table = Some(Fault::Zone(InvalidLeapSecond));
    let is_no_footer = Some(Fault::File(InvalidFooter));
    let bytes = with_byte(rt.alloc(), UTC_V4, 58, b'3')?;
    expect_eq(&rt, &fault_of(rt.alloc(), &bytes), &is_no_table);
    let bytes = with_byte(rt.alloc(), &bytes, 133, b' ')?;
    expect_eq(&rt, &fault_of(rt.alloc(), &bytes), &is_no_footer);
    Ok(())
}

#[test]
fn memory_is_refused_with_a_table() -> Result<(), Fail> {
    let rt = kit::HostRuntime;

    expect_memory(&rt, rt.alloc(), UTC_V4)
}
