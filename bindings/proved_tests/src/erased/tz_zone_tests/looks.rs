// Tests from crates/tz_zone_tests/src/looks.rt by bindings/erase. Change that file instead.
//! How many looks a lookup takes.

use crate::erased::tz_samples::zones::{hour_apart, transitions_in_turn};
use crate::erased::tz_zone_tests::expect::{expect_eq, expect_eq_at};
use crate::kit::process::Abort;
use crate::kit::test::Fail;
use crate::kit::{self};
use tz::proved::tz_base::error::TzError;
use tz::proved::tz_zone::timezone::{LeapSecond, TimeZoneRef};
use tz::shim::alloc::Global;

/// The looks of a lookup, which finds what the call without a count finds.
fn looks_at(rt: &impl Abort, zone: &TimeZoneRef<'_>, unix_time: i64) -> u64 {
    let (answer, looks) = zone.find_local_time_type_counted(unix_time);
    let offset = answer.ok().map(|found| found.ut_offset());
    let uncounted = zone.find_local_time_type(unix_time).ok();
    expect_eq(rt, &offset, &uncounted.map(|found| found.ut_offset()));
    looks
}

/// The number of looks lies between these, both included.
fn expect_between(rt: &impl Abort, looks: u64, least: u64, greatest: u64) {
    assert!(least <= looks && looks <= greatest, "{looks} looks");
}

#[test]
fn a_thousand_transitions() -> Result<(), Fail> {
    let rt = kit::HostRuntime;

    let types = hour_apart()?;
    let transitions = transitions_in_turn(rt.alloc(), 1024)?;
    let zone = TimeZoneRef::new(&transitions, &types, &[], &None)?;
    let (answer, looks) = zone.find_local_time_type_counted(499_999_999);
    expect_eq(&rt, &answer.ok(), &types.get(1));
    expect_between(&rt, looks, 1, 13);
    Ok(())
}

/// The least and the greatest number of looks, around each transition and at the ends.
fn range_of_looks(rt: &impl Abort, zone: &TimeZoneRef<'_>) -> (u64, u64) {
    let mut least = looks_at(rt, zone, i64::MIN);
    let mut greatest = least;
    for transition in zone.transitions() {
        let unix_time = transition.unix_leap_time();
        for near in [unix_time.saturating_sub(1), unix_time] {
            let looks = looks_at(rt, zone, near);
            least = least.min(looks);
            greatest = greatest.max(looks);
        }
    }
    (least, greatest)
}

/// Numbers of transitions around powers of two, and the greatest number of looks.
static AROUND_POWERS: [(u32, u64); 20] = [
    (0, 0),
    (1, 1),
    (3, 4),
    (4, 4),
    (5, 5),
    (7, 5),
    (8, 5),
    (9, 6),
    (15, 6),
    (16, 6),
    (17, 7),
    (63, 8),
    (64, 8),
    (65, 9),
    (511, 11),
    (512, 11),
    (513, 12),
    (4095, 14),
    (4096, 14),
    (4097, 15),
];

/// Lookups among this many transitions take from one look to this many, and none among none.
fn expect_range_of_looks(
    rt: &impl Abort,
    alloc: Global,
    count: u32,
    greatest: u64,
) -> Result<(), TzError> {
    let types = hour_apart()?;
    let transitions = transitions_in_turn(alloc, count)?;
    let zone = TimeZoneRef::new(&transitions, &types, &[], &None)?;
    let range = (u64::from(count.min(1)), greatest);
    expect_eq_at(rt, &count, &range_of_looks(rt, &zone), &range);
    Ok(())
}

#[test]
fn around_powers_of_two() -> Result<(), Fail> {
    let rt = kit::HostRuntime;

    for (count, greatest) in &AROUND_POWERS {
        expect_range_of_looks(&rt, rt.alloc(), *count, *greatest)?;
    }
    Ok(())
}

#[test]
fn refused_lookups_are_counted() -> Result<(), Fail> {
    let rt = kit::HostRuntime;

    let types = hour_apart()?;
    let transitions = transitions_in_turn(rt.alloc(), 100)?;
    let leap_seconds = [LeapSecond::new(0, 1)];
    let zone = TimeZoneRef::new(&transitions, &types, &leap_seconds, &None)?;
    let (over, looks) = zone.find_local_time_type_counted(i64::MAX - 1);
    assert!(matches!(over, Err(TzError::NoAvailableLocalTimeType)));
    expect_eq(&rt, &looks, &1);
    let (out_of_range, looks) = zone.find_local_time_type_counted(i64::MAX);
    assert!(matches!(out_of_range, Err(TzError::OutOfRange)));
    expect_eq(&rt, &looks, &1);
    Ok(())
}
