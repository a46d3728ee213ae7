// Tests from crates/tz_zone_tests/src/owned_zones.rt by bindings/erase. Change that file instead.
//! Zones that own their parts: with memory enough, and with each growth refused in turn.

use crate::erased::tz_samples::refusing::Refusing;
use crate::erased::tz_zone_tests::expect::expect_eq;
use crate::kit::test::Fail;
use crate::kit::{self, Vec, VecIn, format_in};
use tz::proved::tz_base::error::{LocalTimeTypeError, TimeZoneError, TzError};
use tz::proved::tz_zone::timezone::{
    LeapSecond, LocalTimeType, TimeZone, Transition, TransitionRule,
};
use tz::shim::alloc::{AllocError, Allocator};

/// Two transitions, two types and a leap second.
fn parts<A: Allocator + Copy>(
    alloc: A,
) -> Result<
    (
        Vec<Transition, A>,
        Vec<LocalTimeType, A>,
        Vec<LeapSecond, A>,
    ),
    TzError,
> {
    let summer = LocalTimeType::new(3600, true, Some(b"BST"))?;
    Ok((
        Vec::from_slice(alloc, &[Transition::new(0, 1), Transition::new(7200, 0)])?,
        Vec::from_slice(alloc, &[LocalTimeType::utc(), summer])?,
        Vec::from_slice(alloc, &[LeapSecond::new(100, 1)])?,
    ))
}

/// The zone of the two transitions, which goes on in UTC.
fn two_transitions<A: Allocator + Copy>(alloc: A) -> Result<TimeZone<A>, TzError> {
    let (transitions, local_time_types, leap_seconds) = parts(alloc)?;
    let extra_rule = Some(TransitionRule::Fixed(LocalTimeType::utc()));
    TimeZone::new(transitions, local_time_types, leap_seconds, extra_rule)
}

/// Whether a call was refused for an allocation failure.
fn is_memory<T>(answer: &Result<T, TzError>) -> bool {
    matches!(answer, Err(TzError::Memory(AllocError)))
}

/// What the zone of the two transitions prints after the name of its type.
const PARTS: &str = "{ transitions: [Transition { unix_leap_time: 0, local_time_type_index: 1 }, \
    Transition { unix_leap_time: 7200, local_time_type_index: 0 }], \
    local_time_types: [LocalTimeType { ut_offset: 0, is_dst: false, time_zone_designation: None }, \
    LocalTimeType { ut_offset: 3600, is_dst: true, time_zone_designation: Some(\"BST\") }], \
    leap_seconds: [LeapSecond { unix_leap_time: 100, correction: 1 }], \
    extra_rule: Some(Fixed(LocalTimeType { ut_offset: 0, is_dst: false, time_zone_designation: None })) }";

#[test]
fn zones_print_their_four_parts() -> Result<(), Fail> {
    let rt = kit::HostRuntime;

    let alloc = rt.alloc();
    let zone = two_transitions(alloc)?;
    let owned = format_in!(alloc; "{zone:?}")?;
    let borrowed = format_in!(alloc; "{:?}", zone.as_ref())?;
    expect_eq(&rt, &owned.strip_prefix("TimeZone "), &Some(PARTS));
    expect_eq(&rt, &borrowed.strip_prefix("TimeZoneRef "), &Some(PARTS));
    Ok(())
}

/// The offset is refused first, whether there is memory or not.
#[test]
fn one_type_with_each_growth_refused() {
    let rt = kit::HostRuntime;

    for left in 0..2u64 {
        let heap = Refusing::new(rt.alloc(), left);
        expect_eq(&rt, &is_memory(&TimeZone::utc(&heap)), &(left == 0));
        expect_eq(&rt, &heap.held(), &0);
        let heap = Refusing::new(rt.alloc(), left);
        expect_eq(&rt, &is_memory(&TimeZone::fixed(&heap, 3600)), &(left == 0));
        expect_eq(&rt, &heap.held(), &0);
        let heap = Refusing::new(rt.alloc(), left);
        assert!(matches!(
            TimeZone::fixed(&heap, i32::MIN),
            Err(TzError::LocalTimeType(LocalTimeTypeError::InvalidUtcOffset))
        ));
        expect_eq(&rt, &heap.refused(), &0);
    }
}

/// A clone equals its source and takes its source's allocator: one block for each list that is not
/// empty. The source stays as it is.
#[test]
fn a_clone_with_each_growth_refused() -> Result<(), Fail> {
    let rt = kit::HostRuntime;

    let source = two_transitions(rt.alloc())?;
    let mut blocks = 0u64;
    for left in 0..20u64 {
        let heap = Refusing::new(rt.alloc(), left);
        if let Ok(zone) = two_transitions(&heap) {
            let held = heap.held();
            let clone = zone.try_clone();
            assert!(zone.as_ref() == source.as_ref());
            match &clone {
                Ok(clone) => {
                    expect_eq(&rt, &heap.held(), &held.wrapping_mul(2));
                    assert!(*clone == zone);
                    blocks = held;
                }
                Err(_) => {
                    assert!(is_memory(&clone));
                    expect_eq(&rt, &heap.held(), &held);
                    expect_eq(&rt, &heap.refused(), &1);
                }
            }
        }
        expect_eq(&rt, &heap.held(), &0);
    }
    expect_eq(&rt, &blocks, &3);
    Ok(())
}

/// Lists that make no zone are given back to their allocator.
#[test]
fn refused_parts_are_dropped() -> Result<(), Fail> {
    let rt = kit::HostRuntime;

    let heap = Refusing::new(rt.alloc(), u64::MAX);
    let (transitions, local_time_types, leap_seconds) = parts(&heap)?;
    expect_eq(&rt, &heap.held(), &3);
    let extra_rule = Some(TransitionRule::Fixed(LocalTimeType::with_ut_offset(1)?));
    let zone = TimeZone::new(transitions, local_time_types, leap_seconds, extra_rule);
    assert!(matches!(
        zone,
        Err(TzError::TimeZone(TimeZoneError::InconsistentExtraRule))
    ));
    expect_eq(&rt, &heap.held(), &0);
    Ok(())
}
