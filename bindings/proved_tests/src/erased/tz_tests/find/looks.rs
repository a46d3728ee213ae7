// Tests from crates/tz_tests/src/find/looks.rt by bindings/erase. Change that file instead.
//! Counted looks of searches.

use super::*;
use crate::erased::tz_samples::zones::{ONE_EFFECT, hour_apart, transitions_in_turn};
use crate::erased::tz_tests::expect::expect_eq;
use crate::kit::{self};
use tz::proved::tz::datetime::UtcDateTime;

#[test]
fn a_thousand_transitions() -> Result<(), Fail> {
    let rt = kit::HostRuntime;

    // An hour that is shown twice, and one that is left out.
    static ROWS: [(Reading, &[Summary]); 2] = [
        (
            (1985, 11, 5, 1, 23, 20),
            &[(499_998_200, 3600, 3600), (500_001_800, 0, 0)],
        ),
        ((1985, 11, 16, 15, 0, 0), &[(501_000_000, 0, 3600)]),
    ];
    let types = hour_apart()?;
    let transitions = transitions_in_turn(rt.alloc(), 1024)?;
    let rule = None;
    let zone = TimeZoneRef::new(transitions.as_slice(), &types, &[], &rule)?;
    for (reading, expected) in &ROWS {
        let looks = expect_counted(&rt, &mut [None, None], zone, *reading, expected)?;
        assert!(1 <= looks && looks <= 27);
    }
    Ok(())
}

/// The fields that read a number of seconds after 1970.
fn reading_of(seconds: i64) -> Result<Reading, TzError> {
    let fields = UtcDateTime::from_timespec(seconds, 0)?;
    let (hour, minute, second) = (fields.hour(), fields.minute(), fields.second());
    let (year, month, month_day) = (fields.year(), fields.month(), fields.month_day());
    Ok((year, month, month_day, hour, minute, second))
}

/// The least and the greatest number of looks.
type Range = (u64, u64);

/// Searches around an instant of the table find what `find` finds. Their looks, and those of the
/// range.
fn expect_around(
    rt: &impl Abort,
    alloc: Global,
    zone: TimeZoneRef<'_>,
    start: i64,
    range: Range,
) -> Result<Range, TzError> {
    static SHIFTS: [i64; 6] = [-1, 0, 1800, 3599, 3600, 3601];
    let (mut least, mut greatest) = range;
    for shift in &SHIFTS {
        let reading = reading_of(start.wrapping_add(*shift))?;
        let expected = summaries(alloc, find(alloc, zone, reading)?)?;
        let looks = expect_counted(rt, &mut [None, None], zone, reading, expected.as_slice())?;
        least = least.min(looks);
        greatest = greatest.max(looks);
    }
    Ok((least, greatest))
}

/// Searches near the front, in the middle and past the end of a table find what `find` finds. Their
/// looks.
fn expect_ends(rt: &impl Abort, alloc: Global, count: u32) -> Result<Range, TzError> {
    let types = hour_apart()?;
    let transitions = transitions_in_turn(alloc, count)?;
    let rule = None;
    let zone = TimeZoneRef::new(transitions.as_slice(), &types, &[], &rule)?;
    let past = i64::from(count) * 1_000_000;
    let mut range = (u64::MAX, 0);
    for start in [-1_000_000, 0, 500_000, past - 1_000_000, past] {
        range = expect_around(rt, alloc, zone, start, range)?;
    }
    Ok(range)
}

/// The last transition is read twice if that is enough. Otherwise one is read at each step of one
/// halving, and at most three after it.
#[test]
fn tables_around_powers_of_two() -> Result<(), Fail> {
    let rt = kit::HostRuntime;

    // Numbers of transitions, and the least and the greatest number of looks.
    static ROWS: [(u32, u64, u64); 15] = [
        (0, 0, 0),
        (1, 2, 3),
        (2, 2, 5),
        (3, 2, 6),
        (4, 2, 6),
        (5, 2, 7),
        (7, 2, 7),
        (8, 2, 7),
        (9, 2, 8),
        (31, 2, 9),
        (32, 2, 9),
        (33, 2, 10),
        (127, 2, 11),
        (128, 2, 11),
        (129, 2, 12),
    ];
    for row in &ROWS {
        let (count, ..) = *row;
        let (least, greatest) = expect_ends(&rt, rt.alloc(), count)?;
        expect_eq(&rt, &(count, least, greatest), row);
    }
    Ok(())
}

/// After the last transition, those of a halving and two at the window's start are read, a walk
/// reads the one before the window once, and so each one from there up to the first after it.
#[test]
fn each_transition_of_a_walk_is_looked_at_once() -> Result<(), Fail> {
    let rt = kit::HostRuntime;

    static JUMP: [Summary; 1] = [(100, 0, 7200)];
    let zone = zone_of(rt.alloc(), &ONE_EFFECT)?;
    let reading = (1970, 1, 1, 1, 8, 20);
    let looks = expect_counted(&rt, &mut [None; 1], zone.as_ref(), reading, &JUMP)?;
    expect_eq(&rt, &looks, &(1 + 1 + 2 + 2));
    let zone = zone_of(rt.alloc(), &CROSSING)?;
    let reading = (1970, 1, 1, 2, 30, 0);
    let looks = expect_counted(&rt, &mut [None; 3], zone.as_ref(), reading, &CROSSED)?;
    expect_eq(&rt, &looks, &(1 + 3 + 2 + 1 + 5));
    Ok(())
}
