// Tests from crates/tz_zone_tests/src/segments.rt by bindings/erase. Change that file instead.
//! Segments of clocks, by rows.

use crate::erased::tz_samples::rules::central_europe;
use crate::erased::tz_zone_tests::clocks::{
    AUTUMN_2024, SPRING_2024, SPRING_2025, leap_seconds_from_the_fifth, three_types,
};
use crate::erased::tz_zone_tests::expect::expect_eq_at;
use crate::kit::process::Abort;
use crate::kit::{self};
use tz::proved::tz_base::error::TzError;
use tz::proved::tz_zone::timezone::{
    LeapSecond, LocalTimeType, TimeZoneRef, Transition, TransitionRule,
};

/// The first and the last instant of a segment, and the offset through it.
type SegmentRow = (i64, i64, Option<i32>);

/// Around an instant, and around each end of its segment, the segment is this.
fn expect_segment(rt: &impl Abort, zone: &TimeZoneRef<'_>, unix_time: i64, wanted: &SegmentRow) {
    for time in [unix_time, wanted.0, wanted.1] {
        let segment = zone.segment_at(time);
        let found = segment.local_time_type().map(LocalTimeType::ut_offset);
        expect_eq_at(rt, &time, &(segment.from(), segment.last(), found), wanted);
    }
}

#[test]
fn segments_go_from_change_to_change() -> Result<(), TzError> {
    let rt = kit::HostRuntime;

    static BY_RULE: [SegmentRow; 4] = [
        (i64::MIN, 999_999, Some(0)),
        (1_000_000, SPRING_2024 - 1, Some(3600)),
        (SPRING_2024, AUTUMN_2024 - 1, Some(7200)),
        (AUTUMN_2024, SPRING_2025 - 1, Some(3600)),
    ];
    static BY_TABLE: [SegmentRow; 2] = [
        (i64::MIN, 78_796_794, None),
        (78_796_795, 89_999_994, Some(7200)),
    ];
    let types = three_types()?;
    let rule = Some(TransitionRule::Alternate(central_europe()?));
    let transitions = [
        Transition::new(1_000_000, 1),
        Transition::new(SPRING_2024, 2),
    ];
    let zone = TimeZoneRef::new(&transitions, &types, &[], &rule)?;
    for row in &BY_RULE {
        let half = row.1.saturating_sub(row.0) / 2;
        expect_segment(&rt, &zone, row.0.saturating_add(half), row);
    }
    let leap_seconds = leap_seconds_from_the_fifth();
    let transitions = [
        Transition::new(1000, 1),
        Transition::new(78_796_799, 2),
        Transition::new(90_000_000, 1),
    ];
    let rule = Some(TransitionRule::Fixed(types[1]));
    let zone = TimeZoneRef::new(&transitions, &types, &leap_seconds, &rule)?;
    for row in &BY_TABLE {
        expect_segment(&rt, &zone, row.0, row);
    }
    Ok(())
}

/// Where leap times may leave 64 bits, a segment still goes on for years.
#[test]
fn segments_far_after_leap_seconds_are_long() -> Result<(), TzError> {
    let rt = kit::HostRuntime;

    static UNIX_TIMES: [i64; 3] = [
        80_000_000_000_000_001,
        1_000_000_000_000_000_000,
        i64::MAX - 1_000_000_000_000,
    ];
    let types = three_types()?;
    let leap_seconds = leap_seconds_from_the_fifth();
    let transitions = [Transition::new(90_000_000, 1)];
    let rule = Some(TransitionRule::Fixed(types[1]));
    let zone = TimeZoneRef::new(&transitions, &types, &leap_seconds, &rule)?;
    for unix_time in &UNIX_TIMES {
        let segment = zone.segment_at(*unix_time);
        let later = unix_time.saturating_add(1_000_000_000);
        expect_eq_at(&rt, unix_time, &segment.from(), &89_999_995);
        expect_eq_at(&rt, unix_time, &segment.contains(later), &true);
        let offset = segment.local_time_type().map(LocalTimeType::ut_offset);
        expect_eq_at(&rt, unix_time, &offset, &Some(3600));
    }
    Ok(())
}

/// From an instant on, this number of segments follow one another up to the greatest instant.
fn expect_walk(rt: &impl Abort, zone: &TimeZoneRef<'_>, unix_time: i64, segments: u8) {
    let mut segment = zone.segment_at(unix_time);
    for _ in 1..segments {
        let from = segment.last().saturating_add(1);
        segment = zone.segment_at(from);
        expect_eq_at(rt, &unix_time, &segment.from(), &from);
    }
    expect_eq_at(rt, &unix_time, &segment.last(), &i64::MAX);
}

/// Segments far from 1970 go as far as instants have a leap time, so that few of them follow one
/// another.
#[test]
fn few_segments_follow_far_from_1970() -> Result<(), TzError> {
    let rt = kit::HostRuntime;

    // The corrections of two leap seconds, and the segments from 1970 on and from the last years of
    // the rule on. The last instants have no leap time where a correction is above 0.
    static ROWS: [(i32, i32, u8, u8); 3] = [(1, 2, 4, 2), (1, 0, 4, 2), (-1, -2, 3, 1)];
    let types = three_types()?;
    let transitions = [
        Transition::new(1_000_000_000, 2),
        Transition::new(90_000_000_000_000_000, 1),
    ];
    let one = [Transition::new(1_000_000_000, 2)];
    let rule = Some(TransitionRule::Alternate(central_europe()?));
    for (first, second, segments, last_segments) in &ROWS {
        let leap_seconds = [
            LeapSecond::new(78_796_800, *first),
            LeapSecond::new(94_694_401, *second),
        ];
        let zone = TimeZoneRef::new(&transitions, &types, &leap_seconds, &None)?;
        expect_walk(&rt, &zone, 0, *segments);
        let zone = TimeZoneRef::new(&one, &types, &leap_seconds, &rule)?;
        expect_walk(&rt, &zone, 67_900_000_000_000_000, *last_segments);
    }
    Ok(())
}
