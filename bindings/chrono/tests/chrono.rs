//! Answers of chrono over zones of the database and over others, beside those of tz.

use chrono::{Duration, LocalResult, NaiveDateTime, Offset, TimeZone, Utc};
use tz::datetime::FoundDateTimeKind;
use tz::timezone::{LeapSecond, Transition, TransitionRule};
use tz::{DateTime, LocalTimeType, TimeZoneRef};
use tz_chrono::Zone;
use tz_zones::{NAMES, named};

/// A local time as chrono has it, some seconds after 1970 of the same clock.
fn local(reading: i64) -> NaiveDateTime {
    let epoch = Utc.timestamp_opt(0, 0).unwrap().naive_utc();
    epoch + Duration::seconds(reading)
}

/// The offsets of a local time, by all entries that tz finds.
fn offsets_of(reading: i64, zone: TimeZoneRef<'_>) -> Vec<i32> {
    let fields = tz::UtcDateTime::from_timespec(reading, 0).unwrap();
    let found = DateTime::find_local(fields, zone).unwrap();
    let shown = found.into_iter().filter_map(|entry| match entry {
        FoundDateTimeKind::Normal(date_time) => Some(date_time.local_time_type().ut_offset()),
        FoundDateTimeKind::Skipped { .. } => None,
    });
    shown.collect()
}

fn expect_zone(zone: TimeZoneRef<'_>) -> usize {
    let chrono = Zone::new(zone).unwrap();
    let mut count = 0;
    let changes = zone
        .changes_after(-2_300_000_000)
        .map(|change| change.unix_time());
    for around in changes.take_while(|&at| at < 4_200_000_000) {
        for unix_time in [around - 1, around, around + 1] {
            let shown = chrono.timestamp_opt(unix_time, 0).unwrap();
            let wanted = zone.find_local_time_type(unix_time).unwrap();
            assert_eq!(shown.offset().fix().local_minus_utc(), wanted.ut_offset());
            assert_eq!(shown.offset().local_time_type(), wanted);
            for apart in [-7200, -3600, -1800, 0, 1800, 3600, 7200] {
                let reading = unix_time + i64::from(wanted.ut_offset()) + apart;
                let offsets = offsets_of(reading, zone);
                let found = chrono.offset_from_local_datetime(&local(reading));
                match found.map(|offset| offset.local_time_type().ut_offset()) {
                    LocalResult::None => assert!(offsets.is_empty()),
                    LocalResult::Single(offset) => assert_eq!(offsets, [offset]),
                    LocalResult::Ambiguous(first, last) => {
                        assert!(offsets.len() > 1);
                        assert_eq!((offsets[0], offsets[offsets.len() - 1]), (first, last));
                    }
                }
                count += 1;
            }
        }
    }
    count
}

#[test]
fn all_zones_of_the_database() {
    let counts = NAMES.iter().map(|name| expect_zone(named(name).unwrap()));
    assert!(counts.sum::<usize>() > 1_000_000);
}

#[test]
fn a_local_time_with_more_than_two_entries() {
    let types = [0, 3600, 7200].map(|offset| LocalTimeType::new(offset, false, None).unwrap());
    // Clocks are set back twice within an hour.
    let transitions = [
        Transition::new(0, 2),
        Transition::new(10_000, 1),
        Transition::new(12_000, 0),
    ];
    let rule = Some(TransitionRule::Fixed(types[0]));
    let zone = TimeZoneRef::new(&transitions, &types, &[], &rule).unwrap();
    assert_eq!(offsets_of(15_000, zone), [7200, 3600, 0]);
    let found = Zone::new(zone)
        .unwrap()
        .offset_from_local_datetime(&local(15_000));
    assert_eq!(found.earliest().unwrap().fix().local_minus_utc(), 7200);
    assert_eq!(found.latest().unwrap().to_string(), "+00:00");
    assert!(expect_zone(zone) > 0);
}

#[test]
fn leap_seconds_and_what_is_refused() {
    let day = LocalTimeType::with_ut_offset(86_400).unwrap();
    let almost = [LocalTimeType::with_ut_offset(86_399).unwrap()];
    let zone = TimeZoneRef::new(&[], &almost, &[], &None).unwrap();
    assert!(Zone::new(zone).is_some());
    assert_eq!(
        Zone::new(TimeZoneRef::new(&[], &[day], &[], &None).unwrap()),
        None
    );
    let rule = Some(TransitionRule::Fixed(day));
    assert_eq!(
        Zone::new(TimeZoneRef::new(&[], &almost, &[], &rule).unwrap()),
        None
    );
    let transitions = [Transition::new(0, 0)];
    assert_eq!(
        Zone::new(TimeZoneRef::new(&transitions, &almost, &[], &None).unwrap()),
        None
    );

    let leap_seconds = [LeapSecond::new(78_796_800, 1)];
    let zone = TimeZoneRef::new(&[], &almost, &leap_seconds, &None).unwrap();
    assert_eq!(Zone::new(zone).unwrap().zone(), zone);
}

#[test]
fn debug_is_short() {
    let paris = Zone::new(tz_zones::europe::PARIS).unwrap();
    let shown = paris.timestamp_opt(1_751_328_000, 0).unwrap();
    assert_eq!(format!("{shown:?}"), "2025-07-01T02:00:00+02:00 CEST");
    assert_eq!(format!("{:?}", shown.offset()), "+02:00 CEST");
    let nameless = LocalTimeType::new(-12_345, false, None).unwrap();
    let rule = Some(TransitionRule::Fixed(nameless));
    let types = [nameless];
    let zone = TimeZoneRef::new(&[], &types, &[], &rule).unwrap();
    let shown = Zone::new(zone).unwrap().timestamp_opt(0, 0).unwrap();
    assert_eq!(format!("{shown:?}"), "1969-12-31T20:34:15-03:25:45");
}
