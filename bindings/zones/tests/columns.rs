//! Columns of readings in zones with tables, beside single calls.

use tz::datetime::Disambiguation;
use tz::{DateTime, TimeZoneRef, UtcDateTime};
use tz_zones::named;

/// The instants of a column are those of its local times, one by one.
fn compare(zone: TimeZoneRef<'_>, readings: &[i64]) {
    for disambiguation in [
        Disambiguation::Compatible,
        Disambiguation::Earlier,
        Disambiguation::Later,
        Disambiguation::Reject,
    ] {
        let mut meant = vec![Some(77); readings.len()];
        let answer = zone.instants_of_readings(readings, disambiguation, &mut meant);
        answer.unwrap();
        for (reading, instant) in readings.iter().zip(meant) {
            let local = UtcDateTime::from_timespec(*reading, 0).unwrap();
            let single = DateTime::from_local(local, disambiguation, zone).unwrap();
            let single = single.map(|date_time| date_time.unix_time());
            assert_eq!(instant, single, "{reading} by {disambiguation:?}");
        }
    }
}

#[test]
fn readings_beside_all_changes_are_single_calls() {
    for name in [
        "Europe/Paris",
        "America/New_York",
        "Africa/Casablanca",
        "Asia/Manila",
    ] {
        let zone = named(name).unwrap();
        let mut readings = Vec::new();
        for change in zone.changes_after(i64::MIN).take(300) {
            for local_time_type in [change.before(), change.after()] {
                let reading = change.unix_time() + i64::from(local_time_type.ut_offset());
                let beside = [-100_000, -3600, -1, 0, 1, 1800, 3600, 7200, 100_000];
                readings.extend(beside.map(|far| reading + far));
            }
        }
        readings.sort_unstable();
        compare(zone, &readings);
        readings.reverse();
        compare(zone, &readings);
        let length = readings.len();
        let other: Vec<_> = (0..length)
            .map(|place| readings[(place * 1009) % length])
            .collect();
        compare(zone, &other);
    }
}

#[test]
fn readings_at_equal_steps_are_single_calls() {
    for name in ["Europe/Paris", "America/New_York"] {
        let zone = named(name).unwrap();
        for step in [1, 60, 3599, 86_400, 2_600_000] {
            let readings: Vec<_> = (0..3000).map(|place| 950_000_000 + step * place).collect();
            compare(zone, &readings);
        }
    }
}
