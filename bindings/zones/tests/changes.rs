//! The calls that tz-rs does not have, beside the machine's files: changes and segments.

mod database;

use tz::{Change, LocalTimeType, TimeZoneRef, UtcDateTime};

/// The instants between which changes are compared.
fn ends() -> (i64, i64) {
    let [start, end] = [1850, 2101].map(|year| UtcDateTime::new(year, 1, 1, 0, 0, 0, 0).unwrap());
    (start.unix_time(), end.unix_time())
}

/// The parts of a change.
fn parts(change: Change<'_>) -> (i64, LocalTimeType, LocalTimeType) {
    (change.unix_time(), *change.before(), *change.after())
}

/// All changes of a zone, in order.
fn changes(zone: TimeZoneRef<'_>) -> Vec<(i64, LocalTimeType, LocalTimeType)> {
    let (start, end) = ends();
    let changes = zone.changes_after(start).map(parts);
    changes.take_while(|change| change.0 < end).collect()
}

#[test]
fn changes_are_those_of_the_files() {
    let (start, end) = ends();
    for (name, zone, file) in database::zones() {
        let all = changes(zone);
        assert_eq!(all, changes(file.as_ref()), "{name}");
        let before = zone.changes_before(end).map(parts);
        let mut before: Vec<_> = before.take_while(|change| change.0 > start).collect();
        before.reverse();
        assert_eq!(all, before, "{name}");
    }
}

#[test]
fn single_changes_are_those_of_the_files() {
    for (name, zone, file) in database::zones() {
        let file = file.as_ref();
        for (time, ..) in changes(file) {
            for time in [time - 1, time, time + 1] {
                let following = (
                    zone.following(time).map(parts),
                    file.following(time).map(parts),
                );
                assert_eq!(following.0, following.1, "{name} after {time}");
                let preceding = (
                    zone.preceding(time).map(parts),
                    file.preceding(time).map(parts),
                );
                assert_eq!(preceding.0, preceding.1, "{name} before {time}");
            }
        }
    }
}

/// A segment may end where a file has a transition that changes nothing, and a constant has none,
/// so the segments themselves are not compared.
#[test]
fn segments_keep_the_types_of_the_files() {
    for (name, zone, file) in database::zones() {
        let changes = changes(file.as_ref());
        for (time, before, after) in &changes {
            for (time, expected) in [(time - 1, before), (*time, after)] {
                let segment = zone.segment_at(time);
                assert!(segment.contains(time), "{name} at {time}");
                assert_eq!(
                    segment.local_time_type(),
                    Some(expected),
                    "{name} at {time}"
                );
                let within = |change: i64| segment.from() < change && change <= segment.last();
                assert!(
                    !changes.iter().any(|change| within(change.0)),
                    "{name} at {time}"
                );
            }
        }
    }
}
