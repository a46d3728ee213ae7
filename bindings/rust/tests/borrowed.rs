//! What needs no memory, with each set of features: a zone in a constant, its lookups, changes, columns and searches, and texts.

use tz::datetime::{Disambiguation, FoundDateTimeKind, Meaning};
use tz::error::ColumnError;
use tz::timezone::{
    AlternateTime, LeapSecond, MonthWeekDay, RuleDay, Transition, TransitionRule, is_zone_name,
};
use tz::{DateTime, LocalTimeType, ParsedDateTime, TimeZoneRef, TzError, TzString, UtcDateTime};

/// A result's value, in a constant.
macro_rules! made {
    ($result:expr) => {
        match $result {
            Ok(value) => value,
            Err(_) => panic!("refused"),
        }
    };
}

const TYPES: &[LocalTimeType] = &[
    made!(LocalTimeType::new(561, false, Some(b"LMT"))),
    made!(LocalTimeType::new(3_600, false, Some(b"CET"))),
    made!(LocalTimeType::new(7_200, true, Some(b"CEST"))),
];
const LEAPS: &[LeapSecond] = &[
    LeapSecond::new(78_796_800, 1),
    LeapSecond::new(94_694_401, 2),
];
const RULE: Option<TransitionRule> = Some(TransitionRule::Alternate(made!(AlternateTime::new(
    TYPES[1],
    TYPES[2],
    RuleDay::MonthWeekDay(made!(MonthWeekDay::new(3, 5, 0))),
    7_200,
    RuleDay::MonthWeekDay(made!(MonthWeekDay::new(10, 5, 0))),
    10_800,
))));
/// 2000-03-26T01:00:00Z and 2000-10-29T01:00:00Z, at which clocks are set by the table and by the rule.
const FORWARD: i64 = 954_032_400;
const BACK: i64 = 972_781_200;
/// Two leap seconds after 1972 and before 2000.
const ZONE: TimeZoneRef<'static> = made!(TimeZoneRef::new(
    &[
        Transition::new(-2_000_000_000, 1),
        Transition::new(FORWARD + 2, 2)
    ],
    TYPES,
    LEAPS,
    &RULE,
));

#[test]
fn a_clock_is_looked_up() {
    for (unix_time, ut_offset, name) in [
        (-2_000_000_001, 561, "LMT"),
        (-2_000_000_000, 3_600, "CET"),
        (FORWARD - 1, 3_600, "CET"),
        (FORWARD, 7_200, "CEST"),
        (BACK - 1, 7_200, "CEST"),
        (BACK, 3_600, "CET"),
    ] {
        let found = ZONE.find_local_time_type(unix_time).unwrap();
        assert_eq!(found.ut_offset(), ut_offset);
        assert_eq!(found.time_zone_designation(), name);
        let date_time = DateTime::from_timespec(unix_time, 7, ZONE).unwrap();
        assert_eq!(date_time.local_time_type(), found);
        let local = UtcDateTime::from_timespec(unix_time + i64::from(ut_offset), 7).unwrap();
        assert_eq!(
            (date_time.year(), date_time.month(), date_time.month_day()),
            (local.year(), local.month(), local.month_day())
        );
        assert_eq!(
            (date_time.hour(), date_time.minute(), date_time.second()),
            (local.hour(), local.minute(), local.second())
        );
        assert_eq!(date_time.project(TimeZoneRef::utc()).unwrap(), date_time);
    }
    let far = DateTime::from_timespec(i64::MAX, 0, ZONE);
    assert!(matches!(far, Err(TzError::OutOfRange)));
}

#[test]
fn changes_follow_one_another() {
    let after = ZONE
        .changes_after(i64::MIN)
        .map(|change| change.unix_time());
    assert!(after.take(3).eq([-2_000_000_000, FORWARD, BACK]));
    let before = ZONE
        .changes_before(BACK + 1)
        .map(|change| change.unix_time());
    assert!(before.eq([BACK, FORWARD, -2_000_000_000]));
    let change = ZONE.following(FORWARD).unwrap();
    assert_eq!((change.before(), change.after()), (&TYPES[2], &TYPES[1]));
    assert_eq!(ZONE.preceding(BACK + 1), Some(change));
    let segment = ZONE.segment_at(FORWARD);
    assert!(segment.contains(FORWARD) && !segment.contains(FORWARD - 1));
    assert!(segment.contains(BACK - 1) && !segment.contains(BACK));
}

#[test]
fn local_times_are_searched() {
    for (month, day, hour, count) in [(3, 26, 2, 1), (10, 29, 2, 2), (7, 1, 12, 1), (3, 26, 3, 1)] {
        let mut slots = [None; 3];
        let found = DateTime::find_n(&mut slots, 2000, month, day, hour, 30, 59, 9, ZONE).unwrap();
        assert_eq!((found.count(), found.is_exhaustive()), (count, true));
        let (unique, earliest, latest) = (found.unique(), found.earliest(), found.latest());
        let local = UtcDateTime::new(2000, month, day, hour, 30, 59, 9).unwrap();
        let one = |choice| DateTime::from_local(local, choice, ZONE).unwrap();
        match DateTime::meaning_local(local, ZONE).unwrap() {
            Meaning::Once(date_time) => {
                assert_eq!(unique, Some(date_time));
                assert_eq!(one(Disambiguation::Reject), unique);
            }
            Meaning::Twice { first, last } => {
                assert_eq!((unique, earliest, latest), (None, Some(first), Some(last)));
                assert_eq!(last.unix_time() - first.unix_time(), 3_600);
                assert_eq!(one(Disambiguation::Compatible), Some(first));
                assert_eq!(one(Disambiguation::Later), Some(last));
                assert_eq!(one(Disambiguation::Reject), None);
            }
            Meaning::Skipped {
                before_transition,
                after_transition,
            } => {
                let entry = FoundDateTimeKind::Skipped {
                    before_transition,
                    after_transition,
                };
                assert_eq!(slots[0], Some(entry));
                assert_eq!(after_transition.unix_time(), FORWARD);
                let later = one(Disambiguation::Compatible).unwrap();
                assert_eq!((later.hour(), later.unix_time()), (3, FORWARD + 1_859));
            }
            other => panic!("{other:?}"),
        }
    }
    let mut slots = [None; 1];
    let refused = DateTime::find_n(&mut slots, 2000, 2, 30, 0, 0, 0, 0, ZONE);
    assert!(matches!(refused, Err(TzError::DateTime(_))));
}

#[test]
fn columns_are_answered() {
    let unix_times = [FORWARD - 1, FORWARD, i64::MAX, BACK];
    let mut offsets = [0; 4];
    let fault = ZONE.offsets_at(&unix_times, &mut offsets).unwrap_err();
    assert!(matches!(fault, ColumnError::At { place: 2, .. }));
    assert_eq!(offsets, [3_600, 7_200, 0, 3_600]);
    assert_eq!(fault.to_string(), "at place 2: out of range operation");
    let epoch = DateTime::from_timespec(0, 0, ZONE).unwrap();
    let mut date_times = [epoch; 2];
    let made = ZONE.date_times_at(&unix_times[..2], &[5, 6], &mut date_times);
    assert!(made.is_ok());
    assert_eq!(
        date_times.map(|it| (it.hour(), it.nanoseconds())),
        [(1, 5), (3, 6)]
    );
    let local =
        date_times.map(|it| UtcDateTime::new(it.year(), 3, 26, it.hour(), 0, 0, 0).unwrap());
    let mut meant = [None; 2];
    ZONE.instants_of(&local, Disambiguation::Reject, &mut meant)
        .unwrap();
    assert_eq!(meant, [Some(FORWARD - 3_600), Some(FORWARD)]);
}

#[test]
fn texts_are_printed_and_read() {
    let shown = DateTime::from_timespec(FORWARD, 5, ZONE).unwrap();
    let text = "2000-03-26T03:00:00.000000005+02:00";
    assert_eq!(shown.to_string(), text);
    let parsed = ParsedDateTime::parse(text.as_bytes()).unwrap();
    assert_eq!(parsed.unix_time(), Some(FORWARD));
    let fault = ParsedDateTime::parse(b"2000-03-26T25").unwrap_err();
    assert!(!fault.to_string().is_empty());
    let rule = TzString::from_rule(&RULE.unwrap()).unwrap();
    assert_eq!(rule.as_str(), "CET-1CEST,M3.5.0,M10.5.0/3");
    assert!(is_zone_name("Europe/Paris") && !is_zone_name("../Paris"));
    assert_eq!(
        TzError::NoAvailableLocalTimeType.to_string(),
        "no local time type is available for the specified timestamp"
    );
}
