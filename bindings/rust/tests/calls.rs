//! What calls return, and which of them panic.
#![cfg(feature = "alloc")]

mod settings;

use settings::zone_of;
use std::sync::Mutex;
use std::time::Duration;
use tz::datetime::{Disambiguation, FoundDateTimeKind, FoundDateTimeListRefMut};
use tz::error::timezone::TimeZoneError;
use tz::timezone::{AlternateTime, LeapSecond, Transition, TransitionRule};
use tz::{
    DateTime, Error, LocalTimeType, TimeZone, TimeZoneRef, TimeZoneSettings, TzError, TzString,
    UtcDateTime,
};

/// 2000-03-26T01:00:00Z and 2000-10-29T01:00:00Z, at which clocks of central Europe are set.
const FORWARD: i64 = 954_032_400;
const BACK: i64 = 972_781_200;

fn central_europe() -> TimeZone {
    zone_of("CET-1CEST,M3.5.0,M10.5.0/3").unwrap()
}

#[test]
fn instants_and_local_times_convert() {
    let zone = central_europe();
    let zone = zone.as_ref();
    for (unix_time, hour, name) in [
        (FORWARD - 1, 1, "CET"),
        (FORWARD, 3, "CEST"),
        (BACK - 1, 2, "CEST"),
        (BACK, 2, "CET"),
    ] {
        let date_time = DateTime::from_timespec(unix_time, 7, zone).unwrap();
        assert_eq!((date_time.hour(), date_time.nanoseconds()), (hour, 7));
        assert_eq!(date_time.local_time_type().time_zone_designation(), name);
        let total = i128::from(unix_time) * 1_000_000_000 + 7;
        assert_eq!(date_time.total_nanoseconds(), total);
        assert_eq!(
            DateTime::from_total_nanoseconds(total, zone).unwrap(),
            date_time
        );
        let utc = UtcDateTime::try_from(date_time).unwrap();
        assert_eq!(utc.project(zone).unwrap(), date_time);
        assert_eq!(date_time.project(TimeZoneRef::utc()).unwrap(), date_time);
        assert_eq!(
            zone.find_local_time_type(unix_time).unwrap(),
            date_time.local_time_type()
        );
    }
    let leap_day = UtcDateTime::new(2000, 2, 29, 23, 59, 60, 0).unwrap();
    assert_eq!((leap_day.week_day(), leap_day.year_day()), (2, 59));
    let first = UtcDateTime::new(2000, 3, 1, 0, 0, 0, 0).unwrap();
    assert!(leap_day < first && leap_day.unix_time() == first.unix_time());
}

#[test]
fn gaps_and_folds_are_found() {
    let zone = central_europe();
    let zone = zone.as_ref();
    let gap = DateTime::find(2000, 3, 26, 2, 30, 0, 0, zone).unwrap();
    assert_eq!(gap.unique(), None);
    assert_eq!(gap.earliest().unwrap().hour(), 2);
    assert_eq!(gap.latest().unwrap().hour(), 3);
    assert!(matches!(
        gap.into_inner()[..],
        [FoundDateTimeKind::Skipped { .. }]
    ));

    let mut slots = [None; 3];
    let fold = DateTime::find_n(&mut slots, 2000, 10, 29, 2, 30, 0, 0, zone).unwrap();
    assert_eq!(
        (fold.count(), fold.data().len(), fold.is_exhaustive()),
        (2, 2, true)
    );
    assert_eq!(fold.earliest().unwrap().unix_time(), BACK - 1800);
    assert_eq!(fold.latest().unwrap().unix_time(), BACK + 1800);
    let mut slots = [None; 1];
    let fold = DateTime::find_n(&mut slots, 2000, 10, 29, 2, 30, 0, 0, zone).unwrap();
    assert_eq!(
        (fold.count(), fold.data().len(), fold.is_exhaustive()),
        (2, 1, false)
    );
    assert_eq!(fold.unique(), None);
    let fold = DateTime::find_n(&mut [], 2000, 10, 29, 2, 30, 0, 0, zone).unwrap();
    assert_eq!((fold.count(), fold.data().len()), (2, 0));
}

#[test]
fn reads_are_counted_within_their_bounds() {
    let types = [0, 3600].map(|offset| LocalTimeType::with_ut_offset(offset).unwrap());
    for count in [0, 1, 8, 9, 127, 128, 1024, 1025] {
        // Two a year, so that a call without a count guesses.
        let transitions: Vec<_> = (0..count)
            .map(|at| Transition::new(at as i64 * 15_778_476, 1 - at % 2))
            .collect();
        let zone = TimeZoneRef::new(&transitions, &types, &[], &None).unwrap();
        let digits = u64::from(usize::BITS - count.leading_zeros());
        for instant in transitions.iter().map(Transition::unix_leap_time) {
            let (found, looks) = zone.find_local_time_type_counted(instant);
            assert_eq!(found.ok(), zone.find_local_time_type(instant).ok());
            assert!(1 <= looks && looks <= digits + 2, "{count}: {looks}");
        }
        let (mut slots, mut same) = ([None; 2], [None; 2]);
        let (found, looks) =
            DateTime::find_n_counted(&mut slots, 1985, 7, 2, 12, 30, 0, 0, zone).unwrap();
        let uncounted = DateTime::find_n(&mut same, 1985, 7, 2, 12, 30, 0, 0, zone).unwrap();
        assert_eq!(found.data(), uncounted.data());
        // No transition is in the window of this local time.
        assert!(u64::from(count > 0) <= looks && looks <= 2 * digits + 4);
        assert_eq!(looks == 0, count == 0);
    }
}

#[test]
fn a_choice_makes_one_date_time() {
    use Disambiguation::{Compatible, Earlier, Later, Reject};
    let zone = central_europe();
    let zone = zone.as_ref();
    let gap = UtcDateTime::new(2000, 3, 26, 2, 30, 0, 0).unwrap();
    let fold = UtcDateTime::new(2000, 10, 29, 2, 30, 0, 0).unwrap();
    for (local, choice, expected) in [
        (gap, Compatible, Some(FORWARD + 1800)),
        (gap, Earlier, Some(FORWARD - 1800)),
        (gap, Later, Some(FORWARD + 1800)),
        (gap, Reject, None),
        (fold, Compatible, Some(BACK - 1800)),
        (fold, Earlier, Some(BACK - 1800)),
        (fold, Later, Some(BACK + 1800)),
        (fold, Reject, None),
    ] {
        let chosen = DateTime::from_local(local, choice, zone).unwrap();
        assert_eq!(
            chosen.map(|date_time| date_time.unix_time()),
            expected,
            "{local} {choice:?}"
        );
        let (year, month, day) = (local.year(), local.month(), local.month_day());
        let again = DateTime::find_one(year, month, day, 2, 30, 0, 0, choice, zone).unwrap();
        assert_eq!(again, chosen);
    }
    let refused = DateTime::find_one(2000, 1, 32, 0, 0, 0, 0, Compatible, zone);
    assert!(matches!(refused, Err(TzError::DateTime(_))));
}

#[test]
fn changes_follow_one_another() {
    let zone = central_europe();
    let after: Vec<i64> = zone
        .changes_after(FORWARD - 1)
        .take(3)
        .map(|change| change.unix_time())
        .collect();
    assert_eq!(after, [FORWARD, BACK, 985_482_000]);
    let before: Vec<i64> = zone
        .changes_before(985_482_000)
        .take(2)
        .map(|change| change.unix_time())
        .collect();
    assert_eq!(before, [BACK, FORWARD]);
    let change = zone.following(FORWARD).unwrap();
    assert_eq!(change.before().time_zone_designation(), "CEST");
    assert_eq!(change.after().time_zone_designation(), "CET");
    assert_eq!(zone.preceding(BACK + 1), Some(change));
    let segment = zone.segment_at(FORWARD);
    assert!(segment.contains(FORWARD) && segment.from() <= FORWARD && FORWARD <= segment.last());
    assert_eq!(segment.local_time_type(), Some(change.before()));
    let utc = TimeZone::utc();
    assert_eq!((utc.following(0), utc.preceding(0)), (None, None));
    assert_eq!(utc.as_ref().changes_after(i64::MIN).count(), 0);
}

/// Clocks that go back by an hour every half an hour show a local time again and again.
#[test]
fn lists_may_be_long() {
    let types: Vec<_> = (0..40)
        .map(|hour| LocalTimeType::with_ut_offset(-3600 * hour).unwrap())
        .collect();
    let transitions: Vec<_> = (1..40)
        .map(|number| Transition::new(i64::try_from(number).unwrap() * 1800, number))
        .collect();
    let rule = Some(TransitionRule::Fixed(types[39]));
    let zone = TimeZone::new(transitions, types, Vec::new(), rule).unwrap();
    let (year, month, day) = (1969, 12, 31);
    let found = DateTime::find(year, month, day, 14, 10, 0, 0, zone.as_ref())
        .unwrap()
        .into_inner();
    assert!(found.len() > 1, "{}", found.len());
    let instants: Vec<_> = found
        .iter()
        .map(|entry| match entry {
            FoundDateTimeKind::Normal(date_time) => date_time.unix_time(),
            FoundDateTimeKind::Skipped { .. } => panic!("no clock is set forward"),
        })
        .collect();
    assert!(instants.is_sorted_by(|a, b| a < b));
    for length in [0, 1, 2, 3, 4, 5, found.len(), 41] {
        let mut slots = vec![None; length];
        let list =
            DateTime::find_n(&mut slots, year, month, day, 14, 10, 0, 0, zone.as_ref()).unwrap();
        assert_eq!(list.count(), found.len());
        assert_eq!(list.is_exhaustive(), found.len() <= length);
        let written: Vec<_> = list.data().iter().flatten().copied().collect();
        assert_eq!(written, found[..length.min(found.len())]);
    }
}

#[test]
fn lists_of_the_caller_begin_empty() {
    let mut slots = [None; 2];
    let list = FoundDateTimeListRefMut::new(&mut slots);
    assert_eq!(
        (list.unique(), list.earliest(), list.latest()),
        (None, None, None)
    );
    assert_eq!(
        (list.count(), list.data().len(), list.is_exhaustive()),
        (0, 0, true)
    );
    assert_eq!(
        tz::datetime::FoundDateTimeList::default()
            .into_inner()
            .len(),
        0
    );
}

#[test]
fn parts_are_checked() {
    let types = [LocalTimeType::utc()];
    let fault = |transitions: &[Transition], leap_seconds: &[LeapSecond]| match TimeZoneRef::new(
        transitions,
        &types,
        leap_seconds,
        &None,
    ) {
        Err(TzError::TimeZone(error)) => error,
        other => panic!("{other:?}"),
    };
    assert!(matches!(
        fault(&[Transition::new(0, 1)], &[]),
        TimeZoneError::InvalidLocalTimeTypeIndex
    ));
    assert!(matches!(
        fault(&[Transition::new(0, 0), Transition::new(0, 0)], &[]),
        TimeZoneError::InvalidTransition
    ));
    assert!(matches!(
        fault(&[], &[LeapSecond::new(-1, 1)]),
        TimeZoneError::InvalidLeapSecond
    ));
    assert!(matches!(
        TimeZoneRef::new(&[], &[], &[], &None),
        Err(TzError::TimeZone(TimeZoneError::NoLocalTimeType))
    ));
    let other = Some(TransitionRule::Fixed(
        LocalTimeType::with_ut_offset(1).unwrap(),
    ));
    let refused = TimeZone::new(
        vec![Transition::new(0, 0)],
        types.to_vec(),
        Vec::new(),
        other,
    );
    assert!(matches!(
        refused,
        Err(TzError::TimeZone(TimeZoneError::InconsistentExtraRule))
    ));
    assert!(matches!(
        TimeZone::fixed(i32::MIN),
        Err(tz::error::timezone::LocalTimeTypeError::InvalidUtcOffset)
    ));
    assert_eq!(
        TimeZone::fixed(-3600)
            .unwrap()
            .find_local_time_type(0)
            .unwrap()
            .ut_offset(),
        -3600
    );
}

#[test]
fn rules_are_written_and_conflicts_shown() {
    let zone = central_europe();
    let rule = zone.as_ref().extra_rule().unwrap();
    let text = TzString::from_rule(&rule).unwrap();
    assert_eq!(text.to_string(), "CET-1CEST,M3.5.0,M10.5.0/3");
    assert_eq!(
        format!("{text:?}"),
        "TzString(\"CET-1CEST,M3.5.0,M10.5.0/3\")"
    );
    assert_eq!(
        TzString::from_rule(&TransitionRule::Fixed(LocalTimeType::utc())),
        None
    );
    let TransitionRule::Alternate(rule) = rule else {
        panic!("no alternate rule")
    };
    let (std, dst, start, end) = (*rule.std(), *rule.dst(), *rule.dst_start(), *rule.dst_end());
    assert_eq!(
        AlternateTime::new(std, dst, start, 7200, end, 10_800).unwrap(),
        rule
    );
    assert_eq!(
        AlternateTime::conflict(std, dst, start, 7200, end, 10_800),
        None
    );
    // The last Sunday of March and the day of the year that may come before or after it.
    let day =
        tz::timezone::RuleDay::Julian0WithLeap(tz::timezone::Julian0WithLeap::new(86).unwrap());
    let refused = AlternateTime::new(std, dst, start, 0, day, 0);
    assert!(matches!(
        refused,
        Err(tz::error::timezone::TransitionRuleError::InconsistentRule)
    ));
    let (_, _, distance) = AlternateTime::conflict(std, dst, start, 0, day, 0).unwrap();
    assert_eq!(distance, 0);
}

/// The paths that were asked for, in order.
static PATHS: Mutex<Vec<String>> = Mutex::new(Vec::new());

#[test]
fn settings_ask_for_files_in_order() {
    let settings = TimeZoneSettings::new(&["/one", "/two"], |path| {
        PATHS.lock().unwrap().push(path.to_string());
        Err("not here".into())
    });
    let asked = |setting: &str| {
        PATHS.lock().unwrap().clear();
        let zone = settings.parse_posix_tz(setting);
        (
            zone.map(drop).map_err(|error| error.to_string()),
            PATHS.lock().unwrap().clone(),
        )
    };
    let not_here = || Err("not here".to_string());
    let not_found = || Err("file was not found".to_string());
    assert_eq!(
        asked("localtime"),
        (not_here(), vec!["/etc/localtime".to_string()])
    );
    assert_eq!(
        asked(":A/b"),
        (
            not_found(),
            vec!["/one/A/b".to_string(), "/two/A/b".to_string()]
        )
    );
    assert_eq!(asked(":/c"), (not_here(), vec!["/c".to_string()]));
    assert_eq!(
        asked("/UTC0"),
        (
            Err("invalid TZ string: cannot parse integer from empty string".to_string()),
            vec!["/UTC0".to_string()]
        )
            .clone()
    );
    assert_eq!(
        asked(" UTC0\n"),
        (
            Ok(()),
            vec!["/one/ UTC0\n".to_string(), "/two/ UTC0\n".to_string()]
        )
    );
    assert_eq!(asked("").1, Vec::<String>::new());
    assert!(matches!(settings.parse_local(), Err(Error::Io(_))));
}

#[test]
fn durations_are_added() {
    let new_year = UtcDateTime::new(2000, 1, 1, 0, 0, 0, 0).unwrap();
    let mut other = new_year + Duration::new(86_400, 5);
    assert_eq!(other.to_string(), "2000-01-02T00:00:00.000000005Z");
    assert_eq!(other.duration_since(new_year), Ok(Duration::new(86_400, 5)));
    assert_eq!(
        new_year.duration_since(other),
        Err(Duration::new(86_400, 5))
    );
    other -= Duration::new(86_400, 5);
    assert_eq!(other, new_year);
    other += Duration::from_nanos(1);
    assert_eq!((other - Duration::from_nanos(1)), new_year);
    assert_eq!(UtcDateTime::MAX.checked_add(Duration::from_nanos(1)), None);
    assert_eq!(UtcDateTime::MIN.checked_sub(Duration::from_nanos(1)), None);
    assert_eq!(UtcDateTime::MIN.checked_add(Duration::MAX), None);
    assert_eq!(
        UtcDateTime::MAX.duration_since(UtcDateTime::MIN),
        Ok(Duration::new(135_536_076_801_503_999, 999_999_999))
    );
}

#[test]
#[should_panic(expected = "attempt to add with overflow")]
fn a_sum_out_of_range_panics() {
    let _ = UtcDateTime::MAX + Duration::from_nanos(1);
}

#[test]
#[should_panic(expected = "attempt to subtract with overflow")]
fn a_difference_out_of_range_panics() {
    let _ = UtcDateTime::MIN - Duration::from_nanos(1);
}

#[test]
fn any_bytes_are_safe() {
    for length in 0..60 {
        let mut bytes = b"TZif2".to_vec();
        bytes.resize(length, 0xff);
        assert!(TimeZone::from_tz_data(&bytes).is_err());
    }
}
