//! Rows of answers at seams: of rules, of tables of leap seconds, and of numbers.
#![cfg(feature = "alloc")]

mod settings;

use settings::zone_of;
use tz::error::datetime::DateTimeError;
use tz::error::timezone::TimeZoneError;
use tz::timezone::{LeapSecond, Transition, TransitionRule};
use tz::{DateTime, LocalTimeType, TimeZoneRef, TzError, UtcDateTime};

#[test]
fn second_60_has_no_billionth_nanosecond() {
    let last = UtcDateTime::new(2016, 12, 31, 23, 59, 60, 999_999_999).unwrap();
    assert_eq!(last.unix_time(), 1_483_228_800);
    assert!(matches!(
        UtcDateTime::new(2016, 12, 31, 23, 59, 60, 1_000_000_000),
        Err(TzError::DateTime(DateTimeError::InvalidNanoseconds))
    ));
}

/// Clocks of Auckland, at the instants around which its rule changes them in 2000.
#[test]
fn a_rule_whose_summer_is_around_the_new_year() {
    let auckland = zone_of("NZST-12:00:00NZDT-13:00:00,M10.1.0/02:00:00,M3.3.0/02:00:00").unwrap();
    let auckland = auckland.as_ref();
    for (unix_time, ut_offset) in [
        (953_384_399, 46_800),
        (953_384_400, 43_200),
        (970_322_399, 43_200),
        (970_322_400, 46_800),
    ] {
        let shown = auckland.find_local_time_type(unix_time).unwrap();
        assert_eq!((unix_time, shown.ut_offset()), (unix_time, ut_offset));
        assert_eq!(shown.is_dst(), ut_offset == 46_800);
    }
    assert_eq!(
        auckland.following(953_384_399).unwrap().unix_time(),
        953_384_400
    );
    assert_eq!(
        auckland.preceding(970_322_399).unwrap().unix_time(),
        953_384_400
    );
}

#[test]
fn a_nanosecond_before_a_jump() {
    let paris = zone_of("CET-1CEST,M3.5.0,M10.5.0/3").unwrap();
    let before = DateTime::from_total_nanoseconds(954_032_399_999_999_999, paris.as_ref()).unwrap();
    assert_eq!(before.to_string(), "2000-03-26T01:59:59.999999999+01:00");
    let at = DateTime::from_total_nanoseconds(954_032_400_000_000_000, paris.as_ref()).unwrap();
    assert_eq!(at.to_string(), "2000-03-26T03:00:00.000000000+02:00");
    let found = DateTime::find(2000, 3, 26, 1, 59, 59, 999_999_999, paris.as_ref()).unwrap();
    assert_eq!(found.unique(), Some(before));
}

#[test]
fn nanoseconds_of_128_bits_at_their_ends() {
    for total in [i128::MIN, i128::MAX] {
        assert!(matches!(
            DateTime::from_total_nanoseconds(total, TimeZoneRef::utc()),
            Err(TzError::OutOfRange)
        ));
        assert!(matches!(
            UtcDateTime::from_total_nanoseconds(total),
            Err(TzError::OutOfRange)
        ));
    }
}

#[test]
fn leap_seconds_too_close_together() {
    let types = [LocalTimeType::utc()];
    for (apart, is_taken) in [(2_419_198, false), (2_419_199, true)] {
        let leap_seconds = [LeapSecond::new(1000, 1), LeapSecond::new(1000 + apart, 2)];
        let zone = TimeZoneRef::new(&[], &types, &leap_seconds, &None);
        assert_eq!((apart, zone.is_ok()), (apart, is_taken));
        if let Err(fault) = zone {
            assert!(matches!(
                fault,
                TzError::TimeZone(TimeZoneError::InvalidLeapSecond)
            ));
        }
    }
}

/// Of 27 leap seconds the fourteenth is taken out of the clock.
const CORRECTIONS: [i32; 27] = [
    1, 2, 3, 4, 5, 6, 7, 8, 9, 10, 11, 12, 13, 12, 13, 14, 15, 16, 17, 18, 19, 20, 21, 22, 23, 24,
    25,
];

#[test]
fn a_negative_leap_second_among_27() {
    let leap_seconds: Vec<LeapSecond> = (1..)
        .zip(CORRECTIONS)
        .map(|(number, correction)| LeapSecond::new(100_000_000 * number, correction))
        .collect();
    let ahead = LocalTimeType::with_ut_offset(3600).unwrap();
    let types = [LocalTimeType::utc(), ahead];
    let rule = Some(TransitionRule::Fixed(ahead));
    // A day after a leap second clocks are behind its leap time by the correction.
    for leap_second in &leap_seconds {
        let leap_time = leap_second.unix_leap_time() + 86_400;
        let transitions = [Transition::new(leap_time, 1)];
        let zone = TimeZoneRef::new(&transitions, &types, &leap_seconds, &rule).unwrap();
        let unix_time = leap_time - i64::from(leap_second.correction());
        assert_eq!(zone.find_local_time_type(unix_time - 1).unwrap(), &types[0]);
        assert_eq!(zone.find_local_time_type(unix_time).unwrap(), &types[1]);
        let following = zone.following(unix_time - 1).unwrap();
        assert_eq!(following.unix_time(), unix_time);
    }
}
