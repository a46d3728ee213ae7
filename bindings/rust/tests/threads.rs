//! One zone shared by eight threads, which look up a million instants each, or `TZ_LOOKUPS` of them.
#![cfg(feature = "std")]

use std::{env, thread};
use tz::timezone::{Transition, TransitionRule};
use tz::{DateTime, LocalTimeType, TimeZone};

const THREADS: i64 = 8;

/// How many each thread looks up. An emulator takes long for a million.
fn lookups() -> i64 {
    env::var("TZ_LOOKUPS").map_or(1_000_000, |text| text.parse().unwrap())
}

/// Standard time and daylight saving time in turn, each for half a year of 365 days from 1900 on, and then a rule.
fn zone() -> TimeZone {
    let rule = TimeZone::from_posix_tz("CET-1CEST,M3.5.0,M10.5.0/3").unwrap();
    let rule = *rule.as_ref().extra_rule();
    let Some(TransitionRule::Alternate(alternate)) = rule else {
        panic!("no alternate rule")
    };
    let first = -2_208_988_800;
    let transitions = (0..240).map(|number| {
        let index = usize::try_from(number % 2).unwrap();
        Transition::new(first + number * 15_768_000, index)
    });
    let mut transitions: Vec<_> = transitions.collect();
    // 2020-01-01T00:00:00Z, from which on the rule follows.
    transitions.push(Transition::new(1_577_836_800, 0));
    let types = vec![*alternate.std(), *alternate.dst()];
    TimeZone::new(transitions, types, Vec::new(), rule).unwrap()
}

/// The sum of the offsets, and of every thousandth local time's hours, at a thread's instants from 1890 to 2090.
fn sum(zone: &TimeZone, thread: i64) -> i64 {
    let (mut sum, lookups) = (0, lookups());
    let step = 6_312_000_000 / (lookups * THREADS);
    for number in 0..lookups {
        let unix_time = -2_524_608_000 + (number * THREADS + thread) * step;
        let local_time_type: &LocalTimeType = zone.find_local_time_type(unix_time).unwrap();
        sum += i64::from(local_time_type.ut_offset());
        if number % 1000 == 0 {
            let date_time = DateTime::from_timespec(unix_time, 0, zone.as_ref()).unwrap();
            let local = (date_time.year(), date_time.month(), date_time.month_day());
            let (hour, minute, second) = (date_time.hour(), date_time.minute(), date_time.second());
            let found = DateTime::find(
                local.0,
                local.1,
                local.2,
                hour,
                minute,
                second,
                0,
                zone.as_ref(),
            );
            let found = found.unwrap().into_inner();
            assert!(!found.is_empty());
            sum += i64::from(hour);
        }
    }
    sum
}

#[test]
fn eight_threads_share_a_zone() {
    let zone = &zone();
    let shared: Vec<i64> = thread::scope(|scope| {
        let threads: Vec<_> = (0..THREADS)
            .map(|thread| scope.spawn(move || sum(zone, thread)))
            .collect();
        threads
            .into_iter()
            .map(|thread| thread.join().unwrap())
            .collect()
    });
    // A clone that no other thread sees has the same answers.
    let own = zone.clone();
    assert_eq!(shared[3], sum(&own, 3));
    assert_eq!(shared[7], sum(&own, 7));
}
