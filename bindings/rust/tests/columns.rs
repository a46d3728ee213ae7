//! Calls over whole columns answer each place as the call for one value does.
#![cfg(feature = "alloc")]

mod settings;

use settings::zone_of;
use tz::datetime::Disambiguation;
use tz::error::ColumnError;
use tz::timezone::{Transition, TransitionRule};
use tz::{DateTime, LocalTimeType, TimeZone, TimeZoneRef, TzError, UtcDateTime};

/// Standard time until 2000, and then the rule of central Europe.
fn zone() -> TimeZone {
    let rule = zone_of("CET-1CEST,M3.5.0,M10.5.0/3").unwrap();
    let rule = *rule.as_ref().extra_rule();
    let Some(TransitionRule::Alternate(alternate)) = rule else {
        panic!("no alternate rule")
    };
    let types = vec![LocalTimeType::utc(), *alternate.std()];
    TimeZone::new(
        vec![Transition::new(946_684_800, 1)],
        types,
        Vec::new(),
        rule,
    )
    .unwrap()
}

/// Instants in order over the changes of the zone, and then some in no order, of which the ends have no type.
fn instants(length: usize) -> Vec<i64> {
    let others = [i64::MAX, 0, i64::MIN, 954_032_400, 954_032_399, -1];
    let ordered = (0..length).map(|number| 900_000_000 + 1_000_000 * number as i64);
    let mut instants: Vec<_> = ordered.collect();
    for (place, instant) in instants.iter_mut().enumerate().skip(length / 2) {
        *instant = others[place % others.len()];
    }
    instants
}

/// The first error, as its place and its text.
fn first<T>(answers: &[Result<T, TzError>]) -> Option<(usize, String)> {
    let error = |(place, answer): (usize, &Result<T, TzError>)| {
        Some((place, answer.as_ref().err()?.to_string()))
    };
    answers.iter().enumerate().find_map(error)
}

/// A column's error, as its place and its text.
fn told(answer: Result<(), ColumnError>) -> Option<(usize, String)> {
    let error = answer.err()?;
    let shown = error.to_string();
    let ColumnError::At { place, error } = error else {
        panic!("{shown}")
    };
    let text = error.to_string();
    assert_eq!(shown, format!("at place {place}: {text}"));
    Some((place, text))
}

/// Up to two blocks of 16 and some places, and longer ones.
fn lengths() -> impl Iterator<Item = usize> {
    (0..=40).chain([255, 256, 1000])
}

#[test]
fn offsets_are_those_of_single_calls() {
    let zone = zone();
    let zone = zone.as_ref();
    for length in lengths() {
        let instants = instants(length);
        let single = instants.iter().map(|instant| {
            let local_time_type = zone.find_local_time_type(*instant)?;
            Ok(local_time_type.ut_offset())
        });
        let single: Vec<Result<i32, TzError>> = single.collect();
        let mut offsets = vec![i32::MIN; length];
        assert_eq!(
            told(zone.offsets_at(&instants, &mut offsets)),
            first(&single)
        );
        let wanted = single.iter().map(|one| *one.as_ref().unwrap_or(&i32::MIN));
        assert!(wanted.eq(offsets));
    }
}

#[test]
fn date_times_are_those_of_single_calls() {
    let zone = zone();
    let zone = zone.as_ref();
    let epoch = DateTime::from_timespec(0, 0, TimeZoneRef::utc()).unwrap();
    for length in lengths() {
        let instants = instants(length);
        let nanoseconds = (0..length).map(|place| if place % 30 == 29 { 1_000_000_000 } else { 7 });
        let nanoseconds: Vec<_> = nanoseconds.collect();
        let single = instants.iter().zip(&nanoseconds);
        let single = single.map(|(instant, rest)| DateTime::from_timespec(*instant, *rest, zone));
        let single: Vec<_> = single.collect();
        let mut shown = vec![epoch; length];
        let answer = zone.date_times_at(&instants, &nanoseconds, &mut shown);
        assert_eq!(told(answer), first(&single));
        let wanted = single.iter().map(|one| one.as_ref().unwrap_or(&epoch));
        let wanted: Vec<_> = wanted.map(|one| format!("{one:?}")).collect();
        let shown: Vec<_> = shown.iter().map(|one| format!("{one:?}")).collect();
        assert_eq!(shown, wanted);
    }
}

#[test]
fn instants_are_those_of_single_calls() {
    let zone = zone();
    let zone = zone.as_ref();
    for disambiguation in CHOICES {
        for length in lengths() {
            let local = (0..length).map(|place| match place % 5 {
                0 => UtcDateTime::new(2000, 3, 26, 2, 30, 0, 0).unwrap(),
                1 => UtcDateTime::new(2000, 10, 29, 2, 30, 0, 0).unwrap(),
                2 if place > 20 => UtcDateTime::MAX,
                _ => UtcDateTime::from_timespec(86_400 * place as i64, 0).unwrap(),
            });
            let local: Vec<_> = local.collect();
            let single = local.iter().map(|local| {
                let meant = DateTime::from_local(*local, disambiguation, zone)?;
                Ok(meant.map(|meant| meant.unix_time()))
            });
            let single: Vec<Result<Option<i64>, TzError>> = single.collect();
            let mut meant = vec![Some(77); length];
            let answer = zone.instants_of(&local, disambiguation, &mut meant);
            assert_eq!(told(answer), first(&single));
            let wanted = single.iter().map(|one| *one.as_ref().unwrap_or(&Some(77)));
            assert!(wanted.eq(meant));
        }
    }
}

/// All choices.
const CHOICES: [Disambiguation; 4] = [
    Disambiguation::Compatible,
    Disambiguation::Earlier,
    Disambiguation::Later,
    Disambiguation::Reject,
];

/// The instants of readings are those of the local times that are read so, with the same errors.
fn compare_readings(zone: TimeZoneRef<'_>, readings: &[i64]) {
    for disambiguation in CHOICES {
        let single = readings.iter().map(|reading| {
            let local = UtcDateTime::from_timespec(*reading, 0)?;
            let meant = DateTime::from_local(local, disambiguation, zone)?;
            Ok(meant.map(|meant| meant.unix_time()))
        });
        let single: Vec<Result<Option<i64>, TzError>> = single.collect();
        let mut meant = vec![Some(77); readings.len()];
        let answer = zone.instants_of_readings(readings, disambiguation, &mut meant);
        assert_eq!(told(answer), first(&single));
        let wanted = single.iter().map(|one| *one.as_ref().unwrap_or(&Some(77)));
        assert!(wanted.eq(meant));
    }
}

/// Readings at and beside the changes of a zone, as clocks read before and after each, in order.
fn readings_beside_changes(zone: TimeZoneRef<'_>) -> Vec<i64> {
    let mut readings = Vec::new();
    for change in zone.changes_after(-3_000_000_000).take(60) {
        for local_time_type in [change.before(), change.after()] {
            let reading = change.unix_time() + i64::from(local_time_type.ut_offset());
            readings.extend(
                [
                    -86_400, -7201, -3600, -1, 0, 1, 1800, 3599, 3600, 7200, 86_400,
                ]
                .map(|far| reading + far),
            );
        }
    }
    readings.sort_unstable();
    readings
}

#[test]
fn readings_mean_what_local_times_do() {
    let strings = [
        "CET-1CEST,M3.5.0,M10.5.0/3",
        "EST5EDT,M3.2.0,M11.1.0",
        "<+1030>-10:30<+11>-11,M10.1.0,M4.1.0",
        "AAA0BBB-1,J1/2,J1/3:30",
        "AAA-14BBB12,M3.1.0,M10.1.0",
        "<-03>3",
    ];
    let mut zones: Vec<_> = strings
        .iter()
        .map(|string| zone_of(string).unwrap())
        .collect();
    zones.push(zone());
    for zone in &zones {
        let zone = zone.as_ref();
        let mut readings = readings_beside_changes(zone);
        readings.extend([
            i64::MIN,
            i64::MAX,
            UtcDateTime::MIN.unix_time(),
            UtcDateTime::MAX.unix_time(),
        ]);
        compare_readings(zone, &readings);
        readings.reverse();
        compare_readings(zone, &readings);
        let length = readings.len();
        let other: Vec<_> = (0..length)
            .map(|place| readings[(place * 769) % length])
            .collect();
        compare_readings(zone, &other);
    }
}

/// Each length up to more than two blocks, in order and in none, with an error or no instant at each place.
#[test]
fn a_reading_without_an_instant_may_be_at_each_place() {
    let zone = zone();
    let zone = zone.as_ref();
    // No year of 32 bits, the year after the last, and a gap.
    let none = [i64::MAX, UtcDateTime::MAX.unix_time() + 1, 954_037_800];
    for step in [0, 600, 9_000_000, -9_000_000, 77_777_777_777] {
        for length in 0..=40 {
            let reading = |place: usize| 954_000_000 + (step * place as i64) % 900_000_000;
            let mut readings: Vec<_> = (0..length).map(reading).collect();
            compare_readings(zone, &readings);
            for place in 0..length {
                let before = std::mem::replace(&mut readings[place], none[place % none.len()]);
                compare_readings(zone, &readings);
                readings[place] = before;
            }
        }
    }
}

/// Each length up to more than two blocks, in order and in none, with an error at each place.
#[test]
fn an_error_may_be_at_each_place() {
    let zone = zone();
    let zone = zone.as_ref();
    let epoch = DateTime::from_timespec(0, 0, TimeZoneRef::utc()).unwrap();
    for step in [0, 40_000, 9_000_000, -9_000_000, 77_777_777_777] {
        for length in 0..=40 {
            for fault in 0..length {
                let instant = |place: usize| 954_000_000 + (step * place as i64) % 900_000_000;
                let mut instants: Vec<_> = (0..length).map(instant).collect();
                instants[fault] = i64::MAX;
                let mut offsets = vec![i32::MIN; length];
                let answer = zone.offsets_at(&instants, &mut offsets);
                assert_eq!(told(answer).unwrap().0, fault);
                let mut shown = vec![epoch; length];
                let answer = zone.date_times_at(&instants, &vec![5; length], &mut shown);
                assert_eq!(told(answer).unwrap().0, fault);
                for (place, instant) in instants.iter().enumerate() {
                    let single = DateTime::from_timespec(*instant, 5, zone).unwrap_or(epoch);
                    assert_eq!(format!("{:?}", shown[place]), format!("{single:?}"));
                    let offset = single.local_time_type().ut_offset();
                    let wanted = if place == fault { i32::MIN } else { offset };
                    assert_eq!(offsets[place], wanted);
                }
            }
        }
    }
}

/// Random columns in order, in none, and in order but for one place, beside single calls.
#[test]
fn random_columns_are_single_calls() {
    let zone = zone();
    let zone = zone.as_ref();
    let mut state = 88_172_645_463_325_252_u64;
    let mut random = |below: u64| {
        state ^= state << 13;
        state ^= state >> 7;
        state ^= state << 17;
        state % below
    };
    for round in 0..2000 {
        let (length, years) = (random(100) as usize, 1 + random(60));
        let mut instants: Vec<_> = (0..length)
            .map(|_| 940_000_000 + random(31_556_952 * years) as i64)
            .collect();
        if round % 3 > 0 {
            instants.sort_unstable();
        }
        if round % 3 > 1 && length > 0 {
            let (one, other) = (
                random(length as u64) as usize,
                random(length as u64) as usize,
            );
            instants.swap(one, other);
        }
        let mut offsets = vec![i32::MIN; length];
        zone.offsets_at(&instants, &mut offsets).unwrap();
        let mut shown = vec![DateTime::from_timespec(0, 0, zone).unwrap(); length];
        zone.date_times_at(&instants, &vec![9; length], &mut shown)
            .unwrap();
        for (place, instant) in instants.iter().enumerate() {
            let single = DateTime::from_timespec(*instant, 9, zone).unwrap();
            assert_eq!(offsets[place], single.local_time_type().ut_offset());
            assert_eq!(format!("{:?}", shown[place]), format!("{single:?}"));
        }
    }
}

#[test]
fn unequal_lengths_are_refused() {
    let zone = zone();
    let zone = zone.as_ref();
    let refused = |answer: Result<(), ColumnError>| {
        let error = answer.unwrap_err();
        assert!(matches!(error, ColumnError::UnequalLengths));
        assert_eq!(error.to_string(), "columns of unequal lengths");
        assert!(std::error::Error::source(&error).is_none());
    };
    let mut offsets = [1; 3];
    for length in [0, 1, 2, 4, 40] {
        refused(zone.offsets_at(&vec![0; length], &mut offsets));
    }
    assert_eq!(offsets, [1; 3]);
    let epoch = DateTime::from_timespec(0, 0, TimeZoneRef::utc()).unwrap();
    let mut shown = [epoch; 3];
    for (length, other) in [(3, 2), (2, 3), (2, 2), (4, 4), (3, 4)] {
        let (instants, nanoseconds) = (vec![7; length], vec![0; other]);
        refused(zone.date_times_at(&instants, &nanoseconds, &mut shown));
    }
    assert_eq!(shown.map(|one| one.unix_time()), [0; 3]);
    let mut meant = [Some(77); 2];
    for length in [0, 1, 3] {
        let local = vec![UtcDateTime::UNIX_EPOCH; length];
        refused(zone.instants_of(&local, Disambiguation::Reject, &mut meant));
        let readings = vec![0; length];
        refused(zone.instants_of_readings(&readings, Disambiguation::Reject, &mut meant));
    }
    assert_eq!(meant, [Some(77); 2]);
}

/// A search with more entries than the crate has slots on its stack: a clock that is set back an hour each hour shows 5:10 six times.
#[test]
fn many_entries_are_found() {
    let types = (0..6).map(|number| LocalTimeType::with_ut_offset(3600 * (5 - number)).unwrap());
    let types: Vec<_> = types.collect();
    let transitions =
        (0..5).map(|number| Transition::new(3600 * number + 1800, 1 + number as usize));
    let rule = Some(TransitionRule::Fixed(types[5]));
    let zone = TimeZone::new(transitions.collect(), types, Vec::new(), rule).unwrap();
    // A view of a zone stays valid where its owner goes, and a copy has one of its own.
    let moved = Box::new(zone.clone());
    drop(zone);
    let zone = moved.as_ref().as_ref();
    let found = DateTime::find(1970, 1, 1, 5, 10, 0, 0, zone).unwrap();
    let instants: Vec<_> = (0..6).map(|number| 600 + 3600 * number).collect();
    let unix_time = |entry: &tz::datetime::FoundDateTimeKind| match entry {
        tz::datetime::FoundDateTimeKind::Normal(date_time) => date_time.unix_time(),
        _ => panic!("a jump"),
    };
    assert!(
        found
            .clone()
            .into_inner()
            .iter()
            .map(unix_time)
            .eq(instants)
    );
    for slots in 0..8 {
        let mut buf = vec![None; slots];
        let some = DateTime::find_n(&mut buf, 1970, 1, 1, 5, 10, 0, 0, zone).unwrap();
        assert_eq!((some.count(), some.data().len()), (6, slots.min(6)));
        let entries = found.clone().into_inner();
        assert!(some.data().iter().flatten().eq(entries.iter().take(slots)));
        assert!(buf.iter().skip(6).all(Option::is_none));
    }
}
