//! What is by hand in this crate, beside the generated calls that it passes on to: zones that own their parts, lists, files, the system's clock.
#![cfg(feature = "std")]

use std::error::Error as StdError;
use std::fmt::Debug;
use std::time::{Duration, SystemTime};
use std::{fs, io, process};
use tz::datetime::{FoundDateTimeKind, FoundDateTimeList};
use tz::error::{AllocError, ColumnError, ReadFault};
use tz::timezone::{
    AlternateTime, Julian1WithoutLeap, LeapSecond, MonthWeekDay, RuleDay, Transition,
    TransitionRule, read_file_up_to,
};
use tz::{
    DateTime, Error, LocalTimeType, TimeZone, TimeZoneRef, TimeZoneSettings, TzError, UtcDateTime,
};

/// Fifty names of the tz database: of each continent, with and without a rule, with negative daylight saving time, and with dates left out.
const NAMES: [&str; 50] = [
    "Africa/Abidjan",
    "Africa/Cairo",
    "Africa/Casablanca",
    "Africa/Johannesburg",
    "Africa/Juba",
    "Africa/Monrovia",
    "Africa/Tripoli",
    "Africa/Windhoek",
    "America/Argentina/San_Luis",
    "America/Bogota",
    "America/Caracas",
    "America/Danmarkshavn",
    "America/Havana",
    "America/Los_Angeles",
    "America/Mexico_City",
    "America/New_York",
    "America/Nuuk",
    "America/Santiago",
    "America/Sao_Paulo",
    "America/Scoresbysund",
    "America/St_Johns",
    "Antarctica/Casey",
    "Antarctica/Troll",
    "Asia/Almaty",
    "Asia/Baghdad",
    "Asia/Calcutta",
    "Asia/Dhaka",
    "Asia/Gaza",
    "Asia/Jerusalem",
    "Asia/Kathmandu",
    "Asia/Manila",
    "Asia/Pyongyang",
    "Asia/Tehran",
    "Asia/Tokyo",
    "Atlantic/Azores",
    "Australia/Lord_Howe",
    "Australia/Sydney",
    "Etc/GMT+12",
    "Etc/UTC",
    "Europe/Dublin",
    "Europe/Lisbon",
    "Europe/London",
    "Europe/Moscow",
    "Europe/Paris",
    "Europe/Volgograd",
    "Pacific/Apia",
    "Pacific/Auckland",
    "Pacific/Chatham",
    "Pacific/Fiji",
    "Pacific/Kwajalein",
];

/// The zones of these names, and then some with leap seconds, and without a type after their transitions.
fn zones() -> Vec<TimeZone> {
    let mut zones: Vec<_> = NAMES
        .map(|name| TimeZone::named(name).expect(name))
        .into_iter()
        .collect();
    zones.extend(different_zones());
    zones
}

/// What a value prints: its type's `==` may leave out a part.
fn shown(value: impl Debug) -> String {
    format!("{value:?}")
}

/// A UTC date time's instant.
fn instant(year: i32, month: u8, month_day: u8) -> i64 {
    let date_time = UtcDateTime::new(year, month, month_day, 0, 0, 0, 0);
    date_time.unwrap().unix_time()
}

#[test]
fn calls_of_a_zone_are_those_of_the_zone_that_it_lends() {
    let (start, end) = (instant(1850, 1, 1), instant(2040, 1, 1));
    let mut compared = 0;
    for zone in &zones() {
        let lent = zone.as_ref();
        let changes = lent.changes_after(start);
        let changes = changes.map(|change| change.unix_time());
        let changes = changes.take_while(|unix_time| *unix_time < end);
        let ends = [i64::MIN, start, 0, end, i64::MAX];
        let leaps = lent.leap_seconds().iter().map(|leap| leap.unix_leap_time());
        for around in changes.chain(ends).chain(leaps) {
            for at in [around.saturating_sub(1), around, around.saturating_add(1)] {
                assert_eq!(
                    shown(zone.find_local_time_type(at)),
                    shown(lent.find_local_time_type(at)),
                    "{at}"
                );
                assert_eq!(zone.segment_at(at), lent.segment_at(at), "{at}");
                assert_eq!(zone.following(at), lent.following(at), "{at}");
                assert_eq!(zone.preceding(at), lent.preceding(at), "{at}");
                let after = (zone.changes_after(at), lent.changes_after(at));
                assert!(after.0.take(2).eq(after.1.take(2)), "{at}");
                let before = (zone.changes_before(at), lent.changes_before(at));
                assert!(before.0.take(2).eq(before.1.take(2)), "{at}");
                compared += 1;
            }
        }
    }
    assert!(compared > 10_000, "{compared}");
}

/// A local time type.
fn local_time_type(ut_offset: i32, is_dst: bool, name: &str) -> LocalTimeType {
    let name = (!name.is_empty()).then_some(name.as_bytes());
    LocalTimeType::new(ut_offset, is_dst, name).unwrap()
}

/// The parts of a zone.
#[derive(Clone)]
struct Parts {
    transitions: Vec<Transition>,
    local_time_types: Vec<LocalTimeType>,
    leap_seconds: Vec<LeapSecond>,
    extra_rule: Option<TransitionRule>,
}

impl Parts {
    fn zone(&self) -> TimeZone {
        let parts = self.clone();
        let zone = TimeZone::new(
            parts.transitions,
            parts.local_time_types,
            parts.leap_seconds,
            parts.extra_rule,
        );
        zone.unwrap()
    }
}

/// An alternate rule of these types, from March to October.
fn rule(std: LocalTimeType, dst: LocalTimeType, week: u8, end_time: i32) -> TransitionRule {
    let start = RuleDay::MonthWeekDay(MonthWeekDay::new(3, week, 0).unwrap());
    let end = RuleDay::Julian1WithoutLeap(Julian1WithoutLeap::new(300).unwrap());
    TransitionRule::Alternate(AlternateTime::new(std, dst, start, 7_200, end, end_time).unwrap())
}

/// Parts of zones, each pair of which differs in one part at least, and most in one place.
fn different_parts() -> Vec<Parts> {
    let [std, dst] = [(3_600, false, "STD"), (7_200, true, "DST")]
        .map(|(ut_offset, is_dst, name)| local_time_type(ut_offset, is_dst, name));
    let base = Parts {
        transitions: vec![
            Transition::new(1_000, 1),
            Transition::new(2_000, 2),
            Transition::new(94_694_402, 1),
            Transition::new(instant(2000, 1, 1) + 2, 1),
        ],
        local_time_types: vec![local_time_type(-17, false, ""), std, dst],
        leap_seconds: vec![
            LeapSecond::new(78_796_800, 1),
            LeapSecond::new(94_694_401, 2),
        ],
        extra_rule: Some(rule(std, dst, 5, 10_800)),
    };
    let one = |change: &dyn Fn(&mut Parts)| {
        let mut parts = base.clone();
        change(&mut parts);
        parts
    };
    vec![
        one(&|_| {}),
        one(&|parts| parts.transitions[0] = Transition::new(999, 1)),
        one(&|parts| parts.transitions[1] = Transition::new(2_000, 0)),
        one(&|parts| {
            parts.transitions = [&parts.transitions[..1], &parts.transitions[2..]].concat()
        }),
        one(&|parts| parts.local_time_types[0] = local_time_type(-18, false, "")),
        one(&|parts| parts.local_time_types[0] = local_time_type(-17, true, "")),
        one(&|parts| parts.local_time_types[0] = local_time_type(-17, false, "LMT")),
        one(&|parts| parts.local_time_types.push(std)),
        one(&|parts| parts.leap_seconds[0] = LeapSecond::new(78_796_801, 1)),
        one(&|parts| parts.leap_seconds[1] = LeapSecond::new(94_694_401, 0)),
        one(&|parts| {
            parts.leap_seconds[0] = LeapSecond::new(78_796_800, -1);
            parts.leap_seconds[1] = LeapSecond::new(94_694_401, 0);
        }),
        one(&|parts| parts.leap_seconds.truncate(1)),
        one(&|parts| parts.leap_seconds.clear()),
        one(&|parts| parts.extra_rule = None),
        one(&|parts| parts.extra_rule = Some(TransitionRule::Fixed(std))),
        one(&|parts| parts.extra_rule = Some(rule(std, dst, 4, 10_800))),
        one(&|parts| parts.extra_rule = Some(rule(std, dst, 5, 10_801))),
        one(&|parts| {
            parts.extra_rule = Some(rule(std, local_time_type(9_000, true, "DST"), 5, 10_800));
        }),
        one(&|parts| parts.transitions.clear()),
        one(&|parts| {
            parts.transitions.clear();
            parts.leap_seconds.clear();
            parts.local_time_types.truncate(1);
            parts.extra_rule = None;
        }),
    ]
}

fn different_zones() -> Vec<TimeZone> {
    different_parts().iter().map(Parts::zone).collect()
}

#[test]
fn a_zone_keeps_its_parts() {
    for parts in different_parts() {
        let zone = parts.zone();
        for zone in [zone.clone(), zone] {
            let lent = zone.as_ref();
            assert_eq!(lent.transitions(), parts.transitions);
            assert_eq!(lent.local_time_types(), parts.local_time_types);
            assert_eq!(lent.leap_seconds(), parts.leap_seconds);
            assert_eq!(*lent.extra_rule(), parts.extra_rule);
        }
    }
}

#[test]
fn zones_are_equal_if_all_their_parts_are() {
    let (zones, again) = (different_zones(), different_zones());
    for (place, zone) in zones.iter().enumerate() {
        for (other_place, other) in again.iter().enumerate() {
            let is_same = place == other_place;
            assert_eq!(zone == other, is_same, "{place} {other_place}");
            assert_eq!(zone.as_ref() == other.as_ref(), is_same);
            assert_eq!(zone.clone() == *other, is_same);
        }
    }
}

#[test]
fn the_zone_of_a_file_is_that_of_its_bytes() {
    let named = TimeZone::named("Europe/Paris").unwrap();
    let folders = TimeZoneSettings::DEFAULT_DIRECTORIES;
    let path = folders
        .iter()
        .map(|folder| format!("{folder}/Europe/Paris"));
    let bytes = path.flat_map(fs::read).next().unwrap();
    let zone = TimeZone::from_tz_data(&bytes).unwrap();
    assert_eq!(zone, named);
    assert_eq!(zone, TimeZone::from_posix_tz("Europe/Paris").unwrap());
    assert_eq!(zone, TimeZone::from_posix_tz(":Europe/Paris").unwrap());
    for end in [b"\0", b" "] {
        let longer = [&bytes[..], end].concat();
        assert_eq!(
            TimeZone::from_tz_data(&longer).unwrap_err().to_string(),
            "invalid TZ file: invalid footer"
        );
    }
    assert!(TimeZone::from_tz_data(&bytes[..bytes.len() - 1]).is_err());
}

/// The machine's zone is that of this file even if it is UTC, whose type then has a name.
#[test]
fn the_local_zone_is_that_of_its_file() {
    let local = TimeZone::local();
    match fs::read("/etc/localtime") {
        Ok(bytes) => assert_eq!(local.unwrap(), TimeZone::from_tz_data(&bytes).unwrap()),
        Err(_) => assert!(matches!(local, Err(Error::Io(_)))),
    }
    assert_eq!(
        shown(TimeZone::local()),
        shown(TimeZone::from_posix_tz("localtime"))
    );
}

/// A central European zone, an hour or two ahead of UTC.
fn central_europe() -> TimeZone {
    TimeZone::from_posix_tz("CET-1CEST,M3.5.0,M10.5.0/3").unwrap()
}

#[test]
fn lists_are_what_the_search_into_slots_finds() {
    let zones = [
        TimeZone::utc(),
        central_europe(),
        different_zones().remove(0),
    ];
    let days = [
        (3, 26),
        (10, 29),
        (10, 30),
        (1, 1),
        (12, 31),
        (2, 30),
        (13, 1),
    ];
    let times = [(0, 0), (2, 30), (3, 0), (2, 0), (23, 59), (24, 0), (0, 60)];
    let parts = [
        (0, 0),
        (59, 999_999_999),
        (60, 0),
        (60, 5),
        (61, 0),
        (0, 1_000_000_000),
    ];
    for zone in &zones {
        let zone = zone.as_ref();
        for (month, day) in days {
            for (hour, minute) in times {
                for (second, nanoseconds) in parts {
                    let mut slots = [None; 4];
                    let list =
                        DateTime::find(2000, month, day, hour, minute, second, nanoseconds, zone);
                    let slots = DateTime::find_n(
                        &mut slots,
                        2000,
                        month,
                        day,
                        hour,
                        minute,
                        second,
                        nanoseconds,
                        zone,
                    );
                    let written = slots.as_ref().map(|found| found.data());
                    let written = written.map(|data| data.iter().flatten().collect());
                    let written: Result<Vec<_>, _> = written;
                    let entries = list.as_ref().map(|list| list.clone().into_inner());
                    assert_eq!(shown(entries), shown(written));
                    let Ok(list) = list else { continue };
                    let slots = slots.unwrap();
                    assert_eq!(shown(list.unique()), shown(slots.unique()));
                    assert_eq!(shown(list.earliest()), shown(slots.earliest()));
                    assert_eq!(shown(list.latest()), shown(slots.latest()));
                    let local =
                        UtcDateTime::new(2000, month, day, hour, minute, second, nanoseconds);
                    let local = DateTime::find_local(local.unwrap(), zone).unwrap();
                    assert_eq!(shown(&local), shown(&list));
                    assert_eq!(shown(list.clone()), shown(list));
                }
            }
        }
    }
}

#[test]
fn lists_are_equal_if_their_entries_are() {
    let zone = central_europe();
    let found = |month, day, hour| -> FoundDateTimeList {
        DateTime::find(2000, month, day, hour, 30, 0, 0, zone.as_ref()).unwrap()
    };
    let lists = [
        FoundDateTimeList::default(),
        found(3, 26, 2),
        found(10, 29, 2),
        found(10, 29, 1),
        found(10, 29, 3),
    ];
    for (place, list) in lists.iter().enumerate() {
        for (other_place, other) in lists.iter().enumerate() {
            assert_eq!(list.clone() == *other, place == other_place);
        }
    }
    for list in &lists {
        let entries = list.clone().into_inner();
        assert_eq!(list.as_slice(), entries);
        assert_eq!(
            (list.len(), list.is_empty()),
            (entries.len(), entries.is_empty())
        );
        assert!(list.iter().eq(&entries) && list.into_iter().eq(&entries));
        assert!(list.clone().into_iter().eq(entries));
    }
    let lengths = lists.map(|list| list.len());
    assert_eq!(lengths, [0, 1, 2, 1, 1]);
}

/// What clocks show without a zone's type is no date time of UTC.
#[test]
fn a_column_without_a_type_stays_as_it_is() {
    let parts = Parts {
        extra_rule: None,
        ..different_parts().remove(0)
    };
    let zone = parts.zone();
    let last = instant(2000, 1, 1);
    let epoch = DateTime::from_timespec(0, 0, TimeZoneRef::utc()).unwrap();
    let mut date_times = [epoch; 3];
    let unix_times = [last - 1, last, last + 1];
    let fault = zone
        .as_ref()
        .date_times_at(&unix_times, &[0; 3], &mut date_times);
    let fault = fault.unwrap_err();
    assert!(matches!(fault, ColumnError::At { place: 1, .. }));
    assert_eq!(shown(fault.source().unwrap()), "NoAvailableLocalTimeType");
    assert_eq!(
        date_times.map(|date_time| date_time.unix_time()),
        [last - 1, 0, 0]
    );
    let mut offsets = [7; 3];
    let fault: ColumnError = zone
        .as_ref()
        .offsets_at(&unix_times, &mut offsets)
        .unwrap_err();
    assert_eq!(offsets, [3_600, 7, 7]);
    // Its cause is the error there.
    let source = fault.source().unwrap().downcast_ref::<TzError>().unwrap();
    assert_eq!(shown(source), "NoAvailableLocalTimeType");
    let mut date_times = [epoch; 1];
    let fault = zone
        .as_ref()
        .date_times_at(&[0], &[1_000_000_000], &mut date_times);
    let fault = fault.unwrap_err();
    assert_eq!(
        shown(fault.source().unwrap()),
        "DateTime(InvalidNanoseconds)"
    );
}

/// Seconds and nanoseconds, and the time of the system's clock so long after 1970, or before it, if there is one.
fn system_times() -> impl Iterator<Item = (i64, u32, SystemTime)> {
    let seconds = [
        0,
        1,
        59,
        86_399,
        1 << 31,
        (1 << 32) - 1,
        1 << 32,
        (1 << 32) + 7,
        1 << 33,
        1 << 40,
    ];
    let ends = [UtcDateTime::MIN, UtcDateTime::MAX].map(|end| end.unix_time().unsigned_abs());
    let seconds = seconds.into_iter().chain(ends);
    let durations = seconds.flat_map(|seconds| {
        [0, 1, 500_000_000, 999_999_999].map(|nanoseconds| Duration::new(seconds, nanoseconds))
    });
    durations.flat_map(|duration| {
        let seconds = i64::try_from(duration.as_secs()).unwrap();
        let after = SystemTime::UNIX_EPOCH.checked_add(duration);
        let after = after.map(|time| (seconds, duration.subsec_nanos(), time));
        let before = SystemTime::UNIX_EPOCH.checked_sub(duration);
        let before = before.map(|time| match duration.subsec_nanos() {
            0 => (-seconds, 0, time),
            part => (-seconds - 1, 1_000_000_000 - part, time),
        });
        [after, before].into_iter().flatten()
    })
}

#[test]
fn times_of_the_system_are_instants() {
    let zone = TimeZone::fixed(-19_815).unwrap();
    let mut compared = 0;
    for (seconds, nanoseconds, time) in system_times() {
        let utc = UtcDateTime::try_from(time);
        let Ok(expected) = UtcDateTime::from_timespec(seconds, nanoseconds) else {
            assert!(matches!(utc, Err(TzError::OutOfRange)), "{seconds}");
            continue;
        };
        assert_eq!(shown(utc), shown(Ok::<_, TzError>(expected)));
        assert_eq!(SystemTime::from(expected), time);
        let Ok(date_time) = expected.project(zone.as_ref()) else {
            continue;
        };
        assert_eq!(SystemTime::from(date_time), time);
        compared += 1;
    }
    assert!(compared > 40, "{compared}");
    let leap_second = UtcDateTime::new(2016, 12, 31, 23, 59, 60, 7).unwrap();
    let next = SystemTime::UNIX_EPOCH + Duration::new(1_483_228_800, 7);
    assert_eq!(SystemTime::from(leap_second), next);
    let leap_second = leap_second.project(zone.as_ref()).unwrap();
    assert_eq!(SystemTime::from(leap_second), next);
}

#[test]
fn now_is_between_two_times_of_the_system() {
    let zone = TimeZone::fixed(20_700).unwrap();
    let before = SystemTime::now();
    let utc = UtcDateTime::now().unwrap();
    let local = DateTime::now(zone.as_ref()).unwrap();
    let after = SystemTime::now();
    assert!(before <= utc.into() && SystemTime::from(utc) <= local.into());
    assert!(SystemTime::from(local) <= after);
    assert_eq!(local.local_time_type().ut_offset(), 20_700);
    let again = DateTime::from_timespec(local.unix_time(), local.nanoseconds(), zone.as_ref());
    assert_eq!(shown(local), shown(again.unwrap()));
}

#[test]
fn the_current_type_is_that_of_now() {
    let now = UtcDateTime::now().unwrap().unix_time();
    let types: Vec<_> = (0..3)
        .map(|hour| local_time_type(3_600 * hour, false, ""))
        .collect();
    let transitions = vec![
        Transition::new(now - 1_000, 1),
        Transition::new(now + 1_000, 2),
    ];
    let zone = TimeZone::new(transitions, types, Vec::new(), None).unwrap();
    let current = zone.find_current_local_time_type().unwrap();
    assert_eq!(current.ut_offset(), 3_600);
}

/// A path for a file of a test, which no other process uses.
fn path_of(name: &str) -> String {
    format!("{}/{name}-{}", env!("CARGO_TARGET_TMPDIR"), process::id())
}

#[test]
fn files_are_read_up_to_their_limit() {
    let path = path_of("limit");
    for length in [0, 1, 1_999, 2_000, 2_001, 4_000, 70_000] {
        let bytes: Vec<_> = (0..length)
            .map(|place: usize| (place % 251) as u8)
            .collect();
        fs::write(&path, &bytes).unwrap();
        for limit in [length, length + 1, 1_000_000, usize::MAX] {
            assert_eq!(read_file_up_to(limit, &path).unwrap(), bytes, "{limit}");
        }
        for limit in [
            length.checked_sub(1),
            length.checked_sub(2),
            Some(length / 2),
        ] {
            let Some(limit) = limit.filter(|limit| *limit < length) else {
                continue;
            };
            let fault = read_file_up_to(limit, &path).unwrap_err();
            assert!(matches!(fault, ReadFault::Failed(_)));
            assert_eq!(
                fault.to_string(),
                format!("file is longer than {limit} bytes")
            );
        }
    }
    fs::remove_file(&path).unwrap();
    assert!(matches!(
        read_file_up_to(9, &path),
        Err(ReadFault::Failed(_))
    ));
}

/// What a reader returns.
type Bytes = Result<Vec<u8>, Box<dyn StdError + Send + Sync + 'static>>;

/// Readers whose error says that an allocation failed.
const NO_MEMORY: [fn(&str) -> Bytes; 4] = [
    |_| Err(io::Error::from(io::ErrorKind::OutOfMemory).into()),
    |_| Err(ReadFault::Memory(AllocError).into()),
    |_| Err(AllocError.into()),
    |_| {
        Ok(Vec::<u8>::new()
            .try_reserve_exact(usize::MAX)
            .map(|()| Vec::new())?)
    },
];

/// Readers with other errors.
const NO_FILE: [fn(&str) -> Bytes; 3] = [
    |_| Err(io::Error::from(io::ErrorKind::NotFound).into()),
    |_| Err(ReadFault::Failed("not here".into()).into()),
    |_| Err("memory allocation failed".into()),
];

#[test]
fn a_reader_without_memory_ends_the_call() {
    for reader in NO_MEMORY {
        let settings = TimeZoneSettings::new(&["/one", "/two"], reader);
        for zone in [
            settings.parse_local(),
            settings.parse_posix_tz("UTC0"),
            settings.parse_posix_tz("/UTC0"),
            settings.parse_posix_tz(":UTC0"),
            settings.parse_posix_tz("localtime"),
        ] {
            assert!(
                matches!(zone, Err(Error::Tz(TzError::Memory(_)))),
                "{zone:?}"
            );
        }
    }
    for reader in NO_FILE {
        let settings = TimeZoneSettings::new(&["/one", "/two"], reader);
        assert!(settings.parse_posix_tz("UTC0").is_ok());
        assert!(matches!(settings.parse_local(), Err(Error::Io(_))));
        assert!(matches!(
            settings.parse_posix_tz(":UTC0"),
            Err(Error::Io(_))
        ));
    }
}

/// A file of this length has no bytes on the disk, and no memory holds it.
const HUGE: u64 = 1 << 62;

/// A file that no memory holds, if a file system has one.
fn huge_file() -> Option<String> {
    let paths = [
        path_of("huge"),
        format!("/dev/shm/tz-huge-{}", process::id()),
    ];
    paths.into_iter().find(|path| {
        let file = fs::File::create(path);
        let made = file.and_then(|file| file.set_len(HUGE));
        made.inspect_err(|_| drop(fs::remove_file(path))).is_ok()
    })
}

#[test]
fn a_file_that_no_memory_holds_is_no_missing_file() {
    let Some(path) = huge_file() else {
        eprintln!("skipped: no file system has a file of {HUGE} bytes");
        return;
    };
    let zones = [
        TimeZone::from_posix_tz(&path),
        TimeZone::from_posix_tz(&format!(":{path}")),
    ];
    fs::remove_file(&path).unwrap();
    for zone in zones {
        assert!(
            matches!(zone, Err(Error::Tz(TzError::Memory(_)))),
            "{zone:?}"
        );
    }
}

/// The kinds of entries print their names, which no list changes.
#[test]
fn lists_print_their_entries() {
    let found = DateTime::find(2000, 3, 26, 2, 30, 0, 0, central_europe().as_ref()).unwrap();
    let [entry] = found.clone().into_inner()[..] else {
        panic!("not one entry");
    };
    assert!(matches!(entry, FoundDateTimeKind::Skipped { .. }));
    assert_eq!(shown(found), format!("FoundDateTimeList([{entry:?}])"));
}
