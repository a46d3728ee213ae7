//! What `Debug` and `Display` print.
#![cfg(feature = "alloc")]

mod settings;

use settings::zone_of;
use tz::datetime::{FoundDateTimeKind, FoundDateTimeListRefMut};
use tz::timezone::{LeapSecond, Transition, TransitionRule};
use tz::{DateTime, LocalTimeType, TimeZone, TimeZoneRef, UtcDateTime};

const NEW_YORK: &str = "EST5EDT,M3.2.0,M11.1.0";

/// What `Debug` prints of a value in one line.
macro_rules! prints {
    ($($value:expr => $text:expr;)*) => { $(assert_eq!(format!("{:?}", $value), $text);)* };
}

/// `str::parse` reads what `parse` reads of its bytes.
#[test]
fn texts_are_parsed_as_their_bytes() {
    for text in [
        "2000-01-01T00:00:00Z",
        "2000-01-01 01:00:00.5",
        "2000-01-01",
        "",
    ] {
        let read = text.parse::<tz::ParsedDateTime>();
        assert_eq!(read, tz::ParsedDateTime::parse(text.as_bytes()), "{text}");
    }
}

#[test]
fn values_print_their_parts() {
    let zone = zone_of(NEW_YORK).unwrap();
    let zone = zone.as_ref();
    let date_time = DateTime::from_timespec(954_032_400, 5, zone).unwrap();
    let utc = UtcDateTime::from_timespec(954_032_400, 5).unwrap();
    let est =
        "LocalTimeType { ut_offset: -18000, is_dst: false, time_zone_designation: Some(\"EST\") }";
    let edt =
        "LocalTimeType { ut_offset: -14400, is_dst: true, time_zone_designation: Some(\"EDT\") }";
    let start = "MonthWeekDay(MonthWeekDay { month: 3, week: 2, week_day: 0 })";
    let end = "MonthWeekDay(MonthWeekDay { month: 11, week: 1, week_day: 0 })";
    let rule = format!(
        "Some(Alternate(AlternateTime {{ std: {est}, dst: {edt}, dst_start: {start}, dst_start_time: 7200, dst_end: {end}, dst_end_time: 7200 }}))"
    );
    let shown = format!(
        "DateTime {{ year: 2000, month: 3, month_day: 25, hour: 21, minute: 0, second: 0, local_time_type: {edt}, unix_time: 954032400, nanoseconds: 5 }}"
    );
    prints! {
        utc => "UtcDateTime { year: 2000, month: 3, month_day: 26, hour: 1, minute: 0, second: 0, nanoseconds: 5 }";
        date_time => shown;
        FoundDateTimeKind::Normal(date_time) => format!("Normal({shown})");
        Transition::new(-1, 2) => "Transition { unix_leap_time: -1, local_time_type_index: 2 }";
        LeapSecond::new(78_796_800, 1) => "LeapSecond { unix_leap_time: 78796800, correction: 1 }";
        LocalTimeType::utc() => "LocalTimeType { ut_offset: 0, is_dst: false, time_zone_designation: None }";
        zone.extra_rule() => rule;
        zone => format!("TimeZoneRef {{ transitions: [], local_time_types: [{est}, {edt}], leap_seconds: [], extra_rule: {rule} }}");
        TimeZone::utc() => "TimeZone { transitions: [], local_time_types: [LocalTimeType { ut_offset: 0, is_dst: false, time_zone_designation: None }], leap_seconds: [], extra_rule: None }";
        FoundDateTimeListRefMut::new(&mut [None; 2]) => "FoundDateTimeListRefMut { buf: [None, None], current_index: 0, count: 0 }";
        DateTime::find(2000, 2, 30, 0, 0, 0, 0, zone) => "Err(DateTime(InvalidMonthDay))";
        DateTime::find(2000, 3, 25, 21, 0, 0, 5, zone).unwrap() => format!("FoundDateTimeList([Normal({shown})])");
    }
    assert_eq!(
        format!("{:#?}", Transition::new(-1, 2)),
        "Transition {\n    unix_leap_time: -1,\n    local_time_type_index: 2,\n}"
    );
    #[cfg(feature = "std")]
    assert!(format!("{:?}", tz::TimeZoneSettings::DEFAULT).starts_with("TimeZoneSettings { directories: [\"/usr/share/zoneinfo\", \"/share/zoneinfo\", \"/etc/zoneinfo\"], read_file_fn: 0x"));
}

#[test]
fn days_of_the_year_print_their_numbers() {
    let zone = zone_of("A1B,J60/0,59/-0").map(|_| ());
    assert_eq!(
        format!("{zone:?}"),
        "Err(Tz(TzString(ParseInt(ParseIntError { kind: Empty }))))"
    );
    let zone = zone_of("AAA1BBB,J60/0,300/0").unwrap();
    let Some(TransitionRule::Alternate(rule)) = zone.as_ref().extra_rule() else {
        panic!("no alternate rule")
    };
    assert_eq!(
        format!("{:?}", rule.dst_start()),
        "Julian1WithoutLeap(Julian1WithoutLeap(60))"
    );
    assert_eq!(
        format!("{:?}", rule.dst_end()),
        "Julian0WithLeap(Julian0WithLeap(300))"
    );
}

/// ISO 8601-1, 5.4.2, with nine digits of a second; years of other than four digits as they are.
#[test]
fn date_times_print_as_iso_8601() {
    let rows = [
        (0, 0, 0, "1970-01-01T00:00:00.000000000Z"),
        (951_827_696, 1, 3600, "2000-02-29T13:34:56.000000001+01:00"),
        (
            951_827_696,
            999_999_999,
            -12_600,
            "2000-02-29T09:04:56.999999999-03:30",
        ),
        (-62_167_219_200, 0, 1, "0-01-01T00:00:01.000000000+00:00:01"),
        (-62_167_219_201, 0, 0, "-1-12-31T23:59:59.000000000Z"),
        (
            253_402_300_800,
            0,
            360_000,
            "10000-01-05T04:00:00.000000000+100:00",
        ),
    ];
    for (unix_time, nanoseconds, ut_offset, text) in rows {
        let local_time_type = LocalTimeType::with_ut_offset(ut_offset).unwrap();
        let date_time = DateTime::from_timespec_and_local(unix_time, nanoseconds, local_time_type);
        let date_time = date_time.unwrap();
        assert_eq!(date_time.to_string(), text);
        // A width plays no part.
        assert_eq!(format!("{date_time:>60.3}"), text);
        if ut_offset == 0 {
            assert_eq!(UtcDateTime::try_from(date_time).unwrap().to_string(), text);
        }
    }
    assert_eq!(
        UtcDateTime::MIN.to_string(),
        "-2147483648-01-01T00:00:00.000000000Z"
    );
    assert_eq!(
        UtcDateTime::MAX.to_string(),
        "2147483647-12-31T23:59:59.999999999Z"
    );
}

#[test]
fn errors_say_what_is_wrong() {
    let text_of = |setting: &str| zone_of(setting).unwrap_err().to_string();
    assert_eq!(text_of(""), "invalid TZ string: empty TZ string");
    assert_eq!(
        text_of("Nowhere/Atlantis"),
        "invalid TZ string: cannot parse integer from empty string"
    );
    assert_eq!(text_of(":Nowhere/Atlantis"), "file was not found");
    assert_eq!(
        text_of("AAA99999999999"),
        "invalid TZ string: number too large to fit in target type"
    );
    assert_eq!(text_of("AAA25"), "invalid TZ string: invalid offset hour");
    assert_eq!(
        text_of("<+A_B>1"),
        "invalid local time type: invalid characters in time zone designation"
    );
    assert_eq!(
        text_of("AAA1BBB,M13.1.0,J1"),
        "invalid transition rule: invalid rule day month"
    );
    assert_eq!(
        text_of("AAA1BBB"),
        "invalid TZ string: missing DST start and end rules"
    );
    assert_eq!(
        text_of("AAA1BBB,J1"),
        "invalid TZ string: unexpected end of data"
    );
    let utc = TimeZoneRef::utc();
    assert_eq!(
        DateTime::find(0, 0, 1, 0, 0, 0, 0, utc)
            .unwrap_err()
            .to_string(),
        "invalid date time: invalid month"
    );
    assert_eq!(
        UtcDateTime::from_timespec(i64::MAX, 0)
            .unwrap_err()
            .to_string(),
        "out of range operation"
    );
    assert_eq!(
        TimeZone::from_tz_data(b"TZif5").unwrap_err().to_string(),
        "invalid TZ file: unsupported TZ file version"
    );
    let transitions = [Transition::new(0, 0)];
    let types = [LocalTimeType::utc()];
    let zone = TimeZoneRef::new(&transitions, &types, &[], &None).unwrap();
    assert_eq!(
        zone.find_local_time_type(0).unwrap_err().to_string(),
        "no local time type is available for the specified timestamp"
    );
}
