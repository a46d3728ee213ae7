//! Patterns: what each conversion prints, which texts are patterns, and what is read; and local
//! times as people write them.
#![cfg(feature = "alloc")]

use tz::format::{
    LenientDateTime, LenientDateTimeError, Pattern, PatternError, ReadPatternError, UtcPattern,
};
use tz::{DateTime, LocalTimeType, UtcDateTime, pattern};

/// What a pattern prints of a date time of UTC.
fn printed(utc: UtcDateTime, text: &str) -> String {
    utc.format(Pattern::new(text).unwrap()).to_string()
}

fn utc(year: i32, month: u8, day: u8, hour: u8, minute: u8, second: u8) -> UtcDateTime {
    UtcDateTime::new(year, month, day, hour, minute, second, 0).unwrap()
}

/// What a pattern prints with an offset and a name.
fn printed_at(offset: i32, name: Option<&[u8]>, text: &str) -> String {
    let local_time_type = LocalTimeType::new(offset, false, name).unwrap();
    let date_time =
        DateTime::from_timespec_and_local(973_224_367, 89_012_345, local_time_type).unwrap();
    date_time.format(Pattern::new(text).unwrap()).to_string()
}

/// The conversions that glibc has too, but that of the year.
const CONVERSIONS: &str =
    "%y %m %B %b %h %d %e %j %H %k %I %p %M %S %A %a %u %w %V %G %g %U %W %D %T %R";

type Row = ((i32, u8, u8, u8, u8, u8), &'static str);

/// What glibc 2.36 prints by these conversions, in the locale of C.
#[rustfmt::skip]
const ROWS: [Row; 10] = [
    ((2000, 11, 3, 5, 6, 7), "00 11 November Nov Nov 03  3 308 05  5 05 AM 06 07 Friday Fri 5 5 44 2000 00 44 44 11/03/00 05:06:07 05:06"),
    ((1999, 12, 31, 23, 59, 59), "99 12 December Dec Dec 31 31 365 23 23 11 PM 59 59 Friday Fri 5 5 52 1999 99 52 52 12/31/99 23:59:59 23:59"),
    ((2024, 2, 29, 0, 0, 0), "24 02 February Feb Feb 29 29 060 00  0 12 AM 00 00 Thursday Thu 4 4 09 2024 24 08 09 02/29/24 00:00:00 00:00"),
    ((2021, 1, 3, 12, 0, 0), "21 01 January Jan Jan 03  3 003 12 12 12 PM 00 00 Sunday Sun 7 0 53 2020 20 01 00 01/03/21 12:00:00 12:00"),
    ((2027, 1, 1, 12, 30, 1), "27 01 January Jan Jan 01  1 001 12 12 12 PM 30 01 Friday Fri 5 5 53 2026 26 00 00 01/01/27 12:30:01 12:30"),
    ((2008, 12, 29, 13, 4, 60), "08 12 December Dec Dec 29 29 364 13 13 01 PM 04 60 Monday Mon 1 1 01 2009 09 52 52 12/29/08 13:04:60 13:04"),
    ((1970, 1, 1, 0, 0, 0), "70 01 January Jan Jan 01  1 001 00  0 12 AM 00 00 Thursday Thu 4 4 01 1970 70 00 00 01/01/70 00:00:00 00:00"),
    ((2020, 12, 31, 11, 59, 59), "20 12 December Dec Dec 31 31 366 11 11 11 AM 59 59 Thursday Thu 4 4 53 2020 20 52 52 12/31/20 11:59:59 11:59"),
    ((1000, 1, 1, 1, 1, 1), "00 01 January Jan Jan 01  1 001 01  1 01 AM 01 01 Wednesday Wed 3 3 01 1000 00 00 00 01/01/00 01:01:01 01:01"),
    ((9999, 12, 31, 23, 59, 59), "99 12 December Dec Dec 31 31 365 23 23 11 PM 59 59 Friday Fri 5 5 52 9999 99 52 52 12/31/99 23:59:59 23:59"),
];

#[test]
fn conversions_print_what_glibc_prints() {
    for ((year, month, day, hour, minute, second), expected) in ROWS {
        let date_time = utc(year, month, day, hour, minute, second);
        let texts: Vec<_> = CONVERSIONS
            .split(' ')
            .map(|conversion| printed(date_time, conversion))
            .collect();
        assert_eq!(texts.join(" "), expected, "{date_time}");
    }
}

#[test]
fn years_have_four_digits_or_more() {
    let rows = [
        (i32::MIN, "-2147483648", "52"),
        (-10_000, "-10000", "00"),
        (-5, "-0005", "95"),
        (-1, "-0001", "99"),
        (0, "0000", "00"),
        (5, "0005", "05"),
        (637, "0637", "37"),
        (9999, "9999", "99"),
        (10_000, "10000", "00"),
        (i32::MAX, "2147483647", "47"),
    ];
    for (year, text, century) in rows {
        let date_time = utc(year, 7, 1, 0, 0, 0);
        assert_eq!(printed(date_time, "%Y %G"), format!("{text} {text}"));
        assert_eq!(printed(date_time, "%y %g"), format!("{century} {century}"));
        assert_eq!(printed(date_time, "%F"), format!("{text}-07-01"));
        assert_eq!(printed(date_time, "%D"), format!("07/01/{century}"));
    }
    // The first day and the last are Tuesdays: the last is in week 1 of a year past the end.
    assert_eq!(
        printed(UtcDateTime::MIN, "%a %G-W%V %j %U %W"),
        "Tue -2147483648-W01 001 00 00"
    );
    assert_eq!(
        printed(UtcDateTime::MAX, "%a %G-W%V %j"),
        "Tue 2147483648-W01 365"
    );
}

/// The days of a year before one of its months, or of all its months.
fn days_before(year: i64, month: i64) -> i64 {
    let is_leap = year % 4 == 0 && (year % 100 != 0 || year % 400 == 0);
    let days = |month| match month {
        2 => 28 + i64::from(is_leap),
        4 | 6 | 9 | 11 => 30,
        _ => 31,
    };
    (1..month).map(days).sum()
}

/// The days from 1970-01-01 to January 1st of a year, counted year by year in the 400 years around it.
fn first_day(year: i64) -> i64 {
    let cycles = (year - 1970).div_euclid(400);
    let years = 1970 + 400 * cycles..year;
    146_097 * cycles + years.map(|year| days_before(year, 13)).sum::<i64>()
}

/// A year's week day, from Sunday on, of a day after January 1st. 1970 began on a Thursday.
fn week_day(year: i64, year_day: i64) -> i64 {
    (first_day(year) + year_day + 4).rem_euclid(7)
}

/// How many weeks of ISO 8601 a year has: 53 if it begins or ends on a Thursday.
fn weeks(year: i64) -> i64 {
    let last = days_before(year, 13) - 1;
    52 + i64::from(week_day(year, 0) == 4 || week_day(year, last) == 4)
}

/// What each conversion prints of a date at 13:04:09.012345678, by plain arithmetic.
fn plain_texts(
    year: i64,
    month: i64,
    month_day: i64,
    offset: i64,
    name: &str,
) -> Vec<(&'static str, String)> {
    let year_text = |year: i64| match year {
        0.. => format!("{year:04}"),
        _ => format!("-{:04}", -year),
    };
    let months =
        "January February March April May June July August September October November December";
    let days = "Sunday Monday Tuesday Wednesday Thursday Friday Saturday";
    let year_day = days_before(year, month) + month_day - 1;
    let day = week_day(year, year_day);
    let from_monday = (day + 6) % 7 + 1;
    let (month_name, day_name) = (
        months.split(' ').nth(month as usize - 1).unwrap(),
        days.split(' ').nth(day as usize).unwrap(),
    );
    let (week_year, week) = match (year_day + 11 - from_monday) / 7 {
        0 => (year - 1, weeks(year - 1)),
        53 if weeks(year) == 52 => (year + 1, 1),
        week => (year, week),
    };
    // A week begins on each of these days, and the days before the first are in week 0.
    let january_1st = week_day(year, 0);
    let weeks_from = |first| {
        (0..=year_day)
            .filter(|day| (january_1st + day) % 7 == first)
            .count()
    };
    let century = format!("{:02}", year.rem_euclid(100));
    let (hours, minutes) = (offset.abs() / 3600, offset.abs() / 60 % 60);
    let sign = if offset < 0 { '-' } else { '+' };
    let with_colon = format!("{sign}{hours:02}:{minutes:02}");
    let unix_time = (first_day(year) + year_day) * 86_400 + 47_049 - offset;
    vec![
        ("%Y", year_text(year)),
        ("%y", century.clone()),
        ("%G", year_text(week_year)),
        ("%g", format!("{:02}", week_year.rem_euclid(100))),
        ("%m", format!("{month:02}")),
        ("%B", month_name.to_string()),
        ("%b", month_name[..3].to_string()),
        ("%h", month_name[..3].to_string()),
        ("%d", format!("{month_day:02}")),
        ("%e", format!("{month_day:2}")),
        ("%j", format!("{:03}", year_day + 1)),
        ("%H", "13".to_string()),
        ("%k", "13".to_string()),
        ("%I", "01".to_string()),
        ("%p", "PM".to_string()),
        ("%M", "04".to_string()),
        ("%S", "09".to_string()),
        ("%A", day_name.to_string()),
        ("%a", day_name[..3].to_string()),
        ("%u", from_monday.to_string()),
        ("%w", day.to_string()),
        ("%V", format!("{week:02}")),
        ("%U", format!("{:02}", weeks_from(0))),
        ("%W", format!("{:02}", weeks_from(1))),
        ("%s", unix_time.to_string()),
        ("%z", format!("{sign}{hours:02}{minutes:02}")),
        ("%:z", with_colon.clone()),
        (
            "%Z",
            if name.is_empty() {
                with_colon
            } else {
                name.to_string()
            },
        ),
        (
            "%F",
            format!("{}-{month:02}-{month_day:02}", year_text(year)),
        ),
        ("%D", format!("{month:02}/{month_day:02}/{century}")),
        ("%T", "13:04:09".to_string()),
        ("%H:%M:%S", "13:04:09".to_string()),
        ("%R", "13:04".to_string()),
        ("%3f", "012".to_string()),
        ("%6f", "012345".to_string()),
        ("%9f", "012345678".to_string()),
        ("%.3f", ".012".to_string()),
        ("%.6f", ".012345".to_string()),
        ("%.9f", ".012345678".to_string()),
        ("%n%t%%", "\n\t%".to_string()),
    ]
}

#[test]
fn each_conversion_prints_years_at_both_ends() {
    let years = [
        i32::MIN,
        i32::MIN + 1,
        -10_000,
        -9999,
        -1000,
        -999,
        -5,
        -1,
        0,
        5,
        999,
        1000,
        1970,
        2000,
        9999,
        10_000,
        i32::MAX - 1,
        i32::MAX,
    ];
    let dates = [
        (1, 1),
        (1, 2),
        (1, 3),
        (1, 4),
        (2, 28),
        (3, 1),
        (9, 30),
        (12, 29),
        (12, 30),
        (12, 31),
    ];
    let types = [(20_700, "+0545"), (-89_999, ""), (i32::MAX, "")];
    let check = |date: (i32, u8, u8), offset, name, print: &dyn Fn(Pattern<'_>) -> String| {
        let (year, month, month_day) = (i64::from(date.0), i64::from(date.1), i64::from(date.2));
        for (conversion, text) in plain_texts(year, month, month_day, offset, name) {
            let printed = print(Pattern::new(conversion).unwrap());
            assert_eq!(printed, text, "{conversion} of {date:?}");
        }
    };
    for year in years {
        for (month, day) in dates {
            let utc = UtcDateTime::new(year, month, day, 13, 4, 9, 12_345_678).unwrap();
            check((year, month, day), 0, "UTC", &|pattern| {
                utc.format(pattern).to_string()
            });
            for (offset, name) in types {
                let designation = (!name.is_empty()).then_some(name.as_bytes());
                let local_time_type = LocalTimeType::new(offset, true, designation).unwrap();
                let date_time =
                    DateTime::new(year, month, day, 13, 4, 9, 12_345_678, local_time_type);
                match date_time {
                    Ok(it) => check((year, month, day), i64::from(offset), name, &|pattern| {
                        it.format(pattern).to_string()
                    }),
                    // Its year in UTC is none of 32 bits.
                    Err(_) => assert!(year <= i32::MIN + 69 || year >= i32::MAX - 69),
                }
            }
        }
    }
}

#[test]
fn fractions_are_cut() {
    let texts = [
        ("%3f", "999"),
        ("%6f", "999999"),
        ("%9f", "999999999"),
        ("%.3f", ".999"),
        ("%.6f", ".999999"),
        ("%.9f", ".999999999"),
    ];
    for (text, expected) in texts {
        assert_eq!(printed(UtcDateTime::MAX, text), expected);
    }
    let early = UtcDateTime::new(2000, 1, 1, 0, 0, 0, 1_002_003).unwrap();
    assert_eq!(
        printed(early, "%3f %6f %9f %.3f %.6f %.9f"),
        "001 001002 001002003 .001 .001002 .001002003"
    );
}

#[test]
fn offsets_lose_their_seconds() {
    let rows = [
        (0, "+0000", "+00:00"),
        (3600, "+0100", "+01:00"),
        (-25_200, "-0700", "-07:00"),
        (-59, "-0000", "-00:00"),
        (59, "+0000", "+00:00"),
        (3599, "+0059", "+00:59"),
        (89_999, "+2459", "+24:59"),
        (-89_999, "-2459", "-24:59"),
        (360_000, "+10000", "+100:00"),
        (i32::MAX, "+59652314", "+596523:14"),
        (-i32::MAX, "-59652314", "-596523:14"),
    ];
    for (offset, text, with_colon) in rows {
        assert_eq!(printed_at(offset, None, "%z"), text);
        assert_eq!(printed_at(offset, None, "%:z"), with_colon);
        assert_eq!(printed_at(offset, None, "%Z"), with_colon);
        assert_eq!(printed_at(offset, Some(b"ABC"), "%Z"), "ABC");
    }
    assert_eq!(printed_at(0, Some(b"AB+CD-E"), "<%Z>"), "<AB+CD-E>");
    assert_eq!(
        printed(UtcDateTime::UNIX_EPOCH, "%Z %z %:z"),
        "UTC +0000 +00:00"
    );
}

#[test]
fn unix_times_are_signed() {
    assert_eq!(printed(UtcDateTime::MIN, "%s"), "-67768100567971200");
    assert_eq!(printed(utc(1969, 12, 31, 23, 59, 59), "%s"), "-1");
    assert_eq!(printed(UtcDateTime::UNIX_EPOCH, "%s"), "0");
    assert_eq!(printed(UtcDateTime::MAX, "%s"), "67767976233532799");
    // The clock's offset plays no part.
    assert_eq!(printed_at(3600, None, "%s"), "973224367");
}

#[test]
fn other_characters_stand_for_themselves() {
    let date_time = utc(2000, 11, 3, 5, 6, 7);
    assert_eq!(printed(date_time, ""), "");
    assert_eq!(printed(date_time, "%Y年%m月%d日"), "2000年11月03日");
    assert_eq!(printed(date_time, "é%%è%n%tß\0"), "é%è\n\tß\0");
    assert_eq!(printed(date_time, "le %d à %Hh%M, 🕔"), "le 03 à 05h06, 🕔");
}

#[test]
fn constants_print_the_examples_of_their_standards() {
    let local_time_type = LocalTimeType::with_ut_offset(-21_600).unwrap();
    let sent = DateTime::from_timespec_and_local(880_127_706, 0, local_time_type).unwrap();
    // RFC 2822, appendix A.1.1.
    assert_eq!(
        sent.format(Pattern::RFC_2822).to_string(),
        "Fri, 21 Nov 1997 09:55:06 -0600"
    );
    // RFC 9110, section 5.6.7.
    let http = utc(1994, 11, 6, 8, 49, 37);
    assert_eq!(
        http.format(UtcPattern::HTTP_DATE).to_string(),
        "Sun, 06 Nov 1994 08:49:37 GMT"
    );
    // Apache's page on log files.
    let local_time_type = LocalTimeType::with_ut_offset(-25_200).unwrap();
    let logged = DateTime::from_timespec_and_local(971_211_336, 0, local_time_type).unwrap();
    assert_eq!(
        logged.format(Pattern::COMMON_LOG).to_string(),
        "10/Oct/2000:13:55:36 -0700"
    );
    // RFC 3339, section 5.8.
    let local_time_type = LocalTimeType::with_ut_offset(1200).unwrap();
    let noon = DateTime::new(1937, 1, 1, 12, 0, 27, 870_000_000, local_time_type).unwrap();
    assert_eq!(
        noon.format(Pattern::RFC_3339_MILLIS).to_string(),
        "1937-01-01T12:00:27.870+00:20"
    );
    let constants = [
        Pattern::RFC_2822,
        Pattern::RFC_3339_MILLIS,
        Pattern::COMMON_LOG,
        UtcPattern::HTTP_DATE.pattern(),
    ];
    for constant in constants {
        assert_eq!(Pattern::new(constant.as_str()), Ok(constant));
    }
}

#[test]
fn a_pattern_prints_what_display_does() {
    const LIKE_DISPLAY: Pattern<'static> = pattern!("%Y-%m-%dT%H:%M:%S%.9f%:z");
    for unix_time in (-93_000_000_000..250_000_000_000).step_by(1_234_567_891) {
        for offset in [3600, -25_200, 89_940] {
            let local_time_type = LocalTimeType::with_ut_offset(offset).unwrap();
            let date_time =
                DateTime::from_timespec_and_local(unix_time, 5_000, local_time_type).unwrap();
            if date_time.year() >= 1000 || date_time.year() <= -1000 {
                assert_eq!(
                    date_time.format(LIKE_DISPLAY).to_string(),
                    date_time.to_string()
                );
            }
        }
    }
}

#[test]
fn texts_are_refused_at_their_first_unknown_conversion() {
    let rows = [
        ("%", 0),
        ("%Q", 0),
        ("%Y%", 2),
        ("%Y %m %Q %J", 6),
        ("%3", 0),
        ("%.3", 0),
        ("%3d", 0),
        ("%.f", 0),
        ("%.4f", 0),
        ("%4f", 0),
        ("%f", 0),
        ("%:", 0),
        ("%:Z", 0),
        ("%::z", 0),
        ("%E", 0),
        ("%-d", 0),
        ("%C", 0),
        ("%\0", 0),
        ("%é", 0),
        ("日%Q", 3),
        ("%%%", 2),
    ];
    for (text, position) in rows {
        assert_eq!(
            Pattern::new(text),
            Err(PatternError::UnknownConversion { position }),
            "{text}"
        );
    }
    assert_eq!(
        Pattern::new("%Q").unwrap_err().to_string(),
        "no conversion begins at byte 0"
    );
    for byte in 0..128_u8 {
        let text = format!("%{}", char::from(byte));
        let known = b"YyGgmBbhdejHkIpMSAauwVUWszZFDTRnt%".contains(&byte);
        assert_eq!(Pattern::new(&text).is_ok(), known, "{text}");
    }
}

#[test]
fn a_pattern_prints_128_bytes_at_most() {
    // The widest text of each conversion, which a Wednesday in September of the first years has.
    let local_time_type = LocalTimeType::with_ut_offset(-i32::MAX).unwrap();
    let wide = DateTime::new(-2_147_483_600, 9, 20, 12, 0, 0, 0, local_time_type).unwrap();
    assert_eq!(wide.week_day(), 3, "{wide}");
    for conversion in "Y y G g m B b h d e j H k I p M S A a u w V U W s z Z F D T R n t % :z 3f 6f 9f .3f .6f .9f".split(' ') {
        let text = format!("%{conversion}");
        let pattern = Pattern::new(&text).unwrap();
        assert_eq!(wide.format(pattern).to_string().len(), pattern.max_len(), "{text}");
    }
    for (text, len) in [
        ("%A".repeat(14) + "ab", 128),
        ("a".repeat(128), 128),
        ("%Y".repeat(11) + "%w%w%w%w%w%w%w", 128),
    ] {
        assert_eq!(Pattern::new(&text).map(|it| it.max_len()), Ok(len));
        let longer = text.clone() + "x";
        assert_eq!(Pattern::new(&longer), Err(PatternError::TooLong));
        // An unknown conversion is named before the length.
        let unknown = longer.clone() + "%Q";
        assert_eq!(
            Pattern::new(&unknown),
            Err(PatternError::UnknownConversion {
                position: longer.len()
            })
        );
    }
    assert_eq!(
        PatternError::TooLong.to_string(),
        "a pattern that prints more than 128 bytes"
    );
}

#[test]
fn widths_of_formats_play_no_part() {
    let date_time = utc(2000, 1, 2, 3, 4, 5);
    assert_eq!(
        format!("<{:>30}>", date_time.format(pattern!("%F"))),
        "<2000-01-02>"
    );
}

/// The local time and the offset that a pattern reads of a text.
fn read(pattern: Pattern<'_>, text: &[u8]) -> Result<(String, Option<i32>), ReadPatternError> {
    let read = pattern.read(text)?;
    Ok((read.local().to_string(), read.ut_offset()))
}

#[test]
fn constants_read_what_they_print() {
    let http_date = UtcPattern::HTTP_DATE.pattern();
    let dates = pattern!("%Y%m%d");
    let spaced = pattern!("%a %e %b %Y %k:%M:%S,%3f");
    let weeks = pattern!("%u %w %V %U %W %d.%m.%Y");
    let rows = [
        (
            Pattern::COMMON_LOG,
            "10/Oct/2000:13:55:36 -0700",
            "2000-10-10T13:55:36.000000000Z",
            Some(-25_200),
        ),
        (
            Pattern::COMMON_LOG,
            "29/Feb/0000:23:59:60 +9959",
            "0-02-29T23:59:60.000000000Z",
            Some(359_940),
        ),
        (
            Pattern::COMMON_LOG,
            "31/Dec/9999:00:00:00 -9959",
            "9999-12-31T00:00:00.000000000Z",
            Some(-359_940),
        ),
        (
            Pattern::RFC_2822,
            "Fri, 21 Nov 1997 09:55:06 -0600",
            "1997-11-21T09:55:06.000000000Z",
            Some(-21_600),
        ),
        (
            Pattern::RFC_3339_MILLIS,
            "2000-11-03T05:06:07.089+01:00",
            "2000-11-03T05:06:07.089000000Z",
            Some(3600),
        ),
        (
            http_date,
            "Sun, 06 Nov 1994 08:49:37 GMT",
            "1994-11-06T08:49:37.000000000Z",
            None,
        ),
        (dates, "20001103", "2000-11-03T00:00:00.000000000Z", None),
        (
            spaced,
            "Fri  3 Nov 2000  5:06:07,089",
            "2000-11-03T05:06:07.089000000Z",
            None,
        ),
        (
            weeks,
            "5 5 44 44 44 03.11.2000",
            "2000-11-03T00:00:00.000000000Z",
            None,
        ),
        (
            pattern!("%F %T%.9f"),
            "0000-02-29 23:59:60.123456789",
            "0-02-29T23:59:60.123456789Z",
            None,
        ),
        (
            pattern!("%A, %e %B %Y, %I:%M %p"),
            "Wednesday, 20 September 2000, 12:34 AM",
            "2000-09-20T00:34:00.000000000Z",
            None,
        ),
        (
            pattern!("%p%I %Y-%j %B %d"),
            "PM12 2000-061 March 01",
            "2000-03-01T12:00:00.000000000Z",
            None,
        ),
        (
            pattern!("%D is %d.%m.%Y, %R:%S.%6f"),
            "12/31/99 is 31.12.1999, 23:59:59.000001",
            "1999-12-31T23:59:59.000001000Z",
            None,
        ),
        (
            pattern!("%6f %F %g %y"),
            "999999 2008-12-29 09 08",
            "2008-12-29T00:00:00.999999000Z",
            None,
        ),
        (
            pattern!("%F%9f%:z"),
            "9999-12-31000000001-00:01",
            "9999-12-31T00:00:00.000000001Z",
            Some(-60),
        ),
    ];
    for (pattern, text, local, offset) in rows {
        assert_eq!(
            read(pattern, text.as_bytes()),
            Ok((local.to_string(), offset)),
            "{text}"
        );
    }
}

#[test]
fn each_name_is_read() {
    let dates = pattern!("%B %b %h %A %a %d %Y");
    for month in 1..=12 {
        for day in 1..=7 {
            let date = utc(2026, month, day, 0, 0, 0);
            let text = date.format(dates).to_string();
            assert_eq!(
                dates.read(text.as_bytes()).map(|read| read.local()),
                Ok(date),
                "{text}"
            );
        }
    }
}

#[test]
fn each_hour_is_read() {
    for hours in [
        pattern!("%F %H"),
        pattern!("%F %k"),
        pattern!("%F %I%p"),
        pattern!("%F %p%I"),
        pattern!("%F %H %I"),
    ] {
        for hour in 0..24 {
            let date = utc(2026, 11, 30, hour, 0, 0);
            let text = date.format(hours).to_string();
            assert_eq!(
                hours.read(text.as_bytes()).map(|read| read.local()),
                Ok(date),
                "{text}"
            );
        }
    }
}

/// Where a text differs from what the pattern prints of a date time near to it.
fn position(pattern: Pattern<'_>, text: &[u8]) -> usize {
    match pattern.read(text) {
        Err(ReadPatternError::Mismatch { position }) => position,
        read => panic!("{read:?}"),
    }
}

#[test]
fn other_texts_are_not_read() {
    let rows = [
        ("", 0),
        ("10/Oct/2000:13:55:36", 20),
        ("10/Oct/2000:13:55:36 -0000", 21),
        ("10/oct/2000:13:55:36 -0700", 3),
        ("10/Okt/2000:13:55:36 -0700", 4),
        ("3/Nov/2000:13:55:36 -0700", 1),
        ("00/Oct/2000:13:55:36 -0700", 1),
        ("32/Oct/2000:13:55:36 -0700", 1),
        ("1x/Oct/2000:13:55:36 -0700", 1),
        ("29/Feb/2001:13:55:36 -0700", 1),
        ("10/Oct/20000:13:55:36 -0700", 11),
        ("10/Oct/-001:13:55:36 -0700", 7),
        ("10/Oct/2000:24:00:00 -0700", 13),
        ("10/Oct/2000:13:60:00 -0700", 15),
        ("10/Oct/2000:13:59:61 -0700", 19),
        ("10/Oct/2000:13:55:36 -0760", 23),
        ("10/Oct/2000:13:55:36 *0700", 21),
        ("10/Oct/2000:13:55:36 -070", 25),
        ("10/Oct/2000:13:55:36 -07000", 26),
        ("10/Oct/2000:13:55:36 Z", 21),
        ("٠١/Oct/2000:13:55:36 -0700", 0),
        ("10/Oct/2000:13:55:36 \0\0\0\0\0", 21),
    ];
    for (text, expected) in rows {
        assert_eq!(
            position(Pattern::COMMON_LOG, text.as_bytes()),
            expected,
            "{text}"
        );
    }
    let long = "1".repeat(10_000_000);
    assert_eq!(position(Pattern::COMMON_LOG, long.as_bytes()), 2);
    // A Friday is no Saturday, and this day no Wednesday.
    let mail = Pattern::RFC_2822;
    assert_eq!(position(mail, b"Sat, 21 Nov 1997 09:55:06 -0600"), 0);
    let rows = [
        (pattern!("%Y-%m-%d"), "2001-02-29", 9),
        (pattern!("%Y-%m-%d"), "2001-13-01", 6),
        (pattern!("%F %A"), "2000-09-20 Monday", 11),
        (pattern!("%F %A"), "2000-09-20 Wednesdai", 19),
        (pattern!("%d %B %Y"), "1 March 2000", 1),
        (pattern!("%e %b %Y"), "3 Nov 2000", 1),
        (pattern!("%d %B %Y"), "01 Marsh 2000", 6),
        (pattern!("%F %I %p"), "2000-09-20 00 AM", 11),
        (pattern!("%F %I %p"), "2000-09-20 13 PM", 11),
        (pattern!("%F %I %p"), "2000-09-20 12 am", 14),
        (pattern!("%F %j"), "2001-03-01 061", 13),
        (pattern!("%F %y"), "2001-03-01 02", 12),
        (pattern!("%F %g"), "2008-12-29 08", 12),
        (pattern!("%F %d"), "2008-12-29 28", 9),
        (pattern!("%F%.6f"), "2008-12-29.12345", 16),
        // Months and days of the month begin at 1.
        (pattern!("%T"), "12:34:56", 8),
    ];
    for (pattern, text, expected) in rows {
        assert_eq!(position(pattern, text.as_bytes()), expected, "{text}");
    }
    assert_eq!(
        pattern!("%F").read(b"2001-02-29").unwrap_err().to_string(),
        "the pattern prints no text that has these bytes after the first 9"
    );
}

#[test]
fn parts_are_not_shown_by_halves() {
    let unreadable = [
        "%Y-%m-%d %G",
        "%Y-%m-%d %s",
        "%Y-%m-%d %Z",
        "%F %I",
        "%F %p",
        "%I:%M",
        "%m %d %y",
        "%D",
        "%D %I%p",
        "%H %j",
        "%Y %j",
        "%m-%d %j",
        "%Y %m %j",
        "%Y %d %j",
        "%Y %g",
        "%m %d %g",
    ];
    for text in unreadable {
        let read = Pattern::new(text).unwrap().read(b"2000-01-01 2000");
        assert_eq!(read.err(), Some(ReadPatternError::NotReadable), "{text}");
    }
    let readable = [
        "%F %H %I",
        "%F %p %k",
        "%F %T %p",
        "%I %R",
        "%Y %D",
        "%F %j %g %y",
        "%H",
    ];
    for text in readable {
        position(Pattern::new(text).unwrap(), b"");
    }
    assert_eq!(
        ReadPatternError::NotReadable.to_string(),
        "the pattern has a conversion that is not read"
    );
}

/// Patterns whose texts are altered.
const ALTERED: [(Pattern<'static>, &str); 4] = [
    (Pattern::RFC_3339_MILLIS, "2000-11-03T05:06:07.089+01:00"),
    (Pattern::RFC_2822, "Fri, 21 Nov 1997 09:55:06 -0600"),
    (
        pattern!("%D %e %B %Y%m%d %A %I%p %9f%:z"),
        "09/06/00  6 September 20000906 Wednesday 12PM 123456789+00:00",
    ),
    (
        pattern!("%F %R %j %V%U%W%u%w%g%y%S%n%t%%%z"),
        "2000-11-03 23:59 308 44444455000060\n\t%-9959",
    ),
];

/// A text that is read prints as it stands: whatever one byte of it is, and with a byte less or more.
#[test]
fn what_is_read_is_printed_again() {
    for (pattern, text) in ALTERED {
        assert!(pattern.read(text.as_bytes()).is_ok(), "{text}");
        let text = text.as_bytes();
        for position in 0..text.len() {
            for byte in 0..=255 {
                let mut altered = text.to_vec();
                altered[position] = byte;
                if let Ok(read) = pattern.read(&altered) {
                    let offset = read.ut_offset().unwrap();
                    let local_time_type = LocalTimeType::new(offset, false, None).unwrap();
                    let local = read.local();
                    let date_time = DateTime::new(
                        local.year(),
                        local.month(),
                        local.month_day(),
                        local.hour(),
                        local.minute(),
                        local.second(),
                        local.nanoseconds(),
                        local_time_type,
                    )
                    .unwrap();
                    assert_eq!(date_time.format(pattern).to_string().as_bytes(), altered);
                }
            }
            let mut less = text.to_vec();
            less.remove(position);
            assert!(pattern.read(&less).is_err());
            let mut more = text.to_vec();
            more.insert(position, b'0');
            // A zero before the nine digits of a fraction would shift them.
            assert!(pattern.read(&more).is_err());
        }
    }
}

/// Each pattern reads what it prints, of years from 0 to 9999, as its fields.
#[test]
fn what_is_printed_is_read() {
    let whole =
        "%F %T%.9f %A %a %B %b %h %d %e %H %k %I %p %j %y %g %D %R %V %U %W %u %w %6f %3f %m";
    let whole = Pattern::new(whole);
    assert_eq!(whole, Err(PatternError::TooLong));
    for text in [
        "%F %T%.9f %A %a %B %b %h %d %e %H %k %I %p %j %y %g %D %R",
        "%Y%m%d%H%M%S%9f%z%V%U%W%u%w",
        "%.6f %.3f %9f %p %I %M %S %e %b %Y %:z",
    ] {
        let pattern = Pattern::new(text).unwrap();
        for days in (-719_528_i64..2_932_897).step_by(9_973) {
            for (seconds, nanoseconds) in [(0, 0), (43_199, 999_999_999), (86_399, 1_002_003)] {
                let local =
                    UtcDateTime::from_timespec(days * 86_400 + seconds, nanoseconds).unwrap();
                let printed = local.format(pattern).to_string();
                assert_eq!(
                    pattern.read(printed.as_bytes()).map(|read| read.local()),
                    Ok(local),
                    "{printed}"
                );
            }
        }
    }
}

#[test]
fn parts_of_local_times_may_be_left_out() {
    let midnight = "2000-11-03T00:00:00.000000000Z";
    let minute = "2000-11-03T05:06:00.000000000Z";
    let paris = Some("Europe/Paris");
    let rows = [
        ("2000-11-03", midnight, None, None),
        ("2000-11-03[Europe/Paris]", midnight, None, paris),
        ("2000-11-03T05:06", minute, None, None),
        ("2000-11-03 05:06Z", minute, Some(0), None),
        ("2000-11-03t05:06+01:00", minute, Some(3600), None),
        (
            "2000-11-03T05:06-01:00[Etc/GMT+1]",
            minute,
            Some(-3600),
            Some("Etc/GMT+1"),
        ),
        (
            "2000-11-03T05:06:07,089",
            "2000-11-03T05:06:07.089000000Z",
            None,
            None,
        ),
        (
            "2000-11-03T05:06:07.5+01:00[Europe/Paris]",
            "2000-11-03T05:06:07.500000000Z",
            Some(3600),
            paris,
        ),
        (
            "-0001-11-03T05:06",
            "-1-11-03T05:06:00.000000000Z",
            None,
            None,
        ),
    ];
    for (text, local, offset, name) in rows {
        let read = LenientDateTime::parse(text.as_bytes()).unwrap();
        assert_eq!(read.date_time().local().to_string(), local, "{text}");
        assert_eq!(read.date_time().ut_offset(), offset, "{text}");
        assert_eq!(read.zone_name(), name.map(str::as_bytes), "{text}");
    }
}

#[test]
fn other_local_times_are_refused() {
    let texts = [
        "",
        "2000-11",
        "2000-11-03T",
        "2000-11-03T05",
        "2000-11-03T05:6",
        "2000-11-03T05:06.5",
        "2000-11-03T05:06,5",
        "2000-11-03T05:06:07,",
        "2000-11-03T05:06:7,5",
        "2000-11-03Z",
        "2000-11-31",
        "2000-11-03T05:60",
        "2000-11-03T05:06x",
        "[Europe/Paris]",
    ];
    for text in texts {
        let error = LenientDateTime::parse(text.as_bytes()).err();
        assert!(
            matches!(error, Some(LenientDateTimeError::DateTime(_))),
            "{text}: {error:?}"
        );
    }
    for suffix in [
        "[",
        "[]",
        "[Europe/Paris",
        "[Europe/Paris]x",
        "[!Europe/Paris]",
        "[u-ca=hebrew]",
        "[+01:00]",
        "[[a]]",
    ] {
        let text = format!("2000-11-03{suffix}");
        let error = LenientDateTime::parse(text.as_bytes()).err();
        assert_eq!(error, Some(LenientDateTimeError::ZoneName), "{text}");
    }
    // A short form has 119 bytes at most; the strict form has any number.
    for (zeros, is_read) in [(112, true), (113, false)] {
        let text = format!("{}1-11-03", "0".repeat(zeros));
        assert_eq!(LenientDateTime::parse(text.as_bytes()).is_ok(), is_read);
        let strict = format!("{text}T00:00:00");
        assert!(LenientDateTime::parse(strict.as_bytes()).is_ok());
    }
}

#[test]
fn an_offset_and_a_zone_may_disagree() {
    let paris = LocalTimeType::new(3600, false, Some(b"CET")).unwrap();
    let agrees = |text: &str| {
        LenientDateTime::parse(text.as_bytes())
            .unwrap()
            .agrees_with(&paris)
    };
    assert!(agrees("2000-11-03T05:06[Europe/Paris]"));
    assert!(agrees("2000-11-03T05:06+01:00[Europe/Paris]"));
    assert!(!agrees("2000-11-03T05:06+02:00[Europe/Paris]"));
    assert!(!agrees("2000-11-03T05:06Z[Europe/Paris]"));
}
