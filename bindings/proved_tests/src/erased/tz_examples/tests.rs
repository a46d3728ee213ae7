// Tests from crates/tz_examples/src/tests.rt by bindings/erase. Change that file instead.
//! One test for each example.

use crate::erased::tz_examples::changes::{
    changes_around, last_set_forward, next_change, show_entry, since_last_change,
};
use crate::erased::tz_examples::clocks::{
    moon_landing, morning_in_tokyo, new_year_an_hour_behind, print_instant, show_now,
};
use crate::erased::tz_examples::converter::{convert, utc_of};
use crate::erased::tz_examples::expect::expect_eq;
use crate::erased::tz_examples::meetings::{
    alarm, count_meanings, next_daily_run, next_monday_at_nine, noon, plain_instant,
    weekly_meetings,
};
use crate::erased::tz_examples::queries::answer_lines;
use crate::erased::tz_examples::zones::{
    local_time, local_zone, moved_ahead_in_2000, new_york_rule, rule_text, summer_time,
    zone_of_name, zone_of_rule, zone_of_setting,
};
use crate::erased::tz_samples::files::JERUSALEM_V3;
use crate::kit::process::Abort;
use crate::kit::test::Fail;
use crate::kit::{self, format_in};
use crate::utc;
use std::fmt::Display;
use tz::proved::tz::datetime::Disambiguation;
use tz::proved::tz::{Error, ParsedDateTime, TimeZoneRef, TzError, UtcDateTime};
use tz::shim::alloc::{AllocError, Global};

/// The clocks of central Europe.
const CENTRAL_EUROPE: &str = "CET-1CEST,M3.5.0,M10.5.0/3";

/// When they go forward in 2000.
const SPRING_2000: i64 = utc!(2000-03-26 01:00:00);

/// When those of Israel go forward in 2040.
const SPRING_2040: i64 = utc!(2040-03-23 00:00:00);

/// The value prints as the text.
fn expect_shown(
    rt: &impl Abort,
    alloc: Global,
    value: &impl Display,
    text: &str,
) -> Result<(), AllocError> {
    let shown = format_in!(alloc; "{value}")?;
    expect_eq(rt, &shown.as_str(), &text);
    Ok(())
}

/// The two sides of a row.
fn parts_of(row: &str) -> Result<(&str, &str), Fail> {
    Ok(row.split_once(" | ").ok_or("no ` | ` in a row")?)
}

/// The instant of a text.
fn instant(text: &str) -> Result<i64, Fail> {
    let parsed = ParsedDateTime::parse(text.as_bytes())?;
    Ok(parsed.unix_time().ok_or("no offset")?)
}

/// Clocks of the zone show the text at an instant.
fn expect_instant(
    rt: &impl Abort,
    alloc: Global,
    zone: TimeZoneRef<'_>,
    unix_time: i64,
    text: &str,
) -> Result<(), TzError> {
    let shown = print_instant(alloc, zone, unix_time)?;
    expect_eq(rt, &shown.as_str(), &text);
    Ok(())
}

#[test]
fn instants_are_shown() -> Result<(), Fail> {
    let rt = kit::HostRuntime;

    const NEW_YEAR: i64 = utc!(2000-01-01 00:00:00);
    static MOVED: [(i64, &str); 2] = [
        (NEW_YEAR - 1, "2000-01-01T00:59:59.000000000+01:00"),
        (NEW_YEAR, "2000-01-01T02:00:00.000000000+02:00"),
    ];
    let alloc = rt.alloc();
    let local = local_time(alloc, JERUSALEM_V3, SPRING_2040)?;
    expect_shown(&rt, alloc, &local, "2040-03-23T03:00:00.000000000+03:00")?;
    let behind = new_year_an_hour_behind(alloc)?;
    expect_shown(&rt, alloc, &behind, "2023-12-31T23:00:00.000000000-01:00")?;
    for &(unix_time, text) in MOVED.iter() {
        expect_shown(&rt, alloc, &moved_ahead_in_2000(unix_time)?, text)?;
    }
    let zone = zone_of_setting(&rt, alloc, CENTRAL_EUROPE)?;
    let text = "2000-03-26T03:00:00.000000000+02:00 CEST";
    expect_instant(&rt, alloc, zone.as_ref(), SPRING_2000, text)?;
    assert!(show_now(&rt, zone.as_ref())?.unix_time() > 1_700_000_000);
    Ok(())
}

#[test]
fn query_lines_are_answered() -> Result<(), Fail> {
    let rt = kit::HostRuntime;

    let answers = answer_lines(rt.alloc(), JERUSALEM_V3, b"T 2216073600 0\nT\n")?;
    let wanted = b"2040-03-23T03:00:00.000000000+03:00 IDT\nE Line\n";
    expect_eq(&rt, &answers.as_slice(), &wanted.as_slice());
    Ok(())
}

#[test]
fn the_machine_s_zone_is_found_or_its_file_is_missing() {
    let rt = kit::HostRuntime;

    let found = local_zone(&rt, rt.alloc());
    assert!(matches!(&found, Ok(_) | Err(Error::Io(_))));
}

/// Alarms of central Europe ring at their instants, and their local times have as many meanings as
/// they should.
fn expect_alarms(rt: &impl Abort, alloc: Global, zone: TimeZoneRef<'_>) -> Result<(), TzError> {
    // Month, day, hour and minute in 2000, with the instant at which the alarm rings, and the
    // number of meanings.
    static ALARMS: [((u8, u8, u8, u8), i64, usize); 3] = [
        // Clocks go forward from 2:00 to 3:00.
        ((3, 26, 2, 30), SPRING_2000, 1),
        // Clocks go back from 3:00 to 2:00.
        ((10, 29, 2, 30), utc!(2000-10-29 00:30:00), 2),
        ((7, 1, 0, 0), utc!(2000-06-30 22:00:00), 1),
    ];
    for &((month, month_day, hour, minute), instant, meanings) in ALARMS.iter() {
        let local = UtcDateTime::new(2000, month, month_day, hour, minute, 0, 0)?;
        let rings = alarm(alloc, zone, local)?;
        expect_eq(rt, &rings.map(|alarm| alarm.unix_time()), &Some(instant));
        expect_eq(rt, &count_meanings(zone, local)?, &meanings);
    }
    Ok(())
}

#[test]
fn alarms_ring_in_gaps_and_folds() -> Result<(), Fail> {
    let rt = kit::HostRuntime;

    let alloc = rt.alloc();
    let zone = zone_of_setting(&rt, alloc, CENTRAL_EUROPE)?;
    expect_alarms(&rt, alloc, zone.as_ref())?;
    Ok(())
}

/// Jobs of every day at half past these hours run next after these instants as the text after ` | `
/// says.
fn expect_runs(
    rt: &impl Abort,
    alloc: Global,
    zone: TimeZoneRef<'_>,
    rows: &str,
) -> Result<(), Fail> {
    for row in rows.lines() {
        let (job, text) = parts_of(row)?;
        let (hour, now) = job.split_once(' ').ok_or("no hour in a row")?;
        let run = next_daily_run(zone, hour.parse::<u8>()?, 30, instant(now)?)?;
        expect_shown(rt, alloc, &run.ok_or("no run")?, text)?;
    }
    Ok(())
}

#[test]
fn daily_jobs_run_once_in_gaps_and_folds() -> Result<(), Fail> {
    let rt = kit::HostRuntime;

    // Clocks go forward from 2:00 to 3:00 in the night after March 7th, and back from 2:00 to 1:00
    // in the night after October 31st, so that 1:30 is shown twice.
    static NEW_YORK: &str = "\
2 2026-03-07T17:00:00Z | 2026-03-08T03:30:00.000000000-04:00
2 2026-03-08T07:29:59Z | 2026-03-08T03:30:00.000000000-04:00
2 2026-03-08T07:30:00Z | 2026-03-09T02:30:00.000000000-04:00
1 2026-10-31T16:00:00Z | 2026-11-01T01:30:00.000000000-04:00
1 2026-11-01T05:30:00Z | 2026-11-02T01:30:00.000000000-05:00
1 2026-11-01T06:30:00Z | 2026-11-02T01:30:00.000000000-05:00
";
    // Clocks go forward from 23:00 to midnight, as in Scoresbysund, and midnight itself is the
    // first instant.
    static OVER_MIDNIGHT: &str = "\
23 2025-03-30T01:00:00Z | 2025-03-30T00:30:00.000000000-01:00
23 2025-03-30T01:30:00Z | 2025-03-30T23:30:00.000000000-01:00
";
    let alloc = rt.alloc();
    let zone = zone_of_setting(&rt, alloc, "EST5EDT,M3.2.0,M11.1.0")?;
    expect_runs(&rt, alloc, zone.as_ref(), NEW_YORK)?;
    let zone = zone_of_setting(&rt, alloc, "<-02>2<-01>,M3.5.6/23,M10.5.0/0")?;
    expect_runs(&rt, alloc, zone.as_ref(), OVER_MIDNIGHT)
}

/// Meetings at 9:00 in central Europe stay there where clocks go forward.
fn expect_meetings(rt: &impl Abort, alloc: Global, zone: TimeZoneRef<'_>) -> Result<(), TzError> {
    static SHOWN: [&str; 3] = [
        "2000-03-19T09:00:00.000000000+01:00",
        "2000-03-26T09:00:00.000000000+02:00",
        "2000-04-02T09:00:00.000000000+02:00",
    ];
    let first = UtcDateTime::new(2000, 3, 19, 9, 0, 0, 0)?;
    let meetings = weekly_meetings(alloc, zone, first, 3)?;
    expect_eq(rt, &meetings.len(), &SHOWN.len());
    for (meeting, text) in meetings.iter().zip(SHOWN.iter()) {
        expect_shown(rt, alloc, meeting, text)?;
    }
    Ok(())
}

/// The next Monday at 9:00 in central Europe is found.
fn expect_mondays(rt: &impl Abort, zone: TimeZoneRef<'_>) -> Result<(), TzError> {
    static MONDAYS: [(i64, i64); 3] = [
        // A Sunday; Monday at 9:00 itself; one second before it.
        (utc!(2000-03-26 01:00:00), utc!(2000-03-27 07:00:00)),
        (utc!(2000-03-27 07:00:00), utc!(2000-04-03 07:00:00)),
        (utc!(2000-03-27 06:59:59), utc!(2000-03-27 07:00:00)),
    ];
    for &(now, monday) in MONDAYS.iter() {
        let next = next_monday_at_nine(zone, now)?;
        expect_eq(rt, &next.map(|next| next.unix_time()), &Some(monday));
    }
    Ok(())
}

#[test]
fn meetings_keep_their_local_time() -> Result<(), Fail> {
    let rt = kit::HostRuntime;

    let alloc = rt.alloc();
    let zone = zone_of_setting(&rt, alloc, CENTRAL_EUROPE)?;
    expect_meetings(&rt, alloc, zone.as_ref())?;
    expect_mondays(&rt, zone.as_ref())?;
    Ok(())
}

/// After these instants clocks of central Europe next show the text after ` | `, set forward by its
/// seconds.
fn expect_next_changes(rt: &impl Abort, alloc: Global, zone: TimeZoneRef<'_>) -> Result<(), Fail> {
    static CHANGES: &str = "\
2000-03-26T00:59:59Z | 2000-03-26T03:00:00.000000000+02:00 3600
2000-03-26T01:00:00Z | 2000-10-29T02:00:00.000000000+01:00 -3600
";
    for row in CHANGES.lines() {
        let (now, text) = parts_of(row)?;
        let (shown, forward) = next_change(zone, instant(now)?)?.ok_or("no change")?;
        let found = format_in!(alloc; "{shown} {forward}")?;
        expect_eq(rt, &found.as_str(), &text);
    }
    Ok(())
}

/// The changes around one of the year 2000 begin in 1980, and go on until 2001.
fn expect_changes_around(
    rt: &impl Abort,
    alloc: Global,
    zone: TimeZoneRef<'_>,
) -> Result<(), TzError> {
    const FIRST: i64 = utc!(1980-03-30 01:00:00);
    const LAST: i64 = utc!(2001-03-25 01:00:00);
    let changes = changes_around(alloc, zone, SPRING_2000)?;
    expect_eq(rt, &changes.len(), &43);
    let first = changes.first().map(|change| change.unix_time());
    expect_eq(rt, &first, &Some(FIRST));
    let last = changes.last().map(|change| change.unix_time());
    expect_eq(rt, &last, &Some(LAST));
    Ok(())
}

/// The entries of a log are shown as lookups show them.
fn expect_entries(rt: &impl Abort, alloc: Global, zone: TimeZoneRef<'_>) -> Result<(), TzError> {
    static ENTRIES: [(i64, &str); 4] = [
        (SPRING_2000 - 2, "2000-03-26T01:59:58.000000000+01:00"),
        (SPRING_2000 - 1, "2000-03-26T01:59:59.000000000+01:00"),
        (SPRING_2000, "2000-03-26T03:00:00.000000000+02:00"),
        (SPRING_2000 - 1, "2000-03-26T01:59:59.000000000+01:00"),
    ];
    let mut segment = zone.segment_at(0);
    for &(unix_time, text) in ENTRIES.iter() {
        let shown = show_entry(zone, &mut segment, unix_time)?;
        expect_shown(rt, alloc, &shown, text)?;
    }
    Ok(())
}

#[test]
fn changes_are_found() -> Result<(), Fail> {
    let rt = kit::HostRuntime;

    let alloc = rt.alloc();
    let zone = zone_of_setting(&rt, alloc, CENTRAL_EUROPE)?;
    expect_next_changes(&rt, alloc, zone.as_ref())?;
    expect_changes_around(&rt, alloc, zone.as_ref())?;
    expect_entries(&rt, alloc, zone.as_ref())?;
    let zone = zone_of_setting(&rt, alloc, "UTC0")?;
    expect_eq(&rt, &next_change(zone.as_ref(), 0)?.is_none(), &true);
    Ok(())
}

#[test]
fn date_times_are_made_of_fields() -> Result<(), Fail> {
    let rt = kit::HostRuntime;

    const MORNING: i64 = utc!(2024-04-30 23:30:00);
    let landing = moon_landing()?;
    // A Sunday, 164 days, 3 hours, 42 minutes and 20 seconds before 1970.
    expect_eq(&rt, &landing.week_day(), &0);
    expect_eq(&rt, &landing.unix_time(), &-14_182_940);
    let morning = morning_in_tokyo()?;
    expect_eq(&rt, &morning.unix_time(), &MORNING);
    let text = "2024-05-01T08:30:00.000000000+09:00";
    expect_shown(&rt, rt.alloc(), &morning, text)?;
    Ok(())
}

#[test]
fn rules_are_made_of_parts() -> Result<(), Fail> {
    let rt = kit::HostRuntime;

    let summer = summer_time()?;
    expect_eq(&rt, &summer.ut_offset(), &7200);
    expect_eq(&rt, &summer.time_zone_designation(), &"CEST");
    let alloc = rt.alloc();
    let zone = zone_of_rule(alloc, new_york_rule()?)?;
    let text = rule_text(zone.as_ref());
    assert!(text.is_some());
    for text in text.iter() {
        // The footer of America/New_York in the tz database.
        expect_eq(&rt, &text.as_str(), &"EST5EDT,M3.2.0,M11.1.0");
    }
    expect_eq(&rt, &rule_text(TimeZoneRef::utc()).is_none(), &true);
    const SPRING_2026: i64 = utc!(2026-03-08 07:00:00);
    let text = "2026-03-08T03:00:00.000000000-04:00 EDT";
    expect_instant(&rt, alloc, zone.as_ref(), SPRING_2026, text)?;
    Ok(())
}

/// Noon and midnight of a day in central Europe have one instant, and local times in a fold and in
/// a gap have not.
fn expect_one_instant(rt: &impl Abort, zone: TimeZoneRef<'_>) -> Result<(), TzError> {
    const NOON: i64 = utc!(2000-07-01 10:00:00);
    const MIDNIGHT: i64 = utc!(2000-06-30 22:00:00);
    let shown = noon(zone, 2000, 7, 1)?;
    expect_eq(rt, &shown.map(|noon| noon.unix_time()), &Some(NOON));
    let midnight = UtcDateTime::new(2000, 7, 1, 0, 0, 0, 0)?;
    expect_eq(rt, &plain_instant(zone, midnight)?, &Some(MIDNIGHT));
    // Clocks go back from 3:00 to 2:00, and so show 2:30 twice; they go forward from 2:00 to 3:00,
    // and skip it.
    let twice = UtcDateTime::new(2000, 10, 29, 2, 30, 0, 0)?;
    expect_eq(rt, &plain_instant(zone, twice)?, &None);
    let skipped = UtcDateTime::new(2000, 3, 26, 2, 30, 0, 0)?;
    expect_eq(rt, &plain_instant(zone, skipped)?, &None);
    Ok(())
}

#[test]
fn one_instant_is_found() -> Result<(), Fail> {
    let rt = kit::HostRuntime;

    let zone = zone_of_setting(&rt, rt.alloc(), CENTRAL_EUROPE)?;
    expect_one_instant(&rt, zone.as_ref())?;
    Ok(())
}

#[test]
fn earlier_changes_are_found() -> Result<(), Fail> {
    let rt = kit::HostRuntime;

    const WEEK_LATER: i64 = utc!(2000-04-02 01:00:00);
    const WINTER: i64 = utc!(2000-12-01 00:00:00);
    let zone = zone_of_setting(&rt, rt.alloc(), CENTRAL_EUROPE)?;
    let zone = zone.as_ref();
    expect_eq(&rt, &since_last_change(zone, WEEK_LATER), &Some(604_800));
    expect_eq(&rt, &last_set_forward(zone, WINTER), &Some(SPRING_2000));
    expect_eq(&rt, &since_last_change(TimeZoneRef::utc(), WINTER), &None);
    Ok(())
}

/// The choice of a word.
fn choice_of(word: &str) -> Disambiguation {
    match word {
        "Earlier" => Disambiguation::Earlier,
        "Later" => Disambiguation::Later,
        "Reject" => Disambiguation::Reject,
        _ => Disambiguation::Compatible,
    }
}

/// The text of a row, by the choice after it, is converted to the date time of UTC after ` | `, or
/// this is wrong with it.
fn expect_converted(
    rt: &impl Abort,
    alloc: Global,
    zone: TimeZoneRef<'_>,
    row: &str,
) -> Result<(), Fail> {
    let (local, expected) = parts_of(row)?;
    let (text, choice) = local.rsplit_once(' ').ok_or("no choice in a row")?;
    match utc_of(text, zone, choice_of(choice)) {
        Ok(utc) => expect_shown(rt, alloc, &utc, expected)?,
        Err(error) => expect_shown(rt, alloc, &error, expected)?,
    }
    Ok(())
}

#[test]
fn local_times_are_converted() -> Result<(), Fail> {
    let rt = kit::HostRuntime;

    // Clocks go forward from 2:00 to 3:00 on March 29th, and back from 3:00 to 2:00 on October
    // 25th.
    static ROWS: &str = "\
2026-03-29T02:30:00 Compatible | 2026-03-29T01:30:00.000000000Z
2026-03-29T02:30:00 Earlier | 2026-03-29T00:30:00.000000000Z
2026-03-29T02:30:00 Reject | clocks show this local time more than once, or never
2026-10-25 02:30:00.5 Later | 2026-10-25T01:30:00.500000000Z
2026-10-25 02:30:00.5 Compatible | 2026-10-25T00:30:00.500000000Z
2026-07-01T12:00:00+05:30 Reject | 2026-07-01T06:30:00.000000000Z
2026-02-30T12:00:00 Reject | expected a day of the month at byte 8
";
    let zone = zone_of_setting(&rt, rt.alloc(), CENTRAL_EUROPE)?;
    for row in ROWS.lines() {
        expect_converted(&rt, rt.alloc(), zone.as_ref(), row)?;
    }
    Ok(())
}

#[test]
fn a_text_that_is_no_name_is_refused_by_it() -> Result<(), Fail> {
    let rt = kit::HostRuntime;

    let alloc = rt.alloc();
    match zone_of_name(&rt, alloc, "../Paris") {
        Ok(_) => panic!("no name"),
        Err(error) => expect_shown(&rt, alloc, &error, "not a time zone name: ../Paris")?,
    }
    Ok(())
}

#[test]
fn each_line_is_converted_or_says_what_is_wrong() {
    let rt = kit::HostRuntime;

    static LINES: &str = "2026-07-01T12:00:00\n2026-07-01T12:00:00 ../Paris\n";
    static CONVERTED: &str = "2026-07-01T12:00:00: no zone is named\n\
        2026-07-01T12:00:00 ../Paris: not a time zone name: ../Paris\n";
    match convert(&rt, rt.alloc(), LINES, Disambiguation::Compatible) {
        Ok(converted) => expect_eq(&rt, &converted.as_str(), &CONVERTED),
        Err(error) => panic!("{error}"),
    }
}
