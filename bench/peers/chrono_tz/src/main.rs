//! A driver over chrono and chrono-tz, whose zones are compiled in.

#[path = "../../loops.rs"]
mod loops;

use chrono::{DateTime, Datelike, Duration, FixedOffset, LocalResult, NaiveDate, NaiveDateTime, Offset, SecondsFormat, TimeZone, Timelike};
use chrono_tz::Tz;
use loops::{refuse, Calls, Entry, Lines, Local, Shown};

fn of(local: NaiveDateTime) -> Local {
    let (date, time) = (local.date(), local.time());
    Local {
        year: date.year(),
        month: date.month() as u8,
        day: date.day() as u8,
        hour: time.hour() as u8,
        minute: time.minute() as u8,
        second: time.second() as u8,
    }
}

fn naive(local: Local, nanoseconds: u32) -> NaiveDateTime {
    let date = NaiveDate::from_ymd_opt(local.year, local.month.into(), local.day.into()).unwrap();
    date.and_hms_nano_opt(local.hour.into(), local.minute.into(), local.second.into(), nanoseconds).unwrap()
}

fn shown<Z: TimeZone>(date_time: &DateTime<Z>) -> Shown {
    Shown { local: of(date_time.naive_local()), offset: date_time.offset().fix().local_minus_utc() }
}

fn found<Z: TimeZone>(zone: &Z, name: impl Fn(&Z::Offset) -> String, local: Local, nanoseconds: u32, mut take: impl FnMut(usize, Option<Entry<'_>>)) {
    let (count, entries) = match zone.from_local_datetime(&naive(local, nanoseconds)) {
        LocalResult::None => (0, [None, None]),
        LocalResult::Single(only) => (1, [Some(only), None]),
        LocalResult::Ambiguous(first, second) => (2, [Some(first), Some(second)]),
    };
    take(count, None);
    for entry in entries.into_iter().flatten() {
        take(count, Some(Entry::Shown(shown(&entry), &name(entry.offset()))));
    }
}

fn first<Z: TimeZone>(zone: &Z, local: Local) -> i64 {
    zone.from_local_datetime(&naive(local, 7)).earliest().map_or(1, |first| first.timestamp())
}

enum Either {
    Fixed(FixedOffset),
    Named(Tz),
}

impl Lines for Either {
    fn named(&self, instant: i64, nanoseconds: u32, take: impl FnOnce(Option<(Shown, &str)>)) {
        match self {
            Either::Fixed(zone) => take(Some((shown(&zone.timestamp_opt(instant, nanoseconds).unwrap()), "-"))),
            Either::Named(zone) => {
                let date_time = zone.timestamp_opt(instant, nanoseconds).unwrap();
                take(Some((shown(&date_time), &date_time.offset().to_string())));
            }
        }
    }

    fn found(&self, local: Local, nanoseconds: u32, take: impl FnMut(usize, Option<Entry<'_>>)) {
        match self {
            Either::Fixed(zone) => found(zone, |_| "-".to_owned(), local, nanoseconds, take),
            Either::Named(zone) => found(zone, ToString::to_string, local, nanoseconds, take),
        }
    }
}

impl Calls for Either {
    type Held = DateTime<Tz>;
    type Moment = NaiveDateTime;

    fn new(option: &str, argument: &str) -> Self {
        match option {
            "-o" => Either::Fixed(FixedOffset::east_opt(argument.parse().unwrap()).unwrap()),
            "-f" => match argument.strip_prefix("/usr/share/zoneinfo/").and_then(|name| name.parse().ok()) {
                Some(zone) => Either::Named(zone),
                None => refuse("no files: its zones are compiled in"),
            },
            _ => refuse("no TZ strings"),
        }
    }

    fn offset(&self, instant: i64) -> i32 {
        let utc = NaiveDateTime::from_timestamp_opt(instant, 0).unwrap();
        match self {
            Either::Fixed(zone) => zone.local_minus_utc(),
            Either::Named(zone) => zone.offset_from_utc_datetime(&utc).fix().local_minus_utc(),
        }
    }

    fn shown(&self, instant: i64, nanoseconds: u32) -> Shown {
        match self {
            Either::Fixed(zone) => shown(&zone.timestamp_opt(instant, nanoseconds).unwrap()),
            Either::Named(zone) => shown(&zone.timestamp_opt(instant, nanoseconds).unwrap()),
        }
    }

    fn first(&self, local: Local) -> i64 {
        match self {
            Either::Fixed(zone) => first(zone, local),
            Either::Named(zone) => first(zone, local),
        }
    }

    fn held(&self, instant: i64) -> DateTime<Tz> {
        let Either::Named(zone) = self else { refuse("printed in named zones alone") };
        zone.timestamp_opt(instant, 7).unwrap()
    }

    fn print(&self, held: &DateTime<Tz>) -> String {
        held.to_rfc3339_opts(SecondsFormat::Nanos, false)
    }

    fn utc(instant: i64) -> Local {
        of(NaiveDateTime::from_timestamp_opt(instant, 7).unwrap())
    }

    fn utc_of(local: Local) -> i64 {
        naive(local, 7).timestamp()
    }

    fn moment(instant: i64) -> NaiveDateTime {
        NaiveDateTime::from_timestamp_opt(instant, 7).unwrap()
    }

    fn add(moment: NaiveDateTime, seconds: u64) -> i64 {
        moment.checked_add_signed(Duration::seconds(seconds as i64) + Duration::nanoseconds(7)).unwrap().timestamp()
    }

    fn read(_: &[u8]) -> bool {
        refuse("no files: its zones are compiled in")
    }

    fn set(_: &str) -> bool {
        refuse("no TZ strings")
    }

    fn parse(_: &str) -> bool {
        refuse("no TZ strings")
    }
}

fn main() {
    loops::main::<Either>();
}
