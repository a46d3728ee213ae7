//! Patterns of chrono, as text.

#[path = "../loops.rs"]
mod loops;

use chrono::{DateTime, FixedOffset, NaiveDateTime, TimeZone};
use loops::{INTERNET, LOG, MAIL, NANOSECONDS, UNIX_TIME, UT_OFFSET, arguments, repeat};
use std::fmt::Write;

const COMMON_LOG: &str = "%d/%b/%Y:%H:%M:%S %z";

fn main() {
    let (call, times) = arguments();
    let utc = NaiveDateTime::from_timestamp_opt(UNIX_TIME, NANOSECONDS).unwrap();
    let date_time = FixedOffset::east_opt(UT_OFFSET).unwrap().from_utc_datetime(&utc);
    let read = |text: &str, pattern: &str| {
        repeat(times, text, |text| DateTime::parse_from_str(text, pattern).unwrap().timestamp());
    };
    match &call[..] {
        "loop" => repeat(times, "", |text| text.len() as i64),
        "format_kept" => {
            let mut kept = String::new();
            repeat(times, &date_time, |date_time| {
                kept.clear();
                write!(kept, "{}", date_time.format(COMMON_LOG)).unwrap();
                kept.len() as i64
            });
        }
        "format_new" => repeat(times, &date_time, |date_time| {
            date_time.format(COMMON_LOG).to_string().len() as i64
        }),
        "read_log" => read(LOG, COMMON_LOG),
        "read_mail" => read(MAIL, "%a, %d %b %Y %H:%M:%S %z"),
        "read_internet" => read(INTERNET, "%Y-%m-%dT%H:%M:%S%.3f%:z"),
        _ => std::process::exit(3),
    }
}
