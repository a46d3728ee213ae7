//! Patterns of the Rust crate, and its readers of printed texts.

#[path = "../loops.rs"]
mod loops;

use loops::{INTERNET, LOG, MAIL, NANOSECONDS, UNIX_TIME, UT_OFFSET, arguments, repeat};
use std::fmt::Write;
use tz::format::{LenientDateTime, Pattern};
use tz::{DateTime, LocalTimeType, ParsedDateTime};

fn main() {
    let (call, times) = arguments();
    let local_time_type = LocalTimeType::with_ut_offset(UT_OFFSET).unwrap();
    let date_time =
        DateTime::from_timespec_and_local(UNIX_TIME, NANOSECONDS, local_time_type).unwrap();
    let read = |text: &str, pattern: Pattern<'_>| {
        repeat(times, text, |text| {
            let read = pattern.read(text.as_bytes()).unwrap();
            read.local().unix_time() - i64::from(read.ut_offset().unwrap())
        });
    };
    match &call[..] {
        "loop" => repeat(times, "", |text| text.len() as i64),
        "format_kept" => {
            let mut kept = String::new();
            repeat(times, &date_time, |date_time| {
                kept.clear();
                write!(kept, "{}", date_time.format(Pattern::COMMON_LOG)).unwrap();
                kept.len() as i64
            });
        }
        "format_new" => repeat(times, &date_time, |date_time| {
            date_time.format(Pattern::COMMON_LOG).to_string().len() as i64
        }),
        "read_log" => read(LOG, Pattern::COMMON_LOG),
        "read_mail" => read(MAIL, Pattern::RFC_2822),
        "read_internet" => read(INTERNET, Pattern::RFC_3339_MILLIS),
        "parse" => repeat(times, INTERNET, |text| {
            ParsedDateTime::parse(text.as_bytes()).unwrap().unix_time().unwrap()
        }),
        "lenient" => repeat(times, INTERNET, |text| {
            LenientDateTime::parse(text.as_bytes()).unwrap().date_time().unix_time().unwrap()
        }),
        "lenient_named" => repeat(times, "2000-11-03 05:06[Europe/Paris]", |text| {
            LenientDateTime::parse(text.as_bytes()).unwrap().date_time().local().unix_time()
        }),
        _ => std::process::exit(3),
    }
}
