//! tzq's command line over tz-rs: `-o OFFSET`, `-f FILE` or `-z STRING`, and `T` and `F` lines on standard input.
//!
//! It answers as tzq does wherever tz-rs does, so that both can be compared and timed on the same lines.

use std::fmt::{self, Write as _};
use std::io::{self, Read, Write};
use std::process::ExitCode;
use std::str::FromStr;
use tz::datetime::FoundDateTimeKind;
use tz::error::datetime::DateTimeError;
use tz::{DateTime, Error, TimeZone, TimeZoneRef, TzError};

/// A number of a query line: digits after a `-` or none, and a value in the type's range. `-0` is 0 for unsigned types too.
fn number<T: FromStr>(part: &str) -> Option<T> {
    let digits = part.strip_prefix('-').unwrap_or(part);
    let is_plain = !digits.is_empty() && digits.bytes().all(|byte| byte.is_ascii_digit());
    let is_zero = digits.bytes().all(|byte| byte == b'0');
    is_plain.then(|| if is_zero { "0" } else { part })?.parse().ok()
}

/// A date time and the name of its type.
struct Named<'a>(&'a DateTime);

impl fmt::Display for Named<'_> {
    fn fmt(&self, out: &mut fmt::Formatter<'_>) -> fmt::Result {
        let name = self.0.local_time_type().time_zone_designation();
        write!(out, "{} {}", self.0, if name.is_empty() { "-" } else { name })
    }
}

/// The name of a refusal's innermost variant.
fn fault_name(error: &TzError) -> &'static str {
    match error {
        TzError::DateTime(DateTimeError::InvalidMonth) => "InvalidMonth",
        TzError::DateTime(DateTimeError::InvalidMonthDay) => "InvalidMonthDay",
        TzError::DateTime(DateTimeError::InvalidHour) => "InvalidHour",
        TzError::DateTime(DateTimeError::InvalidMinute) => "InvalidMinute",
        TzError::DateTime(DateTimeError::InvalidSecond) => "InvalidSecond",
        TzError::DateTime(DateTimeError::InvalidNanoseconds) => "InvalidNanoseconds",
        TzError::OutOfRange => "OutOfRange",
        TzError::NoAvailableLocalTimeType => "NoAvailableLocalTimeType",
        _ => "another",
    }
}

/// Appends the answer of a `T` line. No answer: the parts make no such line.
fn answer_time(zone: TimeZoneRef<'_>, [seconds, nanoseconds]: [&str; 2], answers: &mut String) -> Option<fmt::Result> {
    let (seconds, nanoseconds) = (number::<i64>(seconds)?, number::<u32>(nanoseconds)?);
    if nanoseconds >= 1_000_000_000 {
        // tz-rs takes these, and tzq refuses them
        return Some(writeln!(answers, "E InvalidNanoseconds"));
    }
    Some(match DateTime::from_timespec(seconds, nanoseconds, zone) {
        Ok(date_time) => writeln!(answers, "{}", Named(&date_time)),
        Err(error) => writeln!(answers, "E {}", fault_name(&error)),
    })
}

/// Appends the answers of what was found.
fn append_found(found: &[FoundDateTimeKind], answers: &mut String) -> fmt::Result {
    writeln!(answers, "F {}", found.len())?;
    for entry in found {
        match entry {
            FoundDateTimeKind::Normal(shown) => writeln!(answers, "N {}", Named(shown))?,
            FoundDateTimeKind::Skipped { before_transition, after_transition } => {
                writeln!(answers, "S {} {}", Named(before_transition), Named(after_transition))?;
            }
        }
    }
    Ok(())
}

/// Appends the answer of an `F` line. No answer: the parts make no such line.
fn answer_search(zone: TimeZoneRef<'_>, parts: [&str; 7], answers: &mut String) -> Option<fmt::Result> {
    let [year, month, day, hour, minute, second, nanoseconds] = parts;
    let (year, month, day) = (number(year)?, number(month)?, number(day)?);
    let (hour, minute, second) = (number(hour)?, number(minute)?, number(second)?);
    Some(match DateTime::find(year, month, day, hour, minute, second, number(nanoseconds)?, zone) {
        Ok(found) => append_found(&found.into_inner(), answers),
        Err(error) => writeln!(answers, "E {}", fault_name(&error)),
    })
}

/// Exactly `N` parts, one space apart.
fn parts_of<const N: usize>(line: &str) -> Option<[&str; N]> {
    let mut parts = [""; N];
    let mut split = line.split(' ');
    for part in &mut parts {
        *part = split.next()?;
    }
    split.next().is_none().then_some(parts)
}

/// Appends the answer of a line.
fn answer(zone: TimeZoneRef<'_>, line: &[u8], answers: &mut String) -> fmt::Result {
    let line = std::str::from_utf8(line).unwrap_or_default();
    let answered = match line.as_bytes() {
        [b'T', b' ', ..] => parts_of(&line[2..]).and_then(|parts| answer_time(zone, parts, answers)),
        [b'F', b' ', ..] => parts_of(&line[2..]).and_then(|parts| answer_search(zone, parts, answers)),
        _ => None,
    };
    answered.unwrap_or_else(|| writeln!(answers, "E Line"))
}

/// The zone of the two arguments, or the line and the status of its refusal.
fn zone_of(arguments: &[String]) -> Result<TimeZone, (String, u8)> {
    let bad = || ("bad arguments".to_owned(), 1);
    let unread = || ("cannot read file".to_owned(), 1);
    let refused = |error: &dyn fmt::Display| (format!("zone refused: {error}"), 2);
    let [option, argument] = arguments else { return Err(bad()) };
    match option.as_str() {
        "-o" => {
            let offset = number::<i32>(argument).ok_or_else(bad)?;
            TimeZone::fixed(offset).map_err(|error| refused(&TzError::from(error)))
        }
        "-f" => {
            let bytes = std::fs::read(argument).map_err(|_| unread())?;
            TimeZone::from_tz_data(&bytes).map_err(|error| refused(&error))
        }
        "-z" => TimeZone::from_posix_tz(argument).map_err(|error| match error {
            Error::Io(_) => unread(),
            other => refused(&other),
        }),
        _ => Err(bad()),
    }
}

fn main() -> ExitCode {
    let arguments: Vec<String> = std::env::args().skip(1).collect();
    let zone = match zone_of(&arguments) {
        Ok(zone) => zone,
        Err((line, status)) => {
            eprintln!("tzq: {line}");
            return ExitCode::from(status);
        }
    };
    let mut queries = Vec::new();
    if io::stdin().lock().read_to_end(&mut queries).is_err() {
        eprintln!("tzq: cannot read queries");
        return ExitCode::from(1);
    }
    let mut answers = String::with_capacity(2 * queries.len());
    for line in queries.strip_suffix(b"\n").unwrap_or(&queries).split(|&byte| byte == b'\n') {
        if !queries.is_empty() && answer(zone.as_ref(), line, &mut answers).is_err() {
            return ExitCode::from(1);
        }
    }
    if io::stdout().lock().write_all(answers.as_bytes()).is_err() {
        eprintln!("tzq: cannot write answers");
        return ExitCode::from(1);
    }
    ExitCode::SUCCESS
}
