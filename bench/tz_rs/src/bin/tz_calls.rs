//! A driver over tz-rs 0.7.3 for bench/peers: its calls many times, and query lines read and printed by hand; or, over the Rust crate, calls alone, so that
//! none is kept out of line because lines make it too.

#[path = "../calls.rs"]
mod calls;
#[cfg(not(feature = "own"))]
#[path = "../lines.rs"]
mod lines;
#[allow(dead_code)]
#[path = "../../../peers/loops.rs"]
mod loops;
#[cfg(feature = "own")]
#[path = "../own.rs"]
mod own;

use loops::{Local, refuse};
use std::hint::black_box;
use tz::{DateTime, TimeZone, UtcDateTime};

/// What the calls are made for.
pub struct Words {
    pub instants: Vec<i64>,
    pub locals: Vec<Local>,
    pub date_times: Vec<DateTime>,
    pub utc_date_times: Vec<UtcDateTime>,
    pub argument: String,
    pub bytes: Vec<u8>,
}

/// The words of a call, as it takes them.
fn words_of(call: &str, option: &str, argument: &str, zone: &TimeZone) -> Words {
    let (instants, locals) = loops::read_words();
    let (mut date_times, mut utc_date_times) = (Vec::new(), Vec::new());
    match call {
        "display" | "parse" | "format_log" | "read_log" => date_times.extend(instants.iter().map(|instant| DateTime::from_timespec(*instant, 7, zone.as_ref()).unwrap())),
        "utc_add" | "from_local" => utc_date_times.extend(instants.iter().map(|instant| UtcDateTime::from_timespec(*instant, 7).unwrap())),
        "column_instants" => {
            let of = |local: &Local| UtcDateTime::new(local.year, local.month, local.day, local.hour, local.minute, local.second, 7).unwrap();
            utc_date_times.extend(locals.iter().map(of));
        }
        _ => (),
    }
    let bytes = if option == "-f" { std::fs::read(argument).unwrap() } else { Vec::new() };
    Words { instants, locals, date_times, utc_date_times, argument: argument.to_owned(), bytes }
}

fn zone_of(option: &str, argument: &str) -> TimeZone {
    match option {
        "-o" => TimeZone::fixed(argument.parse().unwrap()).unwrap(),
        "-f" => TimeZone::from_tz_data(&std::fs::read(argument).unwrap()).unwrap_or_else(|_| refuse("not this file")),
        _ => TimeZone::from_posix_tz(argument).unwrap(),
    }
}

fn make_calls(option: &str, argument: &str, call: &str, times: &str) {
    let zone = zone_of(option, argument);
    let words = black_box(words_of(call, option, argument, &zone));
    let zone = black_box(zone.as_ref());
    if calls::make(call, times, &words, zone) {
        return;
    }
    #[cfg(feature = "own")]
    if own::make(call, times, &words, zone) {
        return;
    }
    refuse("no such call")
}

fn main() {
    let arguments: Vec<String> = std::env::args().skip(1).collect();
    match arguments.iter().map(String::as_str).collect::<Vec<_>>()[..] {
        [option, argument, call, times] => make_calls(option, argument, call, times),
        #[cfg(not(feature = "own"))]
        [option, argument] => lines::answer(zone_of(option, argument)),
        _ => refuse("usage: PROGRAM OPTION ARGUMENT [CALL TIMES]"),
    }
}
