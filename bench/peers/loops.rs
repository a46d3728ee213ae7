//! What the drivers over Rust crates share: query lines read and printed by hand, and loops of calls. README.md has the command line.

use std::io::{self, Read, Write};
use std::process::exit;

#[derive(Clone, Copy)]
pub struct Local {
    pub year: i32,
    pub month: u8,
    pub day: u8,
    pub hour: u8,
    pub minute: u8,
    pub second: u8,
}

#[derive(Clone, Copy)]
pub struct Shown {
    pub local: Local,
    pub offset: i32,
}

/// What a search lists, each with its name.
#[allow(dead_code)]
pub enum Entry<'a> {
    Shown(Shown, &'a str),
    Skipped(Shown, &'a str, Shown, &'a str),
}

/// Says why the library has no such zone or call, and ends.
pub fn refuse(why: &str) -> ! {
    println!("{why}");
    exit(3)
}

/// A library that answers query lines.
pub trait Lines {
    /// What clocks show at an instant with its name, handed on; or none, where the zone has no type then.
    fn named(&self, instant: i64, nanoseconds: u32, take: impl FnOnce(Option<(Shown, &str)>));
    /// The instants of a local time and the jumps over it, handed on with their number.
    fn found(&self, local: Local, nanoseconds: u32, take: impl FnMut(usize, Option<Entry<'_>>));
}

/// Calls of a library that has no loops of its own.
pub trait Calls: Lines + Sized {
    type Held;
    type Moment: Copy;
    fn new(option: &str, argument: &str) -> Self;
    /// The offset of the clock at an instant.
    fn offset(&self, instant: i64) -> i32;
    /// What clocks show at an instant.
    fn shown(&self, instant: i64, nanoseconds: u32) -> Shown;
    /// The Unix time of the first instant of a local time or jump over it.
    fn first(&self, local: Local) -> i64;
    fn held(&self, instant: i64) -> Self::Held;
    fn print(&self, held: &Self::Held) -> String;
    fn utc(instant: i64) -> Local;
    fn utc_of(local: Local) -> i64;
    fn moment(instant: i64) -> Self::Moment;
    /// The Unix time that many seconds and 7 nanoseconds later.
    fn add(moment: Self::Moment, seconds: u64) -> i64;
    /// Makes a zone of a file's bytes.
    fn read(bytes: &[u8]) -> bool;
    /// Makes a zone of a setting: a file's name or a TZ string.
    fn set(string: &str) -> bool;
    /// Makes a zone of a TZ string alone.
    fn parse(string: &str) -> bool;
}

fn number(at: &mut &[u8]) -> i64 {
    let is_below = at.first() == Some(&b'-');
    let mut rest = &at[usize::from(is_below)..];
    let mut digits = 0i64;
    while let [digit @ b'0'..=b'9', after @ ..] = rest {
        digits = 10 * digits + i64::from(digit - b'0');
        rest = after;
    }
    *at = rest.get(1..).unwrap_or_default();
    if is_below { -digits } else { digits }
}

/// The two digits of each number below 100.
static PAIRS: [[u8; 2]; 100] = {
    let mut pairs = [[0; 2]; 100];
    let mut number = 0;
    while number < 100 {
        pairs[number] = [b'0' + number as u8 / 10, b'0' + number as u8 % 10];
        number += 1;
    }
    pairs
};

fn two(number: u32) -> [u8; 2] {
    PAIRS[number as usize]
}

/// Prints a date time and its name; its year has four digits.
fn print(out: &mut Vec<u8>, shown: &Shown, nanoseconds: u32, name: &str) {
    let Local { year, month, day, hour, minute, second } = shown.local;
    let mut text = *b"0000-00-00T00:00:00.000000000+00:00";
    text[..2].copy_from_slice(&two(year as u32 / 100));
    text[2..4].copy_from_slice(&two(year as u32 % 100));
    text[5..7].copy_from_slice(&two(month.into()));
    text[8..10].copy_from_slice(&two(day.into()));
    text[11..13].copy_from_slice(&two(hour.into()));
    text[14..16].copy_from_slice(&two(minute.into()));
    text[17..19].copy_from_slice(&two(second.into()));
    text[20] = b'0' + (nanoseconds / 100_000_000) as u8;
    text[21..23].copy_from_slice(&two(nanoseconds / 1_000_000 % 100));
    text[23..25].copy_from_slice(&two(nanoseconds / 10_000 % 100));
    text[25..27].copy_from_slice(&two(nanoseconds / 100 % 100));
    text[27..29].copy_from_slice(&two(nanoseconds % 100));
    let seconds = shown.offset.unsigned_abs();
    text[29] = if shown.offset < 0 { b'-' } else { b'+' };
    text[30..32].copy_from_slice(&two(seconds / 3600));
    text[33..].copy_from_slice(&two(seconds / 60 % 60));
    if seconds == 0 {
        text[29] = b'Z';
    }
    out.extend_from_slice(&text[..if seconds == 0 { 30 } else { text.len() }]);
    if seconds % 60 != 0 {
        out.push(b':');
        out.extend_from_slice(&two(seconds % 60));
    }
    out.push(b' ');
    out.extend_from_slice(name.as_bytes());
}

pub fn answer_lines<Z: Lines>(zone: &Z) {
    let mut input = Vec::new();
    io::stdin().lock().read_to_end(&mut input).unwrap();
    let mut out = Vec::with_capacity(4 * input.len());
    let mut at = &input[..];
    while let [kind, _, rest @ ..] = at {
        at = rest;
        if *kind == b'T' {
            let (instant, nanoseconds) = (number(&mut at), number(&mut at) as u32);
            zone.named(instant, nanoseconds, |named| match named {
                Some((shown, name)) => print(&mut out, &shown, nanoseconds, name),
                None => out.extend_from_slice(b"E NoAvailableLocalTimeType"),
            });
            out.push(b'\n');
            continue;
        }
        let (year, month, day) = (number(&mut at) as i32, number(&mut at) as u8, number(&mut at) as u8);
        let (hour, minute, second) = (number(&mut at) as u8, number(&mut at) as u8, number(&mut at) as u8);
        let nanoseconds = number(&mut at) as u32;
        zone.found(Local { year, month, day, hour, minute, second }, nanoseconds, |count, entry| {
            match entry {
                None => out.extend_from_slice(&[b'F', b' ', b'0' + count as u8]),
                Some(Entry::Shown(shown, name)) => {
                    out.extend_from_slice(b"N ");
                    print(&mut out, &shown, nanoseconds, name);
                }
                Some(Entry::Skipped(before, name, after, other)) => {
                    out.extend_from_slice(b"S ");
                    print(&mut out, &before, nanoseconds, name);
                    out.push(b' ');
                    print(&mut out, &after, nanoseconds, other);
                }
            }
            out.push(b'\n');
        });
    }
    io::stdout().lock().write_all(&out).unwrap();
}

pub fn sum_of(local: &Local) -> u64 {
    let small = u32::from(local.month) + u32::from(local.day) + u32::from(local.hour) + u32::from(local.minute) + u32::from(local.second);
    u64::from(small).wrapping_add(local.year as u64)
}

fn local_of(word: i64) -> Local {
    let part = |place: i64| (word / place % 100) as u8;
    Local { year: (word / 10_000_000_000) as i32, month: part(100_000_000), day: part(1_000_000), hour: part(10_000), minute: part(100), second: part(1) }
}

/// Makes the call of a loop for each of these words, this many times in all, and prints the sum of what they returned; or, for no number, each answer.
pub fn run_loop<W>(name: &str, times: &str, words: &[W], mut sum: impl FnMut(&[W]) -> u64) {
    if times == "each" {
        for word in words {
            println!("{}", sum(std::slice::from_ref(word)));
        }
        return;
    }
    let mut total = 0u64;
    let mut left: usize = times.parse().unwrap();
    while left > words.len() {
        total = total.wrapping_add(sum(words));
        left -= words.len();
    }
    println!("{name} {}", total.wrapping_add(sum(&words[..left])));
}

/// The same of a call for each word.
fn run<W>(name: &str, times: &str, words: &[W], mut call: impl FnMut(&W) -> u64) {
    run_loop(name, times, words, |words| {
        let mut total = 0u64;
        for word in words {
            total = total.wrapping_add(call(word));
        }
        total
    });
}

/// The words on standard input, as instants and as local times.
pub fn read_words() -> (Vec<i64>, Vec<Local>) {
    let mut input = String::new();
    io::stdin().lock().read_to_string(&mut input).unwrap();
    let words: Vec<i64> = input.lines().map(|line| line.parse().unwrap()).collect();
    let locals = words.iter().map(|word| local_of(*word)).collect();
    (words, locals)
}

fn make_calls<Z: Calls>(zone: &Z, argument: &str, call: &str, times: &str) {
    let (words, locals) = read_words();
    match call {
        "instant" => run(call, times, &words, |word| *word as u64),
        "local" => run(call, times, &locals, sum_of),
        "find_local_time_type" => run(call, times, &words, |word| zone.offset(*word) as u64),
        "from_timespec" => run(call, times, &words, |word| {
            let shown = zone.shown(*word, 7);
            sum_of(&shown.local).wrapping_add(shown.offset as u64)
        }),
        "find" | "find_n" => run(call, times, &locals, |local| zone.first(*local) as u64),
        "display" => {
            let held: Vec<Z::Held> = words.iter().map(|word| zone.held(*word)).collect();
            run(call, times, &held, |held| zone.print(held).len() as u64);
        }
        "utc_from_timespec" => run(call, times, &words, |word| sum_of(&Z::utc(*word))),
        "utc_new" => run(call, times, &locals, |local| Z::utc_of(*local) as u64),
        "utc_add" => {
            let sums: Vec<(Z::Moment, u64)> = words.iter().map(|word| (Z::moment(*word), *word as u64 & 0xfffff)).collect();
            run(call, times, &sums, |(moment, more)| Z::add(*moment, *more) as u64);
        }
        "from_tz_data" => {
            let bytes = std::fs::read(argument).unwrap();
            run(call, times, &words, |_| u64::from(Z::read(&bytes)));
        }
        "from_posix_tz" => run(call, times, &words, |_| u64::from(Z::set(argument))),
        "parse_string" => run(call, times, &words, |_| u64::from(Z::parse(argument))),
        _ => refuse("no such call"),
    }
}

pub fn main<Z: Calls>() {
    let arguments: Vec<String> = std::env::args().skip(1).collect();
    let texts: Vec<&str> = arguments.iter().map(String::as_str).collect();
    match texts[..] {
        [option, argument] => answer_lines(&Z::new(option, argument)),
        [option, argument, call, times] => make_calls(&Z::new(option, argument), argument, call, times),
        _ => {
            eprintln!("usage: PROGRAM OPTION ARGUMENT [CALL TIMES]");
            exit(1)
        }
    }
}
