//! Made zones, rules, TZ strings and altered files.

use crate::plain::{Alternate, Day, Parts, Rule, Type};
use std::cell::Cell;

/// Random numbers. (splitmix64)
pub struct Random(Cell<u64>);

impl Random {
    /// The numbers that begin with a seed.
    pub fn new(seed: u64) -> Random {
        Random(Cell::new(seed))
    }

    /// The next number.
    pub fn next(&self) -> u64 {
        let mut z = self.0.get().wrapping_add(0x9e37_79b9_7f4a_7c15);
        self.0.set(z);
        z = (z ^ (z >> 30)).wrapping_mul(0xbf58_476d_1ce4_e5b9);
        z = (z ^ (z >> 27)).wrapping_mul(0x94d0_49bb_1331_11eb);
        z ^ (z >> 31)
    }

    /// A number from the first to the last.
    pub fn within(&self, first: i64, last: i64) -> i64 {
        let count = (i128::from(last) - i128::from(first) + 1) as u128;
        (i128::from(first) + (u128::from(self.next()) % count) as i128) as i64
    }

    /// One of several.
    pub fn pick<T: Clone>(&self, from: &[T]) -> T {
        from[self.within(0, from.len() as i64 - 1) as usize].clone()
    }

    /// Whether one in so many times.
    pub fn one_in(&self, times: i64) -> bool {
        self.within(1, times) == 1
    }
}

/// A name, valid but for one in thirty.
pub fn name(random: &Random) -> String {
    if random.one_in(30) {
        return random.pick(&["", "A", "12345678", "A_B", "é", "AB C"].map(String::from));
    }
    let length = random.within(3, 7);
    (0..length)
        .map(|_| random.pick(b"ABCXYZabz019+-") as char)
        .collect()
}

/// An offset of a whole number of quarters mostly, and now and then an extreme one.
pub fn offset(random: &Random) -> i32 {
    match random.within(0, 19) {
        0 => random.pick(&[
            i32::MIN,
            i32::MIN + 1,
            i32::MAX,
            93_599,
            93_600,
            -89_999,
            -90_000,
            86_400,
            -86_400,
        ]),
        1 => random.within(-90_000, 93_600) as i32,
        2 => random.within(-100_000_000, 100_000_000) as i32,
        _ => random.within(-48, 56) as i32 * 900,
    }
}

/// A local time type.
pub fn kind(random: &Random) -> Type {
    let name = (!random.one_in(10)).then(|| name(random));
    Type {
        ut_offset: offset(random),
        is_dst: random.one_in(2),
        name,
    }
}

/// A day of a rule.
pub fn day(random: &Random) -> Day {
    let is_wrong = random.one_in(60);
    match random.within(0, 3) {
        0 => Day::Julian1(if is_wrong {
            random.pick(&[0, 366, 65_535])
        } else {
            random.within(1, 365) as u16
        }),
        1 => Day::Julian0(if is_wrong {
            random.pick(&[366, 400])
        } else {
            random.within(0, 365) as u16
        }),
        _ if is_wrong => random.pick(&[
            Day::MonthWeekDay(0, 1, 1),
            Day::MonthWeekDay(13, 9, 9),
            Day::MonthWeekDay(1, 6, 0),
            Day::MonthWeekDay(1, 1, 7),
        ]),
        _ => Day::MonthWeekDay(
            random.within(1, 12) as u8,
            random.within(1, 5) as u8,
            random.within(0, 6) as u8,
        ),
    }
}

/// A time of day of a rule: some whole hour, or up to a week either way.
fn time(random: &Random) -> i32 {
    match random.within(0, 9) {
        0 => random.pick(&[-604_799, 604_799, -604_800, 604_800, i32::MIN, i32::MAX]),
        1..4 => random.within(-604_799, 604_799) as i32,
        _ => random.within(0, 24) as i32 * 3600,
    }
}

/// An alternate rule; one in four starts and ends on days that are near each other or the end of a year.
pub fn alternate(random: &Random) -> Alternate {
    let (std, mut dst) = (small_kind(random), small_kind(random));
    if random.one_in(2) {
        dst.ut_offset = std.ut_offset.saturating_add(3600);
    }
    let mut rule = Alternate {
        std,
        dst,
        start: (day(random), time(random)),
        end: (day(random), time(random)),
    };
    if random.one_in(4) {
        let number = random.pick(&[0, 1, 57, 58, 59, 60, 61, 364, 365]);
        rule.start.0 = Day::Julian0(number);
        rule.end.0 = random.pick(&[
            Day::Julian0((number + 1).min(365)),
            Day::Julian1(number.max(1)),
            Day::Julian1((number + 1).min(365)),
            Day::Julian0(0),
            Day::Julian0(365),
            Day::MonthWeekDay(1, 1, 0),
            Day::MonthWeekDay(12, 5, 6),
            Day::MonthWeekDay(2, 5, 3),
        ]);
    }
    if random.one_in(12) {
        // The same instant in each year: the end's time makes up for the offsets.
        rule.end.0 = rule.start.0;
        rule.end.1 = rule
            .start
            .1
            .saturating_add(rule.dst.ut_offset.saturating_sub(rule.std.ut_offset));
    } else if random.one_in(12) {
        // The same instant in common years or in leap years alone.
        let number = random.within(60, 365) as u16;
        let other = random.pick(&[number - 1, number.min(364)]);
        let (one, two) = (Day::Julian1(number), Day::Julian0(other));
        (rule.start.0, rule.end.0) = if random.one_in(2) {
            (one, two)
        } else {
            (two, one)
        };
        rule.start.1 = random.pick(&[0, 7200, -3600]);
        rule.end.1 = rule
            .start
            .1
            .saturating_add(rule.dst.ut_offset.saturating_sub(rule.std.ut_offset));
    }
    rule
}

/// A local time type whose offset a rule may have, but for one in thirty.
fn small_kind(random: &Random) -> Type {
    let mut kind = kind(random);
    if !random.one_in(30) {
        kind.ut_offset = random.within(-48, 56) as i32 * 900;
    }
    kind
}

/// The parts of a zone: some transitions, which may take effect at one instant by leap seconds, and a rule that mostly fits.
pub fn parts(random: &Random) -> Parts {
    let mut parts = Parts::default();
    let rule = match random.within(0, 3) {
        0 => None,
        1 => Some(Rule::Fixed(small_kind(random))),
        _ => Some(Rule::Alternate(alternate(random))),
    };
    for _ in 0..random.within(1, 6) {
        parts.types.push(small_kind(random));
    }
    match &rule {
        Some(Rule::Fixed(kind)) => parts.types.push(kind.clone()),
        Some(Rule::Alternate(rule)) => parts.types.extend([rule.std.clone(), rule.dst.clone()]),
        None => {}
    }
    if random.one_in(2) {
        parts.leap_seconds = leap_seconds(random);
    }
    let mut at = random.within(-3_000_000_000, 1_000_000_000);
    for _ in 0..random.within(0, 12) {
        let near = parts
            .leap_seconds
            .iter()
            .map(|leap_second| leap_second.0)
            .collect::<Vec<_>>();
        if !near.is_empty() && random.one_in(3) {
            // At a leap second, or the second before or after it.
            let next = random.pick(&near) + random.within(-1, 1);
            at = if next > at { next } else { at + 1 };
        } else {
            at += random.pick(&[1, 1, 2, 1800, 3600, 86_400, 15_000_000, 400_000_000]);
        }
        let index = random.within(0, parts.types.len() as i64 - 1) as usize;
        parts.transitions.push((at, index));
    }
    if random.one_in(40)
        && let Some(last) = parts.transitions.last_mut()
    {
        *last = random.pick(&[(i64::MAX, 0), (i64::MIN, 0), (at, 99), (at - 5, 0)]);
    }
    fit(random, &mut parts, rule);
    if random.one_in(40) {
        meet(random, &mut parts);
    }
    parts
}

/// Lets the last transition, a negative leap second and a turn of the rule meet.
fn meet(random: &Random, parts: &mut Parts) {
    let Some(Rule::Alternate(rule)) = &parts.rule else {
        return;
    };
    let year = random.within(1975, 2030);
    let (turn, index) = random.pick(&[(rule.start_in(year), 1), (rule.end_in(year), 2)]);
    let at = turn + random.within(-1, 1);
    if at < 0 {
        return;
    }
    parts.leap_seconds = vec![(at, -1)];
    parts.transitions.retain(|transition| transition.0 < at);
    let count = parts.types.len();
    parts
        .transitions
        .push((at, count - random.pick(&[1, 2, 3 - index])));
}

/// Lets the last transition have the type that the rule has there, but for one in ten.
fn fit(random: &Random, parts: &mut Parts, rule: Option<Rule>) {
    if let (Some(rule), Some(last)) = (&rule, parts.transitions.last_mut())
        && !random.one_in(10)
    {
        let count = parts.types.len();
        last.1 = match rule {
            Rule::Fixed(_) => count - 1,
            Rule::Alternate(rule) => {
                // The type by the turn before, which the check decides on; leap seconds are a matter of seconds.
                let year = 1970 + last.0.div_euclid(31_556_952);
                let turns = (year - 2..=year + 2)
                    .flat_map(|year| [(rule.start_in(year), 1), (rule.end_in(year), 2)]);
                let before = turns
                    .filter(|turn| turn.0 <= last.0)
                    .max_by_key(|turn| turn.0);
                if matches!(before, Some((_, 1))) {
                    count - 1
                } else {
                    count - 2
                }
            }
        };
    }
    parts.rule = rule;
}

/// Leap seconds: mostly a valid table of both directions.
fn leap_seconds(random: &Random) -> Vec<(i64, i32)> {
    let (mut at, mut correction) = (random.within(0, 100_000_000), 0);
    let mut table = Vec::new();
    if random.one_in(20) {
        correction = random.within(-30, 30) as i32;
    }
    for _ in 0..random.within(1, 6) {
        correction += random.pick(&[1, 1, -1]);
        table.push((at, correction));
        at += random.pick(&[
            2_419_199,
            2_419_200,
            2_419_198 + i64::from(!random.one_in(20)),
            15_552_000,
            63_072_000,
        ]);
    }
    if random.one_in(20) {
        table.push((at, correction));
    }
    table
}

/// A TZ string, ordinary or extended, valid or altered in a place or two.
pub fn text(random: &Random) -> String {
    let mut text = String::new();
    let quoted = |random: &Random| {
        let name = name(random);
        if name.chars().all(|letter| letter.is_ascii_alphabetic()) && random.one_in(2) {
            name
        } else {
            format!("<{name}>")
        }
    };
    let number = |random: &Random, last: i64| match random.within(0, 40) {
        0 => "".to_string(),
        1 => "99999999999".to_string(),
        2 => (last + 1).to_string(),
        3 => format!("{:02}", random.within(0, last)),
        _ => random.within(0, last).to_string(),
    };
    let clock = |random: &Random, last: i64| {
        let mut text = random.pick(&["", "", "", "+", "-"].map(String::from));
        text += &number(random, last);
        if random.one_in(4) {
            text += &format!(":{}", number(random, 59));
            if random.one_in(3) {
                text += &format!(":{}", number(random, 59));
            }
        }
        text
    };
    text += &quoted(random);
    text += &clock(random, 24);
    if !random.one_in(4) {
        text += &quoted(random);
        if random.one_in(3) {
            text += &clock(random, 24);
        }
        for _ in 0..2 {
            text.push(',');
            text += &match random.within(0, 3) {
                0 => format!("J{}", number(random, 365)),
                1 => number(random, 365),
                _ => format!(
                    "M{}.{}.{}",
                    number(random, 12),
                    number(random, 5),
                    number(random, 6)
                ),
            };
            if random.one_in(2) {
                let last = random.pick(&[24, 24, 167]);
                text += &format!("/{}", clock(random, last));
            }
        }
    }
    for _ in 0..random.pick(&[0, 0, 0, 0, 1, 2]) {
        alter_text(random, &mut text);
    }
    text
}

/// Inserts, deletes or changes a character.
fn alter_text(random: &Random, text: &mut String) {
    let mut letters: Vec<char> = text.chars().collect();
    let place = random.within(0, letters.len() as i64) as usize;
    let letter = random.pick(&[
        'A', '<', '>', ',', '.', '/', ':', '-', '+', 'J', 'M', '0', '9', ' ', '\n', '\t', 'é',
        '\0', '\u{b}', '_',
    ]);
    match random.within(0, 2) {
        0 => letters.insert(place, letter),
        _ if place == letters.len() => letters.truncate(place.saturating_sub(1)),
        1 => letters[place] = letter,
        _ => {
            letters.remove(place);
        }
    }
    *text = letters.into_iter().collect();
}

/// A file that is cut or in which some bytes are others.
pub fn altered(random: &Random, bytes: &[u8]) -> Vec<u8> {
    let mut bytes = bytes.to_vec();
    if bytes.is_empty() {
        return bytes;
    }
    if random.one_in(8) {
        bytes.truncate(random.within(0, bytes.len() as i64 - 1) as usize);
        return bytes;
    }
    for _ in 0..random.pick(&[1, 1, 1, 2, 4]) {
        // Near the front and the back are the headers and the footer.
        let last = bytes.len() as i64 - 1;
        let place = match random.within(0, 3) {
            0 => random.within(0, last.min(60)),
            1 => random.within((last - 60).max(0), last),
            _ => random.within(0, last),
        };
        let byte = random.pick(&[
            0,
            1,
            2,
            0x7f,
            0x80,
            0xff,
            b'\n',
            b',',
            b'0',
            b'3',
            b'4',
            (random.next() & 0xff) as u8,
        ]);
        bytes[place as usize] = byte;
    }
    bytes
}
