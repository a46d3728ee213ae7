//! What both crates are asked with: parts of zones and local times as plain values, and bytes of TZif files.

/// A local time type.
#[derive(Clone, Debug, PartialEq)]
pub struct Type {
    pub ut_offset: i32,
    pub is_dst: bool,
    pub name: Option<String>,
}

/// A day of a rule.
// tz-rs has this name.
#[allow(clippy::enum_variant_names)]
#[derive(Clone, Copy, Debug)]
pub enum Day {
    Julian1(u16),
    Julian0(u16),
    MonthWeekDay(u8, u8, u8),
}

/// An alternate rule.
#[derive(Clone, Debug)]
pub struct Alternate {
    pub std: Type,
    pub dst: Type,
    pub start: (Day, i32),
    pub end: (Day, i32),
}

/// A rule.
#[derive(Clone, Debug)]
pub enum Rule {
    Fixed(Type),
    Alternate(Alternate),
}

/// The parts of a zone.
#[derive(Clone, Debug, Default)]
pub struct Parts {
    pub transitions: Vec<(i64, usize)>,
    pub types: Vec<Type>,
    pub leap_seconds: Vec<(i64, i32)>,
    pub rule: Option<Rule>,
}

/// A local time.
#[derive(Clone, Copy, Debug)]
pub struct Local {
    pub year: i32,
    pub month: u8,
    pub day: u8,
    pub hour: u8,
    pub minute: u8,
    pub second: u8,
    pub nanoseconds: u32,
}

/// Days from 1970-01-01 to the first day of a month of a year.
fn days_before(year: i64, month: i64) -> i64 {
    let past = year - 1;
    let leap = year.rem_euclid(4) == 0 && (year.rem_euclid(100) != 0 || year.rem_euclid(400) == 0);
    let days =
        past * 365 + past.div_euclid(4) - past.div_euclid(100) + past.div_euclid(400) - 719_162;
    let of_month = [0, 31, 59, 90, 120, 151, 181, 212, 243, 273, 304, 334]
        [usize::try_from(month - 1).unwrap()];
    days + of_month + i64::from(leap && month > 2)
}

/// How many days a month has.
fn days_of(year: i64, month: i64) -> i64 {
    let next = if month == 12 {
        days_before(year + 1, 1)
    } else {
        days_before(year, month + 1)
    };
    next - days_before(year, month)
}

/// The instant at which a rule turns in a year, by its day and its time of day less the offset before.
pub fn turn(day: Day, seconds: i64, year: i64) -> i64 {
    let days = match day {
        Day::Julian0(number) => days_before(year, 1) + i64::from(number),
        Day::Julian1(number) => {
            let number = i64::from(number);
            days_before(year, 1) + number - 1 + i64::from(number > 59 && days_of(year, 2) == 29)
        }
        Day::MonthWeekDay(month, week, week_day) => {
            // Rules with other months are refused, and are asked for nothing but that.
            let month = i64::from(month).clamp(1, 12);
            let first = days_before(year, month);
            let ahead = (i64::from(week_day) - (first + 4)).rem_euclid(7);
            let mut day = ahead + (i64::from(week) - 1) * 7;
            while day >= days_of(year, month) {
                day -= 7;
            }
            first + day
        }
    };
    days * 86_400 + seconds
}

impl Alternate {
    /// The start of daylight saving time in a year.
    pub fn start_in(&self, year: i64) -> i64 {
        turn(
            self.start.0,
            i64::from(self.start.1) - i64::from(self.std.ut_offset),
            year,
        )
    }

    /// The end of daylight saving time in a year.
    pub fn end_in(&self, year: i64) -> i64 {
        turn(
            self.end.0,
            i64::from(self.end.1) - i64::from(self.dst.ut_offset),
            year,
        )
    }
}

impl Local {
    /// The seconds from 1970-01-01 00:00:00 of the same clock.
    pub fn reading(&self) -> i64 {
        let days =
            days_before(i64::from(self.year), i64::from(self.month)) + i64::from(self.day) - 1;
        days * 86_400
            + i64::from(self.hour) * 3600
            + i64::from(self.minute) * 60
            + i64::from(self.second)
    }

    /// The local time with so many seconds from 1970-01-01 00:00:00, if its year fits.
    pub fn from_reading(reading: i64, nanoseconds: u32) -> Option<Local> {
        if !(-67_768_100_567_971_200..=67_767_976_233_532_799).contains(&reading) {
            return None;
        }
        let days = reading.div_euclid(86_400);
        let time = reading.rem_euclid(86_400);
        // Of the mean length of a year the estimate is right but for a year.
        let mut year = 1970 + days * 400 / 146_097;
        while days < days_before(year, 1) {
            year -= 1;
        }
        while days_before(year + 1, 1) <= days {
            year += 1;
        }
        let mut month = 1;
        while month < 12 && days_before(year, month + 1) <= days {
            month += 1;
        }
        Some(Local {
            year: i32::try_from(year).ok()?,
            month: month as u8,
            day: (days - days_before(year, month) + 1) as u8,
            hour: (time / 3600) as u8,
            minute: (time / 60 % 60) as u8,
            second: (time % 60) as u8,
            nanoseconds,
        })
    }
}

/// The bytes of a TZif file of these parts, with a version and a footer. (RFC 9636, 3)
pub fn tz_file(parts: &Parts, version: u8, footer: &[u8]) -> Vec<u8> {
    let mut bytes = Vec::new();
    if version != 0 {
        let one = Parts {
            types: vec![Type {
                ut_offset: 0,
                is_dst: false,
                name: None,
            }],
            ..Parts::default()
        };
        block(&mut bytes, &one, version, 4);
    }
    block(&mut bytes, parts, version, if version == 0 { 4 } else { 8 });
    if version != 0 {
        bytes.push(b'\n');
        bytes.extend(footer);
        bytes.push(b'\n');
    }
    bytes
}

/// A header and a data block, with times of four or eight bytes.
fn block(bytes: &mut Vec<u8>, parts: &Parts, version: u8, width: usize) {
    let mut names = Vec::new();
    let starts: Vec<u8> = parts
        .types
        .iter()
        .map(|kind| {
            let start = names.len() as u8;
            names.extend(kind.name.iter().flat_map(|name| name.bytes()));
            names.push(0);
            start
        })
        .collect();
    bytes.extend(b"TZif");
    bytes.push(version);
    bytes.extend([0; 15]);
    let counts = [
        0,
        0,
        parts.leap_seconds.len(),
        parts.transitions.len(),
        parts.types.len(),
        names.len(),
    ];
    for count in counts {
        bytes.extend((count as u32).to_be_bytes());
    }
    let time = |value: i64| value.to_be_bytes()[8 - width..].to_vec();
    for (at, _) in &parts.transitions {
        bytes.extend(time(*at));
    }
    for (_, index) in &parts.transitions {
        bytes.push(*index as u8);
    }
    for (kind, start) in parts.types.iter().zip(starts) {
        bytes.extend(kind.ut_offset.to_be_bytes());
        bytes.extend([u8::from(kind.is_dst), start]);
    }
    bytes.extend(names);
    for (at, correction) in &parts.leap_seconds {
        bytes.extend(time(*at));
        bytes.extend(correction.to_be_bytes());
    }
}
