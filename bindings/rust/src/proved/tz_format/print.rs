// Generated from crates/tz_format/src/print.rt by bindings/erase: its contracts are cut. Change that file instead.
//! What conversions print.

use crate::proved::tz::inner::pair_of;
use crate::proved::tz_base::fields::Fields;
use crate::proved::tz_format::conversion::{Conversion, conversion_at};
use crate::proved::tz_format::line::Line;
use crate::proved::tz_format::moment::Moment;
use crate::proved::tz_format::weeks::{days_since_monday, week_of, week_of_year};

/// The name of a month.
pub(crate) fn month_name(month: u8) -> &'static str {
    match month {
        1 => "January",
        2 => "February",
        3 => "March",
        4 => "April",
        5 => "May",
        6 => "June",
        7 => "July",
        8 => "August",
        9 => "September",
        10 => "October",
        11 => "November",
        _ => "December",
    }
}

/// The name of the day so many days after Sunday.
fn week_day_name(day: u8) -> &'static str {
    match day {
        0 => "Sunday",
        1 => "Monday",
        2 => "Tuesday",
        3 => "Wednesday",
        4 => "Thursday",
        5 => "Friday",
        _ => "Saturday",
    }
}

/// The last two digits of a year.
fn year_of_century(year: i64) -> u8 {
    year.rem_euclid(100) as u8
}

/// The hour on a clock of twelve hours.
const fn half_day_hour(hour: u8) -> u8 {
    (hour + 11) % 12 + 1
}

/// A fraction of a second, cut to milliseconds.
const fn milliseconds_of(nanoseconds: u32) -> u16 {
    (nanoseconds / 1_000_000) as u16
}

/// A fraction of a second, cut to microseconds.
const fn microseconds_of(nanoseconds: u32) -> u32 {
    nanoseconds / 1000
}

impl Line {
    /// Appends a name's first three letters.
    fn push_short(&mut self, name: &str) {
        // Bytes of an array of its own need no test for an overlap with the line.
        let mut letters = [0; 3];
        letters.copy_from_slice(&name.as_bytes()[..3]);
        self.push_all(&letters);
    }

    /// Appends a number below 100 in two bytes, with a space in the place of a first zero.
    fn push_spaced(&mut self, number: u8) {
        if number < 10 {
            self.push_all(&[b' ', b'0' + number]);
        } else {
            self.push_two_digits(number);
        }
    }

    /// Appends three digits.
    fn push_three_digits(&mut self, number: u16) {
        self.push(b'0' + (number / 100) as u8);
        self.push_two_digits((number % 100) as u8);
    }

    /// Appends six digits.
    fn push_six_digits(&mut self, number: u32) {
        self.push_three_digits((number / 1000) as u16);
        self.push_three_digits((number % 1000) as u16);
    }

    /// Appends nine digits.
    fn push_nine_digits(&mut self, number: u32) {
        self.push_six_digits(number / 1000);
        self.push_three_digits((number % 1000) as u16);
    }

    /// Appends four digits or more, and at most ten.
    fn push_four_digits_or_more(&mut self, number: u64) {
        if number < 10_000 {
            let front = pair_of((number / 100) as u8);
            let back = pair_of((number % 100) as u8);
            self.push_all(&[front[0], front[1], back[0], back[1]]);
        } else {
            self.push_digits(number);
        }
    }

    /// Appends a year.
    fn push_year(&mut self, year: i64) {
        if year < 0 {
            self.push(b'-');
        }
        self.push_four_digits_or_more(year.unsigned_abs());
    }

    /// Appends 100 hours or more and minutes, with a colon between or not.
    fn push_long_hours_and_minutes(&mut self, colon: bool, seconds: u32) {
        self.push_digits(u64::from(seconds / 3600));
        if colon {
            self.push(b':');
        }
        self.push_two_digits((seconds / 60 % 60) as u8);
    }
}

impl Line {
    /// Appends a sign, hours and minutes, with a colon between these or not.
    fn push_signed(&mut self, sign: u8, colon: bool, seconds: u32) {
        if seconds < 360_000 {
            let hours = pair_of((seconds / 3600) as u8);
            let minutes = pair_of((seconds / 60 % 60) as u8);
            if colon {
                self.push_all(&[sign, hours[0], hours[1], b':', minutes[0], minutes[1]]);
            } else {
                self.push_all(&[sign, hours[0], hours[1], minutes[0], minutes[1]]);
            }
        } else {
            self.push(sign);
            self.push_long_hours_and_minutes(colon, seconds);
        }
    }

    /// Appends an offset's sign, its hours and its minutes, with a colon between or not.
    fn push_offset(&mut self, colon: bool, ut_offset: i32) {
        let sign = if ut_offset < 0 { b'-' } else { b'+' };
        self.push_signed(sign, colon, ut_offset.unsigned_abs());
    }

    /// Appends a name, or the offset if it is empty.
    fn push_designation(&mut self, designation: &str, ut_offset: i32) {
        if designation.is_empty() {
            self.push_offset(true, ut_offset);
        } else {
            self.push_all(designation.as_bytes());
        }
    }

    /// Appends a Unix time.
    fn push_unix_time(&mut self, unix_time: i64) {
        if unix_time < 0 {
            self.push(b'-');
        }
        self.push_digits(unix_time.unsigned_abs());
    }

    /// Appends the month, the day of the month and the last two digits of the year, with slashes.
    fn push_date_with_slashes(&mut self, fields: &Fields) {
        self.push_two_digits(fields.month);
        self.push(b'/');
        self.push_two_digits(fields.month_day);
        self.push(b'/');
        self.push_two_digits(year_of_century(i64::from(fields.year)));
    }

    /// Appends the date.
    fn push_date(&mut self, fields: &Fields) {
        self.push_year(i64::from(fields.year));
        self.push(b'-');
        self.push_two_digits(fields.month);
        self.push(b'-');
        self.push_two_digits(fields.month_day);
    }

    /// Appends the hour and the minute.
    fn push_time_to_minutes(&mut self, fields: &Fields) {
        self.push_two_digits(fields.hour);
        self.push(b':');
        self.push_two_digits(fields.minute);
    }

    /// Appends the time of day.
    fn push_time(&mut self, fields: &Fields) {
        let hour = pair_of(fields.hour);
        let (minute, second) = (pair_of(fields.minute), pair_of(fields.second));
        self.push_all(&[
            hour[0], hour[1], b':', minute[0], minute[1], b':', second[0], second[1],
        ]);
    }
}

impl Line {
    /// Appends what a conversion prints, one by one.
    #[inline(never)]
    fn push_any_conversion(&mut self, conversion: Conversion, moment: &Moment<'_>) {
        let fields = &moment.fields;
        match conversion {
            Conversion::Year => self.push_year(i64::from(fields.year)),
            Conversion::YearOfCentury => {
                self.push_two_digits(year_of_century(i64::from(fields.year)));
            }
            Conversion::WeekYear => self.push_year(week_of(fields).0),
            Conversion::WeekYearOfCentury => {
                self.push_two_digits(year_of_century(week_of(fields).0));
            }
            Conversion::Month => self.push_two_digits(fields.month),
            Conversion::MonthName => self.push_all(month_name(fields.month).as_bytes()),
            Conversion::ShortMonthName => self.push_short(month_name(fields.month)),
            Conversion::MonthDay => self.push_two_digits(fields.month_day),
            Conversion::SpacedMonthDay => self.push_spaced(fields.month_day),
            Conversion::YearDay => self.push_three_digits(fields.year_day() + 1),
            Conversion::Hour => self.push_two_digits(fields.hour),
            Conversion::SpacedHour => self.push_spaced(fields.hour),
            Conversion::HalfDayHour => self.push_two_digits(half_day_hour(fields.hour)),
            Conversion::HalfDay => self.push_all(if fields.hour < 12 { b"AM" } else { b"PM" }),
            Conversion::Minute => self.push_two_digits(fields.minute),
            Conversion::Second => self.push_two_digits(fields.second),
            Conversion::WeekDayName => self.push_all(week_day_name(fields.week_day()).as_bytes()),
            Conversion::ShortWeekDayName => self.push_short(week_day_name(fields.week_day())),
            Conversion::WeekDayFromMonday => self.push(b'1' + days_since_monday(fields)),
            Conversion::WeekDayFromSunday => self.push(b'0' + fields.week_day()),
            Conversion::Week => self.push_two_digits(week_of(fields).1),
            Conversion::WeekFromSunday => {
                self.push_two_digits(week_of_year(fields.year_day(), fields.week_day()));
            }
            Conversion::WeekFromMonday => {
                self.push_two_digits(week_of_year(fields.year_day(), days_since_monday(fields)));
            }
            Conversion::UnixTime => self.push_unix_time(moment.unix_time),
            Conversion::Offset => self.push_offset(false, moment.ut_offset),
            Conversion::OffsetWithColon => self.push_offset(true, moment.ut_offset),
            Conversion::Designation => {
                self.push_designation(moment.name.text(), moment.ut_offset);
            }
            Conversion::Date => self.push_date(fields),
            Conversion::DateWithSlashes => self.push_date_with_slashes(fields),
            Conversion::Time => self.push_time(fields),
            Conversion::TimeToMinutes => self.push_time_to_minutes(fields),
            Conversion::Milliseconds => {
                self.push_three_digits(milliseconds_of(fields.nanoseconds));
            }
            Conversion::Microseconds => self.push_six_digits(microseconds_of(fields.nanoseconds)),
            Conversion::Nanoseconds => self.push_nine_digits(fields.nanoseconds),
            Conversion::PointMilliseconds => {
                self.push(b'.');
                self.push_three_digits(milliseconds_of(fields.nanoseconds));
            }
            Conversion::PointMicroseconds => {
                self.push(b'.');
                self.push_six_digits(microseconds_of(fields.nanoseconds));
            }
            Conversion::PointNanoseconds => {
                self.push(b'.');
                self.push_nine_digits(fields.nanoseconds);
            }
            Conversion::LineFeed => self.push(b'\n'),
            Conversion::Tab => self.push(b'\t'),
            Conversion::Percent => self.push(b'%'),
        }
    }

    /// Appends what a conversion prints, the usual ones here, where no register has to be saved for
    /// a call. In the loop over a pattern LLVM would compute before it what all conversions need.
    #[inline(never)]
    fn push_conversion(&mut self, conversion: Conversion, moment: &Moment<'_>) {
        match conversion {
            Conversion::Year => self.push_year(i64::from(moment.fields.year)),
            Conversion::ShortMonthName => self.push_short(month_name(moment.fields.month)),
            Conversion::Offset => self.push_offset(false, moment.ut_offset),
            _ => self.push_any_conversion(conversion, moment),
        }
    }
}

/// The number that a conversion prints as two digits, of those that most patterns have.
fn two_digits_of(conversion: Conversion, moment: &Moment<'_>) -> Option<u8> {
    match conversion {
        Conversion::Month => Some(moment.fields.month),
        Conversion::MonthDay => Some(moment.fields.month_day),
        Conversion::Hour => Some(moment.fields.hour),
        Conversion::Minute => Some(moment.fields.minute),
        Conversion::Second => Some(moment.fields.second),
        _ => None,
    }
}

/// Whether the conversion begins the time of day, as `%H:%M:%S` does in most patterns.
fn begins_time(conversion: Conversion, pattern: &[u8], position: usize) -> bool {
    if !matches!(conversion, Conversion::Hour) {
        return false;
    }
    let rest = &pattern[position..];
    // Six bytes at once would be compared in three parts.
    rest.starts_with(b":%M:") && rest[4..].starts_with(b"%S")
}

/// Appends what a pattern prints.
pub(crate) fn push_pattern(line: &mut Line, pattern: &str, moment: &Moment<'_>) {
    let pattern = pattern.as_bytes();
    let mut position = 0;
    while position < pattern.len() {
        let byte = pattern[position];
        position += 1;
        if byte == b'%' {
            let Some((conversion, spelled)) = conversion_at(pattern, position) else {
                return;
            };
            position += spelled;
            if begins_time(conversion, pattern, position) {
                line.push_time(&moment.fields);
                position += 6;
            } else if let Some(number) = two_digits_of(conversion, moment) {
                line.push_two_digits(number);
            } else {
                line.push_conversion(conversion, moment);
            }
        } else {
            line.push(byte);
        }
    }
}
