//! Prints what the Rust crate answers about dates: a line for each input, with `-` for `None`.
//! `run` beside it compares the lines with Python's answers.
//!
//! usage: dates-beside-python days FIRST LAST                by numbers of days
//!        dates-beside-python weeks FIRST LAST               by years
//!        dates-beside-python months FIRST LAST              by years
//!        dates-beside-python later FIRST LAST LEAST MOST    by years, and counts of months

use std::env;
use std::fmt::{self, Display};
use std::io::{self, BufWriter, Write};
use std::ops::RangeInclusive;
use tz::{Date, WeekDate, calendar};

/// Prints a value, or `-` for none.
struct Answer<T>(Option<T>);

impl<T: Display> Display for Answer<T> {
    fn fmt(&self, f: &mut fmt::Formatter<'_>) -> fmt::Result {
        match &self.0 {
            Some(value) => value.fmt(f),
            None => f.write_str("-"),
        }
    }
}

fn text_of(week_date: WeekDate) -> String {
    let WeekDate {
        year,
        week,
        week_day,
    } = week_date;
    format!("{year}-W{week:02}-{week_day}")
}

fn days(out: &mut impl Write, numbers: RangeInclusive<i64>) -> io::Result<()> {
    for number in numbers {
        let Some(date) = Date::from_day_number(number) else {
            writeln!(out, "{number}: -")?;
            continue;
        };
        let week_date = Answer(date.week_date().map(text_of));
        let (day_number, week_day) = (date.day_number(), date.week_day());
        write!(out, "{number}: {date} {day_number} {week_day} {week_date}")?;
        write!(out, " {}", date.last_of_month())?;
        for week_day in 0..=7 {
            write!(out, " {}", Answer(date.next_week_day(week_day)))?;
        }
        writeln!(out)?;
    }
    Ok(())
}

fn weeks(out: &mut impl Write, years: RangeInclusive<i32>) -> io::Result<()> {
    for year in years {
        for week in 0..=54 {
            write!(out, "{year} {week}:")?;
            for week_day in 0..=8 {
                let week_date = WeekDate {
                    year,
                    week,
                    week_day,
                };
                write!(out, " {}", Answer(Date::from_week_date(week_date)))?;
            }
            writeln!(out)?;
        }
    }
    Ok(())
}

fn months(out: &mut impl Write, years: RangeInclusive<i32>) -> io::Result<()> {
    for year in years {
        let is_leap = calendar::is_leap_year(year);
        for month in 0..=13 {
            let length = Answer(calendar::days_in_month(year, month));
            write!(out, "{year} {month}: {is_leap} {length}")?;
            for week_day in 0..=7 {
                for n in [i8::MIN].into_iter().chain(-6..=6).chain([i8::MAX]) {
                    write!(
                        out,
                        " {}",
                        Answer(Date::nth_week_day(year, month, n, week_day))
                    )?;
                }
            }
            writeln!(out)?;
        }
    }
    Ok(())
}

fn later(
    out: &mut impl Write,
    years: RangeInclusive<i32>,
    counts: RangeInclusive<i32>,
) -> io::Result<()> {
    for year in years {
        for month in 1..=12 {
            for date in [1, 28, 29, 30, 31].map(|month_day| Date::new(year, month, month_day)) {
                let Ok(date) = date else { continue };
                write!(out, "{date}:")?;
                for count in counts.clone() {
                    write!(out, " {}", Answer(date.checked_add_months(count)))?;
                }
                writeln!(out)?;
            }
        }
    }
    Ok(())
}

fn main() -> io::Result<()> {
    let arguments: Vec<String> = env::args().skip(1).collect();
    let number = |at: usize| -> i64 { arguments[at].parse().expect("a number") };
    let small = |at: usize| i32::try_from(number(at)).expect("a number of 32 bits");
    let mut out = BufWriter::new(io::stdout().lock());
    match arguments[0].as_str() {
        "days" => days(&mut out, number(1)..=number(2))?,
        "weeks" => weeks(&mut out, small(1)..=small(2))?,
        "months" => months(&mut out, small(1)..=small(2))?,
        "later" => later(&mut out, small(1)..=small(2), small(3)..=small(4))?,
        other => panic!("{other}: days, weeks, months or later"),
    }
    out.flush()
}
