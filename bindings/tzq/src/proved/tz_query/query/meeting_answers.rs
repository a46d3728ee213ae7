// Generated from crates/tz_query/src/query/meeting_answers.rt by bindings/erase: its contracts are cut. Change that file instead.
//! Answers of `W` lines: a search in each of a number of weeks.

use super::answers::Answers;
use super::fault_names::field_fault_name;
use super::output::Written;
use super::read_query::Nanoseconds;
use crate::shim::alloc::Allocator;
use tz::proved::tz::constants::{SECONDS_PER_DAY, SECONDS_PER_WEEK};
use tz::proved::tz::error::datetime::DateTimeError;
use tz::proved::tz::inner::Fields;
use tz::proved::tz::{TzError, UtcDateTime};

/// The Unix time at which the first day begins in UTC, or the first error in the fields.
pub fn first_day_begins(first: &Fields) -> Result<i64, DateTimeError> {
    // Second 60 belongs to the next minute, which may be of the next day, or of no year.
    let second = if first.second == 60 { 59 } else { first.second };
    let (year, month, month_day) = (first.year, first.month, first.month_day);
    let (hour, minute, nanoseconds) = (first.hour, first.minute, first.nanoseconds);
    match UtcDateTime::new(year, month, month_day, hour, minute, second, nanoseconds) {
        Ok(date_time) => {
            let unix_time = date_time.unix_time();
            Ok(unix_time - unix_time.rem_euclid(SECONDS_PER_DAY))
        }
        Err(TzError::DateTime(fault)) => Err(fault),
        Err(_) => unreachable!(),
    }
}

/// The fields a number of weeks later, if their year is one of 32 bits.
pub fn week_of(first: &Fields, begins: i64, weeks: u8) -> Option<Fields> {
    let unix_time = begins + SECONDS_PER_WEEK * i64::from(weeks);
    let day = UtcDateTime::from_timespec(unix_time, 0).ok()?;
    Some(Fields {
        year: day.year(),
        month: day.month(),
        month_day: day.month_day(),
        ..*first
    })
}

impl<'a, A: Allocator + Copy> Answers<'a, A> {
    /// Answers a weekly meeting, which takes place in `count` weeks, in the first of them at these
    /// fields: for each week, by a search for its fields, or that its year is out of range.
    #[inline(never)]
    pub fn answer_meeting(&mut self, count: u8, first: &Fields) -> Written {
        let begins = match first_day_begins(first) {
            Ok(begins) => begins,
            Err(fault) => return self.output.push_error(field_fault_name(&fault)),
        };
        self.output.push_count(b'W', usize::from(count))?;
        let nanoseconds = Nanoseconds::new(first.nanoseconds);
        for weeks in 0..count {
            match week_of(first, begins, weeks) {
                Some(fields) => self.answer_search(&fields, &nanoseconds)?,
                None => self.output.push_error("OutOfRange")?,
            }
        }
        Ok(())
    }
}
