// Generated from crates/tz_query/src/query/answers.rt by bindings/erase: its contracts are cut. Change that file instead.
//! Answers of query bytes, line by line.

use super::kept_segment::KeptSegment;
use super::output::{Output, Page};
use super::read_query::{
    Nanoseconds, Query, after_line, read_query, read_usual_search_line, read_usual_time_line,
};
use super::suffixes::{Suffix, Suffixes};
use crate::shim::Vec;
use crate::shim::alloc::{AllocError, Allocator};
use tz::proved::tz::{LocalTimeType, TimeZone, TimeZoneRef, TzError};

/// The answers of lines over a zone, and what the lines share: a segment throughout which the clock
/// has one type.
pub struct Answers<'a, A: Allocator + Copy> {
    pub alloc: A,
    pub zone: TimeZoneRef<'a>,
    pub segment: KeptSegment,
    pub suffixes: Suffixes,
    /// The last instant that the kept segment did not serve (of a search, the first one of its
    /// window), with which `follow` compares the next such instant; at first 0.
    pub missed: i64,
    pub output: Output<A>,
}

impl<'a, A: Allocator + Copy> Answers<'a, A> {
    /// Answers the first line, whatever its numbers, and returns the position after that line.
    ///
    /// The position is a number, so that the call returns it in a register.
    fn answer_any_line(&mut self, queries: &[u8]) -> Result<usize, AllocError> {
        let Some((query, rest)) = read_query(queries) else {
            self.output.push_error("Line")?;
            return Ok(queries.len() - after_line(queries).len());
        };
        match query {
            Query::Time(unix_time, nanoseconds) => self.answer_any_time(unix_time, nanoseconds)?,
            Query::Search(fields) => self.answer_any_search(&fields)?,
            Query::Meeting(count, fields) => self.answer_meeting(count, &fields)?,
        }
        Ok(queries.len() - rest.len())
    }

    /// Answers the first line, and returns the bytes after that line.
    fn answer_line<'q>(&mut self, queries: &'q [u8]) -> Result<&'q [u8], AllocError> {
        let mut digits = [0; 9];
        if let Some((unix_time, rest)) = read_usual_time_line(queries, &mut digits) {
            self.answer_time(unix_time, &Nanoseconds::of_digits(digits))?;
            return Ok(rest);
        }
        if let Some((fields, rest)) = read_usual_search_line(queries, &mut digits) {
            self.answer_search(&fields, &Nanoseconds::of_digits(digits))?;
            return Ok(rest);
        }
        let end = self.answer_any_line(queries)?;
        Ok(&queries[end..])
    }
}

/// Answers query bytes over a zone.
///
/// A query is a letter and numbers, separated by exactly one space. `T u n` is the date time at the
/// Unix time u with n nanoseconds: its answer is the date time and the name of its type, `-` if it
/// has none. `F y mo d h mi s n` is the search of [`DateTime::find`] for these fields: its answer
/// is `F` and how many entries there are, and a line for each, `N` with a date time and its name,
/// or `S` with those before and after a jump. `W c y mo d h mi s n` is that search in each of c
/// weeks: for i from 0 to c - 1, for the date 7 i days later. Its answer is `W` and c, and that of
/// an `F` line for each week. A query that fails is answered by `E ` and the name of the error, and
/// a line that is no query by `E Line`. Lines and answers end in LF; the last line may lack it.
///
/// A number is an optional minus sign and one or more digits; leading zeros are allowed, and so is
/// `-0`, even for an unsigned type. Its value must fit its type: `i64` for u, `i32` for y, `u32`
/// for n, and `u8` for all others.
///
/// # Errors
///
/// [`TzError::Memory`] if an allocation fails.
pub fn answer<A: Allocator + Copy>(
    alloc: A,
    zone: TimeZoneRef<'_>,
    queries: &[u8],
) -> Result<Vec<u8, A>, TzError> {
    let answers = Vec::with_capacity(alloc, queries.len().saturating_mul(2))?;
    let page = Page::new();
    let mut answers = Answers {
        alloc,
        zone,
        // An empty segment: its first instant is after its last.
        segment: KeptSegment {
            from: 1,
            last: 0,
            suffix: Suffix::new(LocalTimeType::utc()),
        },
        suffixes: Suffixes::new(),
        missed: 0,
        output: Output { answers, page },
    };
    // Any segment of the clock will do: lines in order that lie elsewhere soon replace it, by
    // `follow`.
    answers.keep_segment(0);
    let mut rest = queries;
    while !rest.is_empty() {
        rest = answers.answer_line(rest)?;
    }
    answers.output.flush()?;
    Ok(answers.output.answers)
}

/// Answers query bytes over the zone that the bytes of a TZif file denote, as [`answer`] does. (RFC
/// 8536)
///
/// ```
/// # use std::time::Duration;
/// # use tz::{datetime::*, error::*, timezone::*, *};
/// pub fn answer_lines(file: &[u8], lines: &[u8]) -> Result<Vec<u8>, TzError> {
///     query::answer_tzif(file, lines)
/// }
/// ```
///
/// # Errors
///
/// - those of [`TimeZone::from_tz_data`], before a query is read;
/// - [`TzError::Memory`] if an allocation fails.
pub fn answer_tzif<A: Allocator + Copy>(
    alloc: A,
    tz_bytes: &[u8],
    queries: &[u8],
) -> Result<Vec<u8, A>, TzError> {
    let zone = TimeZone::from_tz_data(alloc, tz_bytes)?;
    answer(alloc, zone.as_ref(), queries)
}
