// Generated from crates/tz_zone/src/parse/tz_string.rt by bindings/erase: its contracts are cut. Change that file instead.
//! TZ strings: numbers, names and offsets, the days and times at which daylight saving time starts
//! and ends, whole rules, and zones of these. (POSIX.1-2017, Base Definitions, 8.3)

use super::after_byte;
#[cfg(feature = "alloc")]
use crate::proved::tz_base::error::Error;
use crate::proved::tz_base::error::{LocalTimeTypeError, ParseDataError, TzError, TzStringError};
use crate::proved::tz_rule::timezone::{
    AlternateTime, Julian0WithLeap, Julian1WithoutLeap, LocalTimeType, MonthWeekDay, RuleDay,
    TransitionRule,
};
#[cfg(feature = "alloc")]
use crate::proved::tz_zone::timezone::TimeZone;
#[cfg(feature = "alloc")]
use crate::shim::Vec;
#[cfg(feature = "alloc")]
use crate::shim::alloc::Allocator;

/// The bytes after a byte, which must come first.
fn expect_byte(text: &[u8], byte: u8) -> Result<&[u8], TzStringError> {
    if text.is_empty() {
        return Err(TzStringError::ParseData(ParseDataError::UnexpectedEof));
    }
    match after_byte(text, byte) {
        Some(rest) => Ok(rest),
        None => Err(TzStringError::ParseData(ParseDataError::InvalidData)),
    }
}

/// The longest run of digits at the beginning, and the rest of the bytes.
fn split_digits(text: &[u8]) -> (&[u8], &[u8]) {
    let len = text.iter().take_while(|byte| byte.is_ascii_digit()).count();
    text.split_at(len)
}

/// The value of the first byte, if it is a digit, and the rest of the bytes.
fn after_digit(text: &[u8]) -> Option<(u8, &[u8])> {
    match text {
        [first, rest @ ..] if first.is_ascii_digit() => Some((*first - b'0', rest)),
        _ => None,
    }
}

/// The number at the beginning, if it has one digit or two, as most numbers of a string have, and
/// the rest of the bytes.
#[inline(always)]
fn read_two_digits(text: &[u8]) -> Option<(u8, &[u8])> {
    let (first, rest) = after_digit(text)?;
    let Some((second, after)) = after_digit(rest) else {
        return Some((first, rest));
    };
    match after_digit(after) {
        Some(_) => None,
        None => Some((10 * first + second, after)),
    }
}

/// The longest run of digits at the beginning, as a text, and the rest of the bytes.
fn read_digits(text: &[u8]) -> (&str, &[u8]) {
    let (digits, rest) = split_digits(text);
    (crate::shim::text(digits), rest)
}

/// A number of hours, minutes or seconds of any length, which fits 31 bits, and the rest of the
/// bytes.
fn read_long_time_number(text: &[u8]) -> Result<(u32, &[u8]), TzStringError> {
    let (digits, rest) = read_digits(text);
    let number = digits.parse::<i32>()?;
    Ok((number as u32, rest))
}

/// The number of a day of the year of any length, and the rest of the bytes.
fn read_long_year_day(text: &[u8]) -> Result<(u16, &[u8]), TzStringError> {
    let (digits, rest) = read_digits(text);
    Ok((digits.parse::<u16>()?, rest))
}

/// The number of a month, a week or a week day of any length, and the rest of the bytes.
fn read_long_date_number(text: &[u8]) -> Result<(u8, &[u8]), TzStringError> {
    let (digits, rest) = read_digits(text);
    Ok((digits.parse::<u8>()?, rest))
}

/// A number of hours, minutes or seconds, which fits 31 bits, and the rest of the bytes.
#[inline(always)]
fn read_time_number(text: &[u8]) -> Result<(u32, &[u8]), TzStringError> {
    match read_two_digits(text) {
        Some((number, rest)) => Ok((u32::from(number), rest)),
        None => read_long_time_number(text),
    }
}

/// The number of a day of the year, and the rest of the bytes.
fn read_year_day(text: &[u8]) -> Result<(u16, &[u8]), TzStringError> {
    match read_two_digits(text) {
        Some((number, rest)) => Ok((u16::from(number), rest)),
        None => read_long_year_day(text),
    }
}

/// The number of a month, a week or a week day, and the rest of the bytes.
fn read_date_number(text: &[u8]) -> Result<(u8, &[u8]), TzStringError> {
    match read_two_digits(text) {
        Some((number, rest)) => Ok((number, rest)),
        None => read_long_date_number(text),
    }
}

/// The longest run of ASCII letters at the beginning, and the rest of the bytes.
fn split_letters(text: &[u8]) -> (&[u8], &[u8]) {
    let len = text
        .iter()
        .take_while(|byte| byte.is_ascii_alphabetic())
        .count();
    text.split_at(len)
}

/// The bytes before the first closing angle bracket, and the bytes from there on.
fn split_at_bracket(text: &[u8]) -> (&[u8], &[u8]) {
    let len = text.iter().take_while(|byte| **byte != b'>').count();
    text.split_at(len)
}

/// The name at the beginning, and the rest of the bytes.
#[inline]
fn read_name(text: &[u8]) -> Result<(&[u8], &[u8]), TzStringError> {
    let Some(quoted) = after_byte(text, b'<') else {
        return Ok(split_letters(text));
    };
    let (name, rest) = split_at_bracket(quoted);
    match after_byte(rest, b'>') {
        Some(rest) => Ok((name, rest)),
        None => Err(TzStringError::ParseData(ParseDataError::UnexpectedEof)),
    }
}

/// The greatest hour of an offset, and of a day time in an ordinary string.
const DAY_HOURS: u32 = 24;

/// The greatest hour of a day time in an extended string.
const EXTENDED_HOURS: u32 = 167;

/// The greatest minute, and the greatest second.
const LAST_OF_SIXTY: u32 = 59;

/// A time as it is written: whether it has a minus sign, and its numbers.
#[derive(Clone, Copy)]
struct WrittenTime {
    minus: bool,
    hours: u32,
    minutes: u32,
    seconds: u32,
}

impl WrittenTime {
    /// The time in seconds, less than a week either way.
    const fn total_seconds(self) -> i32 {
        let seconds = (3600 * self.hours + 60 * self.minutes + self.seconds) as i32;
        if self.minus { -seconds } else { seconds }
    }
}

impl WrittenTime {
    /// The offset from UTC in seconds. In a string its sign is the opposite: west of Greenwich is
    /// positive.
    const fn ut_offset(self) -> i32 {
        -self.total_seconds()
    }

    /// The offset of daylight saving time from UTC in seconds, if `self` is that of standard time:
    /// the written one, or an hour more than that of standard time if none is written.
    fn daylight_ut_offset(self, daylight: Option<WrittenTime>) -> i32 {
        match daylight {
            Some(offset) => offset.ut_offset(),
            None => self.ut_offset() + DEFAULT_SAVING,
        }
    }
}

/// The number after a colon, or 0 if there is no colon, and the rest of the bytes.
#[inline(always)]
fn read_part(text: &[u8]) -> Result<(u32, &[u8]), TzStringError> {
    match after_byte(text, b':') {
        Some(number) => read_time_number(number),
        None => Ok((0, text)),
    }
}

/// Hours, minutes and seconds after a sign that has been read, and the rest of the bytes.
#[inline(always)]
fn read_hms(text: &[u8], minus: bool) -> Result<(WrittenTime, &[u8]), TzStringError> {
    let (hours, rest) = read_time_number(text)?;
    let (minutes, rest) = read_part(rest)?;
    let (seconds, rest) = read_part(rest)?;
    Ok((
        WrittenTime {
            minus,
            hours,
            minutes,
            seconds,
        },
        rest,
    ))
}

/// Whether a minus comes first, and the bytes after it or after a plus.
fn read_sign(text: &[u8]) -> (bool, &[u8]) {
    if let Some(rest) = after_byte(text, b'-') {
        return (true, rest);
    }
    if let Some(rest) = after_byte(text, b'+') {
        return (false, rest);
    }
    (false, text)
}

/// How far daylight saving time is ahead of standard time, in seconds, if a string does not say.
pub const DEFAULT_SAVING: i32 = 3600;

/// Checks that the numbers of an offset are in range.
fn check_offset(time: &WrittenTime) -> Result<(), TzStringError> {
    if time.hours > DAY_HOURS {
        return Err(TzStringError::InvalidOffsetHour);
    }
    if time.minutes > LAST_OF_SIXTY {
        return Err(TzStringError::InvalidOffsetMinute);
    }
    if time.seconds > LAST_OF_SIXTY {
        return Err(TzStringError::InvalidOffsetSecond);
    }
    Ok(())
}

/// The offset at the beginning, and the rest of the bytes.
#[inline(always)]
fn read_offset(text: &[u8]) -> Result<(WrittenTime, &[u8]), TzStringError> {
    let (minus, rest) = read_sign(text);
    let (offset, rest) = read_hms(rest, minus)?;
    check_offset(&offset)?;
    Ok((offset, rest))
}

/// The daylight offset, which may be omitted before a comma, and the rest of the bytes.
#[inline(always)]
fn read_daylight_offset(text: &[u8]) -> Result<(Option<WrittenTime>, &[u8]), TzStringError> {
    match after_byte(text, b',') {
        Some(_) => Ok((None, text)),
        None => {
            let (offset, rest) = read_offset(text)?;
            Ok((Some(offset), rest))
        }
    }
}

/// The number after a `J`, and the rest of the bytes.
fn read_julian_day(text: &[u8]) -> Result<(Julian1WithoutLeap, &[u8]), TzError> {
    let (number, rest) = read_year_day(text)?;
    Ok((Julian1WithoutLeap::new(number)?, rest))
}

/// A number of days from January 1st on, and the rest of the bytes.
fn read_zero_based_day(text: &[u8]) -> Result<(Julian0WithLeap, &[u8]), TzError> {
    let (number, rest) = read_year_day(text)?;
    Ok((Julian0WithLeap::new(number)?, rest))
}

/// The month, the week and the week day after an `M`, each of one digit or two, as strings usually
/// have them, and the rest of the bytes.
#[inline]
fn read_usual_month_week_day(text: &[u8]) -> Option<(u8, u8, u8, &[u8])> {
    let (month, rest) = read_two_digits(text)?;
    let rest = after_byte(rest, b'.')?;
    let (week, rest) = read_two_digits(rest)?;
    let rest = after_byte(rest, b'.')?;
    let (week_day, rest) = read_two_digits(rest)?;
    Some((month, week, week_day, rest))
}

/// The month, the week and the week day after an `M`, of any length, and the rest of the bytes.
fn read_long_month_week_day(text: &[u8]) -> Result<(MonthWeekDay, &[u8]), TzError> {
    let (month, rest) = read_date_number(text)?;
    let rest = expect_byte(rest, b'.')?;
    let (week, rest) = read_date_number(rest)?;
    let rest = expect_byte(rest, b'.')?;
    let (week_day, rest) = read_date_number(rest)?;
    Ok((MonthWeekDay::new(month, week, week_day)?, rest))
}

/// The month, the week and the week day after an `M`, and the rest of the bytes.
#[inline(always)]
fn read_month_week_day(text: &[u8]) -> Result<(MonthWeekDay, &[u8]), TzError> {
    match read_usual_month_week_day(text) {
        Some((month, week, week_day, rest)) => {
            Ok((MonthWeekDay::new(month, week, week_day)?, rest))
        }
        None => read_long_month_week_day(text),
    }
}

/// The day of a switch, and the rest of the bytes.
#[inline(always)]
fn read_rule_day(text: &[u8]) -> Result<(RuleDay, &[u8]), TzError> {
    if let Some(number) = after_byte(text, b'J') {
        return match read_julian_day(number) {
            Ok((day, rest)) => Ok((RuleDay::Julian1WithoutLeap(day), rest)),
            Err(error) => Err(error),
        };
    }
    if let Some(month) = after_byte(text, b'M') {
        return match read_month_week_day(month) {
            Ok((day, rest)) => Ok((RuleDay::MonthWeekDay(day), rest)),
            Err(error) => Err(error),
        };
    }
    match read_zero_based_day(text) {
        Ok((day, rest)) => Ok((RuleDay::Julian0WithLeap(day), rest)),
        Err(error) => Err(error),
    }
}

/// The sign of a day time, which an ordinary string does not have.
fn read_day_time_sign(text: &[u8], extended: bool) -> (bool, &[u8]) {
    if extended {
        return read_sign(text);
    }
    (false, text)
}

/// The greatest hour of a day time.
fn greatest_hour(extended: bool) -> u32 {
    if extended { EXTENDED_HOURS } else { DAY_HOURS }
}

/// Checks that the numbers of a day time are in range.
fn check_day_time(time: &WrittenTime, extended: bool) -> Result<(), TzStringError> {
    if time.hours > greatest_hour(extended) {
        return Err(TzStringError::InvalidDayTimeHour);
    }
    if time.minutes > LAST_OF_SIXTY {
        return Err(TzStringError::InvalidDayTimeMinute);
    }
    if time.seconds > LAST_OF_SIXTY {
        return Err(TzStringError::InvalidDayTimeSecond);
    }
    Ok(())
}

/// The day time at the beginning, and the rest of the bytes.
#[inline(always)]
fn read_day_time(text: &[u8], extended: bool) -> Result<(WrittenTime, &[u8]), TzStringError> {
    let (minus, rest) = read_day_time_sign(text, extended);
    let (time, rest) = read_hms(rest, minus)?;
    check_day_time(&time, extended)?;
    Ok((time, rest))
}

/// A switch: a day of each year, and a time of that day.
#[derive(Clone, Copy)]
struct DayAndTime {
    day: RuleDay,
    time: WrittenTime,
}

/// The hour of a switch for which a string has no time.
pub const DEFAULT_HOUR: u32 = 2;

/// Two o'clock, the time of a switch that has none.
fn two_o_clock() -> WrittenTime {
    WrittenTime {
        minus: false,
        hours: DEFAULT_HOUR,
        minutes: 0,
        seconds: 0,
    }
}

/// The time after a slash, or two o'clock if there is no slash, and the rest of the bytes.
#[inline(always)]
fn read_time_of_switch(text: &[u8], extended: bool) -> Result<(WrittenTime, &[u8]), TzStringError> {
    match after_byte(text, b'/') {
        Some(time) => read_day_time(time, extended),
        None => Ok((two_o_clock(), text)),
    }
}

/// A switch, and the rest of the bytes.
#[inline(always)]
fn read_switch(text: &[u8], extended: bool) -> Result<(DayAndTime, &[u8]), TzError> {
    match read_rule_day(text) {
        Ok((day, rest)) => {
            let (time, rest) = read_time_of_switch(rest, extended)?;
            Ok((DayAndTime { day, time }, rest))
        }
        Err(error) => Err(error),
    }
}

/// The last switch, with nothing after it.
#[inline(always)]
fn read_last_switch(text: &[u8], extended: bool) -> Result<DayAndTime, TzError> {
    match read_switch(text, extended) {
        Ok((switch, rest)) => {
            if !rest.is_empty() {
                return Err(TzError::TzString(TzStringError::RemainingData));
            }
            Ok(switch)
        }
        Err(error) => Err(error),
    }
}

/// The start and the end, with a comma between them and nothing after them.
#[inline(always)]
fn read_switches(text: &[u8], extended: bool) -> Result<(DayAndTime, DayAndTime), TzError> {
    match read_switch(text, extended) {
        Ok((start, rest)) => {
            let end_text = expect_byte(rest, b',')?;
            let end = read_last_switch(end_text, extended)?;
            Ok((start, end))
        }
        Err(error) => Err(error),
    }
}

/// The daylight name, its offset, and the switches after a comma.
#[allow(clippy::type_complexity)]
#[inline]
fn read_daylight(text: &[u8]) -> Result<(&[u8], Option<WrittenTime>, &[u8]), TzStringError> {
    let (name, rest) = read_name(text)?;
    if rest.is_empty() {
        return Err(TzStringError::MissingDstStartEndRules);
    }
    let (offset, rest) = read_daylight_offset(rest)?;
    if rest.is_empty() {
        return Err(TzStringError::MissingDstStartEndRules);
    }
    let switches = expect_byte(rest, b',')?;
    Ok((name, offset, switches))
}

/// The local time type with this name.
#[inline]
fn named_type(
    name: &[u8],
    ut_offset: i32,
    is_dst: bool,
) -> Result<LocalTimeType, LocalTimeTypeError> {
    LocalTimeType::new(ut_offset, is_dst, Some(name))
}

/// The rule that the whole string denotes.
#[inline]
fn read_text(text: &[u8], extended: bool) -> Result<TransitionRule, TzError> {
    let (std_name, rest) = read_name(text)?;
    let (std_offset, rest) = read_offset(rest)?;
    if rest.is_empty() {
        let fixed = named_type(std_name, std_offset.ut_offset(), false)?;
        return Ok(TransitionRule::Fixed(fixed));
    }
    let (dst_name, dst_offset, switches) = read_daylight(rest)?;
    let (start, end) = read_switches(switches, extended)?;
    let std = named_type(std_name, std_offset.ut_offset(), false)?;
    let dst = named_type(dst_name, std_offset.daylight_ut_offset(dst_offset), true)?;
    let start_time = start.time.total_seconds();
    let end_time = end.time.total_seconds();
    let rule = AlternateTime::new(std, dst, start.day, start_time, end.day, end_time)?;
    Ok(TransitionRule::Alternate(rule))
}

/// The rule that a TZ string denotes. (POSIX.1-2017, Base Definitions, 8.3)
///
/// An extended string may have signed day times, of at most 167 hours, 59 minutes and 59 seconds
/// either way. (RFC 8536, section 3.3.1)
#[inline]
pub fn parse_posix_tz(text: &[u8], extended: bool) -> Result<TransitionRule, TzError> {
    read_text(text, extended)
}

/// The types of a rule.
#[cfg(feature = "alloc")]
#[inline]
fn types_of<A: Allocator + Copy>(
    alloc: A,
    rule: &TransitionRule,
) -> Result<Vec<LocalTimeType, A>, TzError> {
    match rule {
        TransitionRule::Fixed(local_time_type) => Ok(Vec::from_array(alloc, [*local_time_type])?),
        TransitionRule::Alternate(rule) => Ok(Vec::from_array(alloc, [*rule.std(), *rule.dst()])?),
    }
}

/// The zone of a rule.
#[cfg(feature = "alloc")]
#[inline]
fn zone_of_rule<A: Allocator + Copy>(
    alloc: A,
    rule: TransitionRule,
) -> Result<TimeZone<A>, TzError> {
    let types = types_of(alloc, &rule)?;
    TimeZone::new(Vec::new(alloc), types, Vec::new(alloc), Some(rule))
}

/// The zone of a TZ string, with white space at its ends or without.
#[cfg(feature = "alloc")]
#[inline]
pub(crate) fn zone_of_tz_string<A: Allocator + Copy>(
    alloc: A,
    text: &str,
) -> Result<TimeZone<A>, Error> {
    let rule = parse_posix_tz(text.as_bytes().trim_ascii(), false)?;
    Ok(zone_of_rule(alloc, rule)?)
}
