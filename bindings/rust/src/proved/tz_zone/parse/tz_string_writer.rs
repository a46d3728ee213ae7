// Generated from crates/tz_zone/src/parse/tz_string_writer.rt by bindings/erase: its contracts are cut. Change that file instead.
//! Writes the TZ strings of rules.

use crate::proved::tz_base::text_buffer::TextBuffer;
use crate::proved::tz_rule::inner::designation_bytes;
use crate::proved::tz_rule::timezone::{AlternateTime, LocalTimeType, RuleDay, TransitionRule};
use crate::proved::tz_zone::parse::tz_string::{DEFAULT_HOUR, DEFAULT_SAVING};
use core::fmt;

/// The TZ string of a rule, which is made without an allocation. (POSIX.1-2017, Base Definitions,
/// 8.3)
pub struct TzString {
    text: TextBuffer,
}

/// Seconds of an hour.
const HOUR: u32 = 3600;

/// The default time of day of a start or an end in a TZ string, in seconds.
const DEFAULT_TIME: i32 = 3600 * DEFAULT_HOUR as i32;

/// The least offset in seconds that a TZ string cannot have.
const LONG_OFFSET: i32 = 90_000;

/// Appends a number of at most three digits.
fn push_number(buffer: &mut TextBuffer, number: u16) {
    buffer.push_digits(u64::from(number));
}

/// Appends :mm or :mm:ss of seconds of an hour, unless there are none.
fn push_minutes(buffer: &mut TextBuffer, seconds: u16) {
    if seconds != 0 {
        buffer.push(b':');
        buffer.push_two_digits((seconds / 60) as u8);
        buffer.push_seconds((seconds % 60) as u8);
    }
}

/// Appends h, h:mm or h:mm:ss.
fn push_plain_time(buffer: &mut TextBuffer, seconds: u32) {
    buffer.push_decimal(seconds / HOUR);
    push_minutes(buffer, (seconds % HOUR) as u16);
}

/// Appends a time after its sign, if it has one.
fn push_time(buffer: &mut TextBuffer, seconds: i32) {
    if seconds < 0 {
        buffer.push(b'-');
    }
    push_plain_time(buffer, seconds.unsigned_abs());
}

/// Whether the offset is at most 24:59:59 either way.
fn is_short_offset(ut_offset: i32) -> bool {
    -LONG_OFFSET < ut_offset && ut_offset < LONG_OFFSET
}

/// Appends an offset with POSIX's sign: west of Greenwich is positive.
fn push_offset(buffer: &mut TextBuffer, ut_offset: i32) {
    push_time(buffer, -ut_offset);
}

/// Whether all bytes are ASCII letters.
fn are_letters(bytes: &[u8]) -> bool {
    bytes.iter().all(|byte| byte.is_ascii_alphabetic())
}

/// Whether a name needs no angle brackets.
fn is_bare_name(name: &[u8]) -> bool {
    name.len() > 2 && are_letters(name)
}

/// Appends a name, in angle brackets if it needs them.
fn push_name(buffer: &mut TextBuffer, name: &[u8]) {
    if is_bare_name(name) {
        buffer.push_ascii(name);
    } else {
        buffer.push(b'<');
        buffer.push_ascii(name);
        buffer.push(b'>');
    }
}

/// Appends Jn, n or Mm.w.d.
fn push_day(buffer: &mut TextBuffer, day: &RuleDay) {
    match day {
        RuleDay::Julian1WithoutLeap(day) => {
            buffer.push(b'J');
            push_number(buffer, day.get());
        }
        RuleDay::Julian0WithLeap(day) => push_number(buffer, day.get()),
        RuleDay::MonthWeekDay(day) => {
            buffer.push(b'M');
            push_number(buffer, u16::from(day.month()));
            buffer.push(b'.');
            push_number(buffer, u16::from(day.week()));
            buffer.push(b'.');
            push_number(buffer, u16::from(day.week_day()));
        }
    }
}

/// Appends a day on which daylight saving time starts or ends: a comma, the day, and after a slash
/// the time of day, unless it is two o'clock.
fn push_switch(buffer: &mut TextBuffer, day: &RuleDay, time: i32) {
    buffer.push(b',');
    push_day(buffer, day);
    if time != DEFAULT_TIME {
        buffer.push(b'/');
        push_time(buffer, time);
    }
}

/// Appends the name of a type and its offset.
fn push_name_and_offset(buffer: &mut TextBuffer, local_time_type: &LocalTimeType) {
    push_name(buffer, designation_bytes(local_time_type));
    push_offset(buffer, local_time_type.ut_offset());
}

/// Appends the daylight name, its offset unless it is an hour more than the standard one, the start
/// and the end.
fn push_daylight(buffer: &mut TextBuffer, rule: &AlternateTime) {
    push_name(buffer, designation_bytes(rule.dst()));
    if rule.dst().ut_offset() != rule.std().ut_offset() + DEFAULT_SAVING {
        push_offset(buffer, rule.dst().ut_offset());
    }
    push_switch(buffer, rule.dst_start(), rule.dst_start_time());
    push_switch(buffer, rule.dst_end(), rule.dst_end_time());
}

/// Whether a TZ string can begin with the type.
fn is_standard(local_time_type: &LocalTimeType) -> bool {
    !local_time_type.is_dst()
        && !designation_bytes(local_time_type).is_empty()
        && is_short_offset(local_time_type.ut_offset())
}

/// Whether a TZ string can have the type as daylight saving time after standard time with the
/// offset `std`.
fn is_daylight(std: i32, local_time_type: &LocalTimeType) -> bool {
    local_time_type.is_dst()
        && !designation_bytes(local_time_type).is_empty()
        && (is_short_offset(local_time_type.ut_offset())
            || local_time_type.ut_offset() == std + DEFAULT_SAVING)
}

/// Whether there is a TZ string of the rule.
fn is_writable(rule: &TransitionRule) -> bool {
    match rule {
        TransitionRule::Fixed(fixed) => is_standard(fixed),
        TransitionRule::Alternate(rule) => {
            is_standard(rule.std()) && is_daylight(rule.std().ut_offset(), rule.dst())
        }
    }
}

impl TzString {
    /// The TZ string of the rule, or `None` if no TZ string denotes it: a type has no name, its
    /// daylight flag does not match its role, or its offset is 25 hours or more in either direction
    /// and not the default.
    ///
    /// The string is extended only if the rule has a time of day below 0:00 or above 24:59:59.
    /// Names of three letters or more are written without angle brackets. Minutes and seconds that
    /// are zero, the time of day 2:00, and a daylight offset of an hour more than the standard one
    /// are omitted. (POSIX.1-2017, Base Definitions, 8.3; RFC 8536, section 3.3.1)
    ///
    /// The TZ string of the rule of a zone, if it has one:
    ///
    /// ```
    /// # use std::time::Duration;
    /// # use tz::{datetime::*, error::*, timezone::*, *};
    /// pub fn rule_text(zone: TimeZoneRef<'_>) -> Option<TzString> {
    ///     match zone.extra_rule() {
    ///         Some(rule) => TzString::from_rule(rule),
    ///         None => None,
    ///     }
    /// }
    /// ```
    #[must_use]
    pub fn from_rule(rule: &TransitionRule) -> Option<TzString> {
        if !is_writable(rule) {
            return None;
        }
        let mut text = TextBuffer::new();
        match rule {
            TransitionRule::Fixed(fixed) => push_name_and_offset(&mut text, fixed),
            TransitionRule::Alternate(rule) => {
                push_name_and_offset(&mut text, rule.std());
                push_daylight(&mut text, rule);
            }
        }
        Some(TzString { text })
    }

    /// The text.
    #[must_use]
    pub const fn as_str(&self) -> &str {
        self.text.as_str()
    }
}

impl PartialEq for TzString {
    fn eq(&self, other: &TzString) -> bool {
        self.as_str() == other.as_str()
    }
}

impl Eq for TzString {}

impl fmt::Debug for TzString {
    fn fmt(&self, f: &mut fmt::Formatter<'_>) -> fmt::Result {
        f.debug_tuple("TzString").field(&self.as_str()).finish()
    }
}

/// Prints the text. The format's width plays no part.
impl fmt::Display for TzString {
    fn fmt(&self, f: &mut fmt::Formatter<'_>) -> fmt::Result {
        f.write_str(self.as_str())
    }
}
