// Generated from crates/tz_format/src/formatted.rt by bindings/erase: its contracts are cut. Change that file instead.
//! Date times as a pattern prints them.

use crate::proved::tz::inner::{fields_of, utc_fields_of};
use crate::proved::tz::{DateTime, UtcDateTime};
use crate::proved::tz_base::fields::Fields;
use crate::proved::tz_format::line::Line;
use crate::proved::tz_format::moment::{Moment, Name};
use crate::proved::tz_format::pattern::{Pattern, UtcPattern};
use crate::proved::tz_format::print::push_pattern;
use core::fmt;

/// A date time as a pattern prints it.
#[derive(Clone, Copy, Debug)]
pub struct FormattedDateTime<'a> {
    pattern: Pattern<'a>,
    date_time: DateTime,
}

/// A date time of UTC as a pattern prints it.
#[derive(Clone, Copy, Debug)]
pub struct FormattedUtcDateTime<'a> {
    pattern: Pattern<'a>,
    date_time: UtcDateTime,
}

/// The fields by value.
const fn copied(fields: &Fields) -> Fields {
    *fields
}

/// What patterns print of a date time.
fn moment_of(date_time: &DateTime) -> Moment<'_> {
    let local_time_type = date_time.local_time_type();
    Moment {
        fields: copied(fields_of(date_time)),
        ut_offset: local_time_type.ut_offset(),
        name: Name::OfType(local_time_type),
        unix_time: date_time.unix_time(),
    }
}

/// What patterns print of a date time of UTC.
fn moment_of_utc(date_time: &UtcDateTime) -> Moment<'static> {
    Moment {
        fields: copied(utc_fields_of(date_time)),
        ut_offset: 0,
        name: Name::Fixed("UTC"),
        unix_time: date_time.unix_time(),
    }
}

/// Appends what a pattern prints of a date time.
#[cfg(feature = "inner")]
pub fn push_date_time(line: &mut Line, pattern: &Pattern<'_>, date_time: &DateTime) {
    push_pattern(line, pattern.as_str(), &moment_of(date_time));
}

/// Appends what a pattern prints of a date time of UTC.
#[cfg(feature = "inner")]
pub fn push_utc_date_time(line: &mut Line, pattern: &Pattern<'_>, date_time: &UtcDateTime) {
    push_pattern(line, pattern.as_str(), &moment_of_utc(date_time));
}

impl<'a> Pattern<'a> {
    /// The date time as the pattern prints it.
    #[must_use]
    pub const fn format(self, date_time: &DateTime) -> FormattedDateTime<'a> {
        FormattedDateTime {
            pattern: self,
            date_time: *date_time,
        }
    }
}

impl<'a> UtcPattern<'a> {
    /// The date time of UTC as the pattern prints it. The name of its time is UTC.
    #[must_use]
    pub const fn format(self, date_time: &UtcDateTime) -> FormattedUtcDateTime<'a> {
        FormattedUtcDateTime {
            pattern: self.pattern(),
            date_time: *date_time,
        }
    }
}

/// Prints the date time by the pattern, whatever the width of the format.
impl fmt::Display for FormattedDateTime<'_> {
    fn fmt(&self, f: &mut fmt::Formatter<'_>) -> fmt::Result {
        let mut line = Line::new();
        push_pattern(
            &mut line,
            self.pattern.as_str(),
            &moment_of(&self.date_time),
        );
        f.write_str(line.as_str())
    }
}

/// Prints the date time by the pattern, whatever the width of the format.
impl fmt::Display for FormattedUtcDateTime<'_> {
    fn fmt(&self, f: &mut fmt::Formatter<'_>) -> fmt::Result {
        let mut line = Line::new();
        push_pattern(
            &mut line,
            self.pattern.as_str(),
            &moment_of_utc(&self.date_time),
        );
        f.write_str(line.as_str())
    }
}
