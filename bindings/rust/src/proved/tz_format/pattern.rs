// Generated from crates/tz_format/src/pattern.rt by bindings/erase: its contracts are cut. Change that file instead.
//! Patterns, and why a text is none.

use crate::proved::tz_format::conversion::{conversion_at, width_of};
use core::{error, fmt};

/// The sum of a width and more bytes, or 129 if it is above 128.
const fn widened(width: usize, more: usize) -> usize {
    if width + more > 129 {
        129
    } else {
        width + more
    }
}

/// The most bytes of the texts that a pattern prints, or 129 if there are more than 128.
///
/// # Errors
///
/// How many bytes stand before the first `%` that spells no conversion.
const fn measure(pattern: &[u8]) -> Result<usize, usize> {
    let mut position = 0;
    let mut width = 0;
    while position < pattern.len() {
        if pattern[position] == b'%' {
            let Some((conversion, spelled)) = conversion_at(pattern, position + 1) else {
                return Err(position);
            };
            width = widened(width, width_of(conversion));
            position += 1 + spelled;
        } else {
            width = widened(width, 1);
            position += 1;
        }
    }
    Ok(width)
}

/// Why a text is no pattern.
#[derive(Clone, Copy, Debug, PartialEq, Eq)]
#[non_exhaustive]
pub enum PatternError {
    /// A `%` spells no conversion.
    UnknownConversion {
        /// How many bytes stand before it.
        position: usize,
    },
    /// What the pattern prints has more than 128 bytes for some date time.
    TooLong,
}

/// A pattern of date times: a text whose `%` and the letters after it are conversions, which print
/// a part of a date time.
#[derive(Clone, Copy, Debug, PartialEq, Eq)]
pub struct Pattern<'a> {
    text: &'a str,
}

impl<'a> Pattern<'a> {
    /// The pattern with this text.
    ///
    /// # Errors
    ///
    /// [`PatternError::UnknownConversion`] at the first `%` that spells no conversion, or else
    /// [`PatternError::TooLong`] if the pattern prints more than 128 bytes for some date time.
    pub const fn new(text: &'a str) -> Result<Self, PatternError> {
        match measure(text.as_bytes()) {
            Err(position) => Err(PatternError::UnknownConversion { position }),
            Ok(width) if width > 128 => Err(PatternError::TooLong),
            Ok(_) => Ok(Pattern { text }),
        }
    }

    /// The pattern's text.
    #[must_use]
    pub const fn as_str(&self) -> &'a str {
        self.text
    }

    /// The most bytes that it prints, whatever the date time: 128 at most.
    #[must_use]
    pub const fn max_len(&self) -> usize {
        match measure(self.text.as_bytes()) {
            Ok(width) => width,
            Err(_) => 0,
        }
    }
}

impl Pattern<'_> {
    /// Dates in messages, as `Fri, 03 Nov 2000 05:06:07 +0100`. Years below 1900 and offsets of 100
    /// hours or more are printed too, which the standard does not have. (RFC 2822, section 3.3)
    pub const RFC_2822: Pattern<'static> = Pattern {
        text: "%a, %d %b %Y %H:%M:%S %z",
    };

    /// Dates on the Internet, with milliseconds, as `2000-11-03T05:06:07.089+01:00`. (RFC 3339,
    /// section 5.6)
    pub const RFC_3339_MILLIS: Pattern<'static> = Pattern {
        text: "%Y-%m-%dT%H:%M:%S%.3f%:z",
    };

    /// Dates of the Common Log Format of web servers, as `03/Nov/2000:05:06:07 +0100`.
    pub const COMMON_LOG: Pattern<'static> = Pattern {
        text: "%d/%b/%Y:%H:%M:%S %z",
    };
}

/// A pattern of date times of UTC alone, as that of HTTP's dates, which names the time zone.
#[derive(Clone, Copy, Debug, PartialEq, Eq)]
pub struct UtcPattern<'a> {
    pattern: Pattern<'a>,
}

impl<'a> UtcPattern<'a> {
    /// Dates in HTTP, as `Sun, 06 Nov 1994 08:49:37 GMT`. (RFC 9110, section 5.6.7)
    pub const HTTP_DATE: UtcPattern<'static> = UtcPattern {
        pattern: Pattern {
            text: "%a, %d %b %Y %H:%M:%S GMT",
        },
    };

    /// Makes a pattern one of date times of UTC alone.
    #[must_use]
    pub const fn new(pattern: Pattern<'a>) -> Self {
        UtcPattern { pattern }
    }

    /// The pattern itself, for date times of every zone.
    #[must_use]
    pub const fn pattern(&self) -> Pattern<'a> {
        self.pattern
    }
}

impl fmt::Display for PatternError {
    fn fmt(&self, f: &mut fmt::Formatter<'_>) -> fmt::Result {
        match self {
            PatternError::UnknownConversion { position, .. } => {
                write!(f, "no conversion begins at byte {position}")
            }
            PatternError::TooLong => f.write_str("a pattern that prints more than 128 bytes"),
        }
    }
}

impl error::Error for PatternError {}
