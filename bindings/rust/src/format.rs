//! Date times printed and read by patterns, as strftime's and strptime's, and local times as people write them.
//!
//! A pattern is a text in which a `%` and the letters after it are a conversion, and every other character stands for itself. [`Pattern::new`] checks a
//! pattern, and [`pattern!`](crate::pattern) does so when the program is compiled. What a pattern prints has at most 128 bytes, whatever the date time, so
//! printing allocates nothing and writes all of the text at once.
//!
//! ```
//! use tz::format::Pattern;
//! use tz::{DateTime, LocalTimeType, UtcDateTime, pattern};
//!
//! const LINE: Pattern<'static> = pattern!("%Y-%m-%d %H:%M:%S%.3f %Z");
//!
//! let paris = LocalTimeType::new(3600, false, Some(b"CET"))?;
//! let date_time = DateTime::from_timespec_and_local(973_224_367, 89_000_000, paris)?;
//! assert_eq!(date_time.format(LINE).to_string(), "2000-11-03 05:06:07.089 CET");
//! assert_eq!(date_time.format(Pattern::COMMON_LOG).to_string(), "03/Nov/2000:05:06:07 +0100");
//!
//! let utc = UtcDateTime::from_timespec(784_111_777, 0)?;
//! assert_eq!(utc.format(UtcPattern::HTTP_DATE).to_string(), "Sun, 06 Nov 1994 08:49:37 GMT");
//! # use tz::format::UtcPattern;
//! # Ok::<(), tz::TzError>(())
//! ```
//!
//! # Conversions
//!
//! Names are those of the locale of C.
//!
//! | conversion | prints |
//! |---|---|
//! | `%Y` | the year, of four digits at least, with `-` before one below 0 |
//! | `%y` | its last two digits, which grow from 00 to 99 in years below 0, too |
//! | `%m` | the month, 01 to 12 |
//! | `%B` `%b` `%h` | its name, and its first three letters |
//! | `%d` `%e` | the day of the month, 01 to 31, and with a space in the place of a first zero |
//! | `%j` | the day of the year, 001 to 366 |
//! | `%H` `%k` | the hour, 00 to 23, and with a space in the place of a first zero |
//! | `%I` `%p` | the hour of a clock of twelve hours, 01 to 12, and AM or PM |
//! | `%M` `%S` | the minute, 00 to 59, and the second, 00 to 60 |
//! | `%3f` `%6f` `%9f` | the fraction of the second, cut to so many digits |
//! | `%.3f` `%.6f` `%.9f` | the same after a point |
//! | `%A` `%a` | the name of the week day, and its first three letters |
//! | `%u` `%w` | its number, 1 to 7 from Monday, and 0 to 6 from Sunday |
//! | `%V` | the week of ISO 8601, 01 to 53 |
//! | `%G` `%g` | the year of that week, and its last two digits |
//! | `%U` `%W` | the week of the year, 00 to 53, of weeks from Sunday, and from Monday |
//! | `%s` | the Unix time |
//! | `%z` `%:z` | the offset from UTC as `+hhmm` and `+hh:mm`, its seconds dropped; 100 hours and more have all their digits |
//! | `%Z` | the name of the local time type, or the offset as `%:z` if there is none; of a [`UtcDateTime`] `UTC` |
//! | `%F` `%D` | `%Y-%m-%d` and `%m/%d/%y` |
//! | `%T` `%R` | `%H:%M:%S` and `%H:%M` |
//! | `%n` `%t` `%%` | a line feed, a tab and `%` |
//!
//! Everything else after a `%` is an error of [`Pattern::new`]. This follows glibc's `strftime` in its locale of C, but that glibc prints years below
//! 1000 with fewer digits, and that it has conversions of locales, flags and widths.
//!
//! # Reading
//!
//! [`Pattern::read`] takes exactly the texts that the pattern prints, of the years from 0 to 9999, and offsets of whole minutes below 100 hours. It
//! allocates nothing. Not read are `%G`, `%s` and `%Z`, nor what determines a part by halves. [`LenientDateTime::parse`] reads local times without a
//! pattern.
//!
//! ```
//! use tz::format::{LenientDateTime, Pattern, ReadPatternError};
//!
//! let read = Pattern::RFC_2822.read(b"Fri, 21 Nov 1997 09:55:06 -0600")?;
//! assert_eq!(read.local().to_string(), "1997-11-21T09:55:06.000000000Z");
//! assert_eq!(read.ut_offset(), Some(-21_600));
//! // That day was no Thursday, and no month is Nof.
//! let error = Pattern::RFC_2822.read(b"Thu, 21 Nov 1997 09:55:06 -0600").unwrap_err();
//! assert_eq!(error, ReadPatternError::Mismatch { position: 0 });
//! let error = Pattern::RFC_2822.read(b"Fri, 21 Nof 1997 09:55:06 -0600").unwrap_err();
//! assert_eq!(error, ReadPatternError::Mismatch { position: 10 });
//!
//! let written = LenientDateTime::parse(b"1997-11-21 09:55[America/Chicago]").unwrap();
//! assert_eq!(written.date_time().local().to_string(), "1997-11-21T09:55:00.000000000Z");
//! assert_eq!(written.zone_name(), Some(&b"America/Chicago"[..]));
//! # Ok::<(), ReadPatternError>(())
//! ```

pub use crate::proved::tz_format::{
    FormattedDateTime, FormattedUtcDateTime, LenientDateTime, LenientDateTimeError, Pattern,
    PatternError, ReadDateTime, ReadPatternError, UtcPattern,
};
use crate::{DateTime, UtcDateTime};

/// A [`Pattern`](crate::format::Pattern) that is checked when the program is compiled: one that is none does not compile.
///
/// ```
/// use tz::{UtcDateTime, pattern};
///
/// let noon = UtcDateTime::new(2026, 11, 29, 12, 0, 0, 0)?;
/// assert_eq!(noon.format(pattern!("%A, %e %B %Y")).to_string(), "Sunday, 29 November 2026");
/// assert_eq!(noon.format(pattern!("%Y年%m月%d日")).to_string(), "2026年11月29日");
/// # Ok::<(), tz::TzError>(())
/// ```
///
/// ```compile_fail
/// let pattern = tz::pattern!("%d/%Q/%Y");
/// ```
#[macro_export]
macro_rules! pattern {
    ($text:expr) => {{
        const PATTERN: $crate::format::Pattern<'static> = match $crate::format::Pattern::new($text)
        {
            Ok(pattern) => pattern,
            Err($crate::format::PatternError::TooLong) => {
                panic!("the pattern prints more than 128 bytes")
            }
            Err(_) => panic!("the pattern has a conversion that is not known"),
        };
        PATTERN
    }};
}

impl<'a> From<Pattern<'a>> for UtcPattern<'a> {
    fn from(pattern: Pattern<'a>) -> Self {
        UtcPattern::new(pattern)
    }
}

impl DateTime {
    /// The date time as a pattern prints it, by `Display`.
    ///
    /// A line of a log as Apache writes it:
    ///
    /// ```
    /// use tz::format::Pattern;
    /// use tz::{DateTime, LocalTimeType};
    ///
    /// let pacific = LocalTimeType::new(-25_200, true, Some(b"PDT"))?;
    /// let date_time = DateTime::from_timespec_and_local(971_211_336, 0, pacific)?;
    /// let line = format!("127.0.0.1 - frank [{}]", date_time.format(Pattern::COMMON_LOG));
    /// assert_eq!(line, "127.0.0.1 - frank [10/Oct/2000:13:55:36 -0700]");
    /// # Ok::<(), tz::TzError>(())
    /// ```
    #[inline]
    #[must_use]
    pub fn format<'a>(&self, pattern: Pattern<'a>) -> FormattedDateTime<'a> {
        pattern.format(self)
    }
}

impl UtcDateTime {
    /// The date time as a pattern prints it, by `Display`. It takes a [`Pattern`], and a [`UtcPattern`], which [`DateTime::format`] does not.
    ///
    /// ```
    /// use tz::UtcDateTime;
    /// use tz::format::{Pattern, UtcPattern};
    ///
    /// let date_time = UtcDateTime::new(1994, 11, 6, 8, 49, 37, 0)?;
    /// assert_eq!(date_time.format(UtcPattern::HTTP_DATE).to_string(), "Sun, 06 Nov 1994 08:49:37 GMT");
    /// assert_eq!(date_time.format(Pattern::RFC_3339_MILLIS).to_string(), "1994-11-06T08:49:37.000+00:00");
    /// # Ok::<(), tz::TzError>(())
    /// ```
    #[inline]
    #[must_use]
    pub fn format<'a>(&self, pattern: impl Into<UtcPattern<'a>>) -> FormattedUtcDateTime<'a> {
        pattern.into().format(self)
    }
}
