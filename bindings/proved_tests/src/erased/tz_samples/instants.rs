// Tests from crates/tz_samples/src/instants.rt by bindings/erase. Change that file instead.
//! Instants as dates and times of day.

/// The Unix time of a date and a time of day of UTC, as in `utc!(2000-03-26 01:00:00)`: a constant,
/// which a static can hold.
///
/// The days before a date are 365 for each year, those of the months before it, and a leap day for
/// each leap year whose February is over.
#[macro_export]
macro_rules! utc {
    ($year:literal-$month:tt-$day:literal $hour:literal:$minute:literal:$second:literal) => {
        (365 * ($year - 1970_i64) + $crate::utc!(@days_before $month $year) + $day - 1) * 86_400
            + $hour * 3600
            + $minute * 60
            + $second
    };
    (@days_before 01 $year:literal) => { $crate::utc!(@leap_days $year - 1) };
    (@days_before 02 $year:literal) => { $crate::utc!(@leap_days $year - 1) + 31 };
    (@days_before 03 $year:literal) => { $crate::utc!(@leap_days $year) + 59 };
    (@days_before 04 $year:literal) => { $crate::utc!(@leap_days $year) + 90 };
    (@days_before 05 $year:literal) => { $crate::utc!(@leap_days $year) + 120 };
    (@days_before 06 $year:literal) => { $crate::utc!(@leap_days $year) + 151 };
    (@days_before 07 $year:literal) => { $crate::utc!(@leap_days $year) + 181 };
    (@days_before 08 $year:literal) => { $crate::utc!(@leap_days $year) + 212 };
    (@days_before 09 $year:literal) => { $crate::utc!(@leap_days $year) + 243 };
    (@days_before 10 $year:literal) => { $crate::utc!(@leap_days $year) + 273 };
    (@days_before 11 $year:literal) => { $crate::utc!(@leap_days $year) + 304 };
    (@days_before 12 $year:literal) => { $crate::utc!(@leap_days $year) + 334 };
    // Since 1970. The years are moved by a multiple of 400, so that none is negative.
    (@leap_days $year:expr) => {
        $crate::utc!(@leap_years $year + 2_147_484_000)
            - $crate::utc!(@leap_years 1969 + 2_147_484_000)
    };
    (@leap_years $year:expr) => { $year / 4 - $year / 100 + $year / 400 };
}

/// The leap times of the leap seconds from 1972 to 2016, each of one second more: the first moment
/// after one, plus the number of those before it.
pub static LEAP_TIMES: [i64; 27] = [
    utc!(1972-07-01 00:00:00),
    utc!(1973-01-01 00:00:00) + 1,
    utc!(1974-01-01 00:00:00) + 2,
    utc!(1975-01-01 00:00:00) + 3,
    utc!(1976-01-01 00:00:00) + 4,
    utc!(1977-01-01 00:00:00) + 5,
    utc!(1978-01-01 00:00:00) + 6,
    utc!(1979-01-01 00:00:00) + 7,
    utc!(1980-01-01 00:00:00) + 8,
    utc!(1981-07-01 00:00:00) + 9,
    utc!(1982-07-01 00:00:00) + 10,
    utc!(1983-07-01 00:00:00) + 11,
    utc!(1985-07-01 00:00:00) + 12,
    utc!(1988-01-01 00:00:00) + 13,
    utc!(1990-01-01 00:00:00) + 14,
    utc!(1991-01-01 00:00:00) + 15,
    utc!(1992-07-01 00:00:00) + 16,
    utc!(1993-07-01 00:00:00) + 17,
    utc!(1994-07-01 00:00:00) + 18,
    utc!(1996-01-01 00:00:00) + 19,
    utc!(1997-07-01 00:00:00) + 20,
    utc!(1999-01-01 00:00:00) + 21,
    utc!(2006-01-01 00:00:00) + 22,
    utc!(2009-01-01 00:00:00) + 23,
    utc!(2012-07-01 00:00:00) + 24,
    utc!(2015-07-01 00:00:00) + 25,
    utc!(2017-01-01 00:00:00) + 26,
];
