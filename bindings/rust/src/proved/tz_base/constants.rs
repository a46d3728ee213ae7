// Generated from crates/tz_base/src/constants.rt by bindings/erase: its contracts are cut. Change that file instead.
//! The numbers of the calendar, as literals.

/// Nanoseconds in one second.
pub const NANOSECONDS_PER_SECOND: u32 = 1_000_000_000;

/// Seconds in one minute.
pub const SECONDS_PER_MINUTE: i64 = 60;

/// Minutes in one hour.
pub const MINUTES_PER_HOUR: i64 = 60;

/// Hours in one day.
pub const HOURS_PER_DAY: i64 = 24;

/// Seconds in one hour.
pub const SECONDS_PER_HOUR: i64 = 3600;

/// Seconds in one day.
pub const SECONDS_PER_DAY: i64 = 86_400;

/// Seconds in one week.
pub const SECONDS_PER_WEEK: i64 = 604_800;

/// Days in one week.
pub const DAYS_PER_WEEK: i64 = 7;

/// Months in one year.
pub const MONTHS_PER_YEAR: i64 = 12;

/// Seconds in 28 days.
pub const SECONDS_PER_28_DAYS: i64 = 2_419_200;

/// Days in one year that is not leap.
pub const DAYS_PER_NORMAL_YEAR: i64 = 365;

/// Seconds in one year that is not leap.
pub const SECONDS_PER_NORMAL_YEAR: i64 = 31_536_000;

/// Seconds in one leap year.
pub const SECONDS_PER_LEAP_YEAR: i64 = 31_622_400;

/// Days in four years of which one is leap.
pub const DAYS_PER_4_YEARS: i64 = 1461;

/// Days in a hundred years of which 24 are leap.
pub const DAYS_PER_100_YEARS: i64 = 36_524;

/// Days in any 400 years in a row.
pub const DAYS_PER_400_YEARS: i64 = 146_097;

/// Days of each month of a year that is not leap.
pub const DAYS_IN_MONTHS_NORMAL_YEAR: [i64; 12] = [31, 28, 31, 30, 31, 30, 31, 31, 30, 31, 30, 31];

/// Days before each month of a year that is not leap.
pub const CUMUL_DAYS_IN_MONTHS_NORMAL_YEAR: [i64; 12] =
    [0, 31, 59, 90, 120, 151, 181, 212, 243, 273, 304, 334];

/// Days before each month of a leap year.
pub const CUMUL_DAYS_IN_MONTHS_LEAP_YEAR: [i64; 12] =
    [0, 31, 60, 91, 121, 152, 182, 213, 244, 274, 305, 335];

/// The Unix time of 2000-03-01T00:00:00Z, the first day after a leap day that ends a cycle of 400
/// years.
pub const UNIX_OFFSET_SECS: i64 = 951_868_800;

/// The year of the day at [`UNIX_OFFSET_SECS`].
pub const OFFSET_YEAR: i64 = 2000;

/// Days of each month of a leap year that is counted from March.
pub const DAY_IN_MONTHS_LEAP_YEAR_FROM_MARCH: [i64; 12] =
    [31, 30, 31, 30, 31, 31, 30, 31, 30, 31, 31, 29];
