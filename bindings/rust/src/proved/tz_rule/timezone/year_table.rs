// Generated from crates/tz_rule/src/timezone/year_table.rt by bindings/erase: its contracts are cut. Change that file instead.
//! The days of a rule in each kind of year, and the years around an instant.

use super::RuleDay;
use crate::proved::tz_base::calendar::{
    self, ADDED_DAYS, days_before_moved_year, first_day_of_year, is_moved_year_leap, moved_seconds,
};
use crate::proved::tz_base::constants::SECONDS_PER_DAY;
use crate::proved::tz_base::fields::{Fields, is_reading};
use crate::proved::tz_base::order::{greater_i32, lesser_i32};

/// How many kinds of years there are.
pub(super) const KINDS: usize = 14;

/// The kind of the years that are leap, or are not, and whose January 1st has the week day.
const fn kind_of(leap: bool, first_week_day: u8) -> usize {
    let week_day = first_week_day as usize;
    if leap { 7 + week_day } else { week_day }
}

/// A seventh of 2^64, rounded up.
const SEVENTH: u64 = 2_635_249_153_387_078_803;

/// The days modulo 7. If r is that remainder, `days * SEVENTH` modulo 2^64 is r sevenths of 2^64,
/// or slightly more.
const fn days_over_weeks(days: u64) -> u8 {
    let fraction = days.wrapping_mul(SEVENTH);
    (fraction as u128 * 7 / 18_446_744_073_709_551_616) as u8
}

/// 00:00 UTC of a moved year's January 1st, and the kind of the year.
#[inline(always)]
pub(super) const fn moved_year_start(moved_year: u64) -> (i64, usize) {
    let days = days_before_moved_year(moved_year);
    // The days are counted from January 1st of the year -2147484000, a Saturday: 6 from Sunday = 0.
    let kind = kind_of(is_moved_year_leap(moved_year), days_over_weeks(days + 6));
    (SECONDS_PER_DAY * (days as i64 - ADDED_DAYS), kind)
}

/// For each of the 14 kinds of years, at which second from 00:00 UTC of January 1st daylight saving
/// time starts in it, or ends.
#[repr(C)]
#[derive(Clone, Copy)]
pub(super) struct YearTable([i32; KINDS]);

/// Ten days after New Year. If no start and no end lies before it, or in the last ten days of its
/// year, the likely year determines the segment: it differs from the instant's year only within
/// two days of a New Year, where then no start or end lies.
const INNER_START: i32 = 864_000;

/// Ten days before the end of the shortest year.
const INNER_END: i32 = 30_672_000;

/// The seconds from 00:00 UTC of January 1st to a time after 00:00 UTC of a day of the year, from
/// 0.
const fn seconds_to(year_day: u16, seconds: i32) -> i32 {
    86_400 * year_day as i32 + seconds
}

/// How many seconds later than the first day that it may be a day is, by place: nothing at 0 to 6,
/// for a day without a week day; then six days down to none, and six down to one.
const SECONDS_LATER: [u32; 20] = [
    0, 0, 0, 0, 0, 0, 0, 518_400, 432_000, 345_600, 259_200, 172_800, 86_400, 0, 518_400, 432_000,
    345_600, 259_200, 172_800, 86_400,
];

/// The seconds by which the day at a place is later than the first day that it may be. A place is
/// the sum of that of the rule day's span and the week day of January 1st.
const fn seconds_later(place: usize) -> u32 {
    SECONDS_LATER[place]
}

/// The seconds of the day at a place, by those of the first day that it may be.
const fn seconds_at(first: i32, place: usize) -> i32 {
    first + seconds_later(place) as i32
}

/// The seconds of the last day that it may be, by those of the first. Place 0 is that of a day
/// without a week day.
const fn last_seconds(first: i32, place: usize) -> i32 {
    if place == 0 { first } else { first + 518_400 }
}

impl YearTable {
    /// The table of zeros.
    #[cfg(feature = "inner")]
    pub(super) const fn zeros() -> YearTable {
        YearTable([0; KINDS])
    }

    /// Seconds from New Year, 00:00 UTC, in years of this kind.
    pub(super) const fn entry(&self, kind: usize) -> i64 {
        self.0[kind] as i64
    }

    /// The instant of a moved year, as a Unix time.
    #[inline(always)]
    pub(super) const fn in_moved_year(&self, moved_year: u64) -> i64 {
        let (start_of_year, kind) = moved_year_start(moved_year);
        start_of_year + self.entry(kind)
    }

    /// The instant of a year, as a Unix time.
    pub(super) const fn in_year(&self, year: i32) -> i64 {
        self.in_moved_year(calendar::moved_year(year))
    }
}

/// A table, and the least and the greatest seconds of all kinds. Whether starts and ends keep their
/// order (`order`) is in `consistency.rt`.
#[derive(Clone, Copy)]
pub(super) struct BoundedTable {
    pub(super) table: YearTable,
    pub(super) least: i32,
    pub(super) greatest: i32,
}

impl BoundedTable {
    /// The table of a time after 00:00 UTC of a rule day, in seconds.
    pub(super) const fn of_day(day: &RuleDay, seconds: i32) -> BoundedTable {
        let (normal_day, normal_place) = day.span(false);
        let (leap_day, leap_place) = day.span(true);
        let normal = seconds_to(normal_day, seconds);
        let leap = seconds_to(leap_day, seconds);
        let mut entries = [0; KINDS];
        let mut week_day = 0;
        while week_day < 7 {
            entries[week_day] = seconds_at(normal, normal_place + week_day);
            entries[7 + week_day] = seconds_at(leap, leap_place + week_day);
            week_day += 1;
        }
        BoundedTable {
            table: YearTable(entries),
            least: lesser_i32(normal, leap),
            greatest: greater_i32(
                last_seconds(normal, normal_place),
                last_seconds(leap, leap_place),
            ),
        }
    }

    /// Whether the instant of each year is ten days or more from the ends of the year, also if that
    /// has 365 days.
    pub(super) const fn is_inner(&self) -> bool {
        INNER_START <= self.least && self.greatest < INNER_END
    }
}

/// The first year over which a rule is defined.
pub(super) const FIRST_YEAR: i32 = i32::MIN + 2;

/// The last year over which a rule is defined.
pub(super) const LAST_YEAR: i32 = i32::MAX - 2;

/// How far from 1970 `likely_year` has an answer: up to there the year of an instant, the two
/// before it and the two after it are years over which a rule is defined.
const GREATEST_DISTANCE: i64 = 60_000_000_000_000_000;

/// The seconds of a year, on the average of 400 years.
const SECONDS_PER_YEAR: u64 = 31_556_952;

/// 00:00 UTC of a year's January 1st.
pub(super) const fn new_year(year: i32) -> i64 {
    SECONDS_PER_DAY * first_day_of_year(year)
}

/// The year of an instant in UTC, if rules are defined over it.
pub(super) const fn rule_year(unix_time: i64) -> Option<i32> {
    if !is_reading(unix_time) {
        return None;
    }
    let year = Fields::from_reading(unix_time, 0).year;
    if year < FIRST_YEAR || year > LAST_YEAR {
        return None;
    }
    Some(year)
}

/// The year of an instant in UTC, or a neighbour of it if the New Year between them is less than
/// two days away, moved by cycles of 400 years.
pub(super) const fn likely_year(unix_time: i64) -> Option<u64> {
    if unix_time < -GREATEST_DISTANCE || unix_time > GREATEST_DISTANCE {
        return None;
    }
    Some(moved_seconds(unix_time) / SECONDS_PER_YEAR)
}
