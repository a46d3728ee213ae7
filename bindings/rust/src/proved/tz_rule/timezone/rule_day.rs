// Generated from crates/tz_rule/src/timezone/rule_day.rt by bindings/erase: its contracts are cut. Change that file instead.
//! The days of a year that a rule can name.

use crate::proved::tz_base::calendar;
use crate::proved::tz_base::error::TransitionRuleError;
use core::hash::{Hash, Hasher};

/// The first of the seven days, counted from 0, of a month of `days` days that may be the `week`-th
/// with a given week day, or for week 5 the last.
const fn least_day(days: u8, week: u8) -> u8 {
    let (usual, last) = (7 * (week - 1), days - 7);
    if last < usual { last } else { usual }
}

/// The n-th of a year's days that are not February 29th, from 1 to 365. (POSIX.1-2017, 8.3: `Jn`.)
#[derive(Clone, Copy, Debug, PartialEq, Eq, Hash)]
pub struct Julian1WithoutLeap(pub(super) u16);

impl Julian1WithoutLeap {
    /// The day with this number, from 1 to 365.
    ///
    /// # Errors
    ///
    /// [`TransitionRuleError::InvalidRuleDayJulianDay`] for any other number.
    pub const fn new(julian_day_1: u16) -> Result<Self, TransitionRuleError> {
        if julian_day_1 < 1 || julian_day_1 > 365 {
            return Err(TransitionRuleError::InvalidRuleDayJulianDay);
        }
        Ok(Julian1WithoutLeap(julian_day_1))
    }

    /// The number of the day.
    #[must_use]
    pub const fn get(&self) -> u16 {
        self.0
    }

    /// How many days after January 1st the day is, in a leap year or in a year of 365 days.
    const fn year_day(&self, leap: bool) -> u16 {
        let day = self.0;
        if leap && day > 59 { day } else { day - 1 }
    }
}

/// The day n days after January 1st, from 0 to 365. In a year that is not leap 365 is the next
/// January 1st. (POSIX.1-2017, 8.3: `n`.)
#[derive(Clone, Copy, Debug, PartialEq, Eq, Hash)]
pub struct Julian0WithLeap(pub(super) u16);

impl Julian0WithLeap {
    /// The day with this number, from 0 to 365.
    ///
    /// # Errors
    ///
    /// [`TransitionRuleError::InvalidRuleDayJulianDay`] for any other number.
    pub const fn new(julian_day_0: u16) -> Result<Self, TransitionRuleError> {
        if julian_day_0 > 365 {
            return Err(TransitionRuleError::InvalidRuleDayJulianDay);
        }
        Ok(Julian0WithLeap(julian_day_0))
    }

    /// The number of the day.
    #[must_use]
    pub const fn get(&self) -> u16 {
        self.0
    }
}

/// The first, second, third, fourth or last (5) of a month's days with a given week day.
/// (POSIX.1-2017, 8.3: `Mm.w.d`.)
#[derive(Clone, Copy, Debug, PartialEq, Eq, Hash)]
pub struct MonthWeekDay {
    pub(super) month: u8,
    pub(super) week: u8,
    pub(super) week_day: u8,
}

impl MonthWeekDay {
    /// The week day of a month: the month from 1 to 12, the week from 1 to 5, where 5 is the last,
    /// and the week day from 0 (Sunday) to 6.
    ///
    /// The second Sunday of March is the day 3, 2, 0. See the example at
    /// [`AlternateTime::new`](super::AlternateTime::new).
    ///
    /// # Errors
    ///
    /// The first of these:
    ///
    /// - [`TransitionRuleError::InvalidRuleDayMonth`] if the month is out of range;
    /// - [`TransitionRuleError::InvalidRuleDayWeek`] if the week is;
    /// - [`TransitionRuleError::InvalidRuleDayWeekDay`] if the week day is.
    pub const fn new(month: u8, week: u8, week_day: u8) -> Result<Self, TransitionRuleError> {
        if month < 1 || month > 12 {
            return Err(TransitionRuleError::InvalidRuleDayMonth);
        }
        if week < 1 || week > 5 {
            return Err(TransitionRuleError::InvalidRuleDayWeek);
        }
        if week_day > 6 {
            return Err(TransitionRuleError::InvalidRuleDayWeekDay);
        }
        Ok(MonthWeekDay {
            month,
            week,
            week_day,
        })
    }

    /// The month, from 1 to 12.
    #[must_use]
    pub const fn month(&self) -> u8 {
        self.month
    }

    /// The week of the month, from 1 to 5, where 5 means the last.
    #[must_use]
    pub const fn week(&self) -> u8 {
        self.week
    }

    /// The week day, from Sunday = 0 to 6.
    #[must_use]
    pub const fn week_day(&self) -> u8 {
        self.week_day
    }

    /// The first of the seven days that the day may be, in leap years or in the others, counted
    /// from January 1st, and a place: with the week day of January 1st added, it is the index in
    /// `SECONDS_LATER` (`year_table.rt`) of how much later the day is.
    const fn span(&self, leap: bool) -> (u16, usize) {
        let before = calendar::days_before_month(leap, self.month);
        let days = calendar::days_of_month(leap, self.month);
        let least = before + least_day(days, self.week) as u16;
        // How many days later the day is in a year that begins on a Sunday: 371 is 53 weeks.
        let later = (self.week_day as u16 + 371 - least) % 7;
        (least, 13 - later as usize)
    }
}

/// A day of each year.
#[derive(Clone, Copy, Debug)]
pub enum RuleDay {
    /// The n-th of the days that are not February 29th.
    Julian1WithoutLeap(Julian1WithoutLeap),
    /// n days after January 1st.
    Julian0WithLeap(Julian0WithLeap),
    /// A week day of a month.
    MonthWeekDay(MonthWeekDay),
}

impl PartialEq for RuleDay {
    fn eq(&self, other: &RuleDay) -> bool {
        match (self, other) {
            (RuleDay::Julian1WithoutLeap(a), RuleDay::Julian1WithoutLeap(b)) => a == b,
            (RuleDay::Julian0WithLeap(a), RuleDay::Julian0WithLeap(b)) => a == b,
            (RuleDay::MonthWeekDay(a), RuleDay::MonthWeekDay(b)) => a == b,
            _ => false,
        }
    }
}

impl Eq for RuleDay {}

impl Hash for RuleDay {
    fn hash<H: Hasher>(&self, state: &mut H) {
        match self {
            RuleDay::Julian1WithoutLeap(day) => {
                state.write_u8(0);
                day.hash(state);
            }
            RuleDay::Julian0WithLeap(day) => {
                state.write_u8(1);
                day.hash(state);
            }
            RuleDay::MonthWeekDay(day) => {
                state.write_u8(2);
                day.hash(state);
            }
        }
    }
}

impl RuleDay {
    /// The first day that the day may be in leap years or in the others, counted from January 1st,
    /// and a place: 0 for a day without a week day; with the week day of January 1st added, it is
    /// the index in `SECONDS_LATER` (`year_table.rt`) of how much later the day is.
    pub(super) const fn span(&self, leap: bool) -> (u16, usize) {
        match self {
            RuleDay::Julian1WithoutLeap(day) => (day.year_day(leap), 0),
            RuleDay::Julian0WithLeap(day) => (day.get(), 0),
            RuleDay::MonthWeekDay(day) => day.span(leap),
        }
    }
}

/// A day of each year as numbers, in C's layout: six bytes, of which those that its kind does not
/// use are zero.
#[repr(C)]
#[derive(Clone, Copy)]
pub struct DayData {
    /// The number of a Julian day, from 1, or of a zero-based one.
    number: u16,
    /// 0: zero-based (`n`), 1: Julian (`Jn`), 2: a week day of a month (`Mm.w.d`).
    kind: u8,
    month: u8,
    week: u8,
    week_day: u8,
}

impl DayData {
    /// The numbers of a rule day.
    #[must_use]
    pub const fn of(day: &RuleDay) -> Self {
        match day {
            RuleDay::Julian0WithLeap(day) => DayData {
                number: day.get(),
                kind: 0,
                month: 0,
                week: 0,
                week_day: 0,
            },
            RuleDay::Julian1WithoutLeap(day) => DayData {
                number: day.get(),
                kind: 1,
                month: 0,
                week: 0,
                week_day: 0,
            },
            RuleDay::MonthWeekDay(day) => DayData {
                number: 0,
                kind: 2,
                month: day.month(),
                week: day.week(),
                week_day: day.week_day(),
            },
        }
    }

    /// The day whose bytes are all zero: January 1st.
    #[cfg(feature = "inner")]
    #[must_use]
    pub const fn zeros() -> Self {
        DayData {
            number: 0,
            kind: 0,
            month: 0,
            week: 0,
            week_day: 0,
        }
    }

    /// The rule day with these numbers.
    #[cfg(feature = "inner")]
    #[must_use]
    pub const fn day(&self) -> RuleDay {
        match self.kind {
            0 => RuleDay::Julian0WithLeap(Julian0WithLeap(self.number)),
            1 => RuleDay::Julian1WithoutLeap(Julian1WithoutLeap(self.number)),
            _ => RuleDay::MonthWeekDay(MonthWeekDay {
                month: self.month,
                week: self.week,
                week_day: self.week_day,
            }),
        }
    }
}
