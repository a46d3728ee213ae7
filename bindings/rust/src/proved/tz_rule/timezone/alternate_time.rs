// Generated from crates/tz_rule/src/timezone/alternate_time.rt by bindings/erase: its contracts are cut. Change that file instead.
//! Alternate rules: their parts, the ranges of these, and when daylight saving time starts and
//! ends.

use super::rule_day::DayData;
use super::year_table::{BoundedTable, YearTable};
use super::{LocalTimeType, RuleDay};
use crate::proved::tz_base::error::TransitionRuleError;
use core::fmt;
use core::hash::{Hash, Hasher};

/// Whether the offset is above -25 and below 26 hours.
const fn is_rule_offset(offset: i32) -> bool {
    -90_000 < offset && offset < 93_600
}

/// Whether the time is less than a week either way.
const fn is_rule_time(time: i32) -> bool {
    -604_800 < time && time < 604_800
}

/// The six parts of an alternate rule.
#[repr(C)]
#[derive(Clone, Copy)]
pub(super) struct Parts {
    pub(super) std: LocalTimeType,
    pub(super) dst: LocalTimeType,
    pub(super) dst_start: DayData,
    pub(super) dst_start_time: i32,
    pub(super) dst_end: DayData,
    pub(super) dst_end_time: i32,
}

impl Parts {
    /// Checks the offsets and the times, in the order of their errors.
    pub(super) const fn check_range(&self) -> Result<(), TransitionRuleError> {
        if !is_rule_offset(self.std.ut_offset()) {
            return Err(TransitionRuleError::InvalidStdUtcOffset);
        }
        if !is_rule_offset(self.dst.ut_offset()) {
            return Err(TransitionRuleError::InvalidDstUtcOffset);
        }
        if !is_rule_time(self.dst_start_time) || !is_rule_time(self.dst_end_time) {
            return Err(TransitionRuleError::InvalidDstStartEndTime);
        }
        Ok(())
    }

    /// How many seconds after 00:00 UTC of January 1st daylight saving time starts, by the kind of
    /// the year. `day` is the part `dst_start` as a `RuleDay`, which saves its conversion.
    pub(super) const fn starts(&self, day: &RuleDay) -> BoundedTable {
        BoundedTable::of_day(day, self.dst_start_time - self.std.ut_offset())
    }

    /// How many seconds after 00:00 UTC of January 1st daylight saving time ends, by the kind of
    /// the year. `day` is the part `dst_end` as a `RuleDay`.
    pub(super) const fn ends(&self, day: &RuleDay) -> BoundedTable {
        BoundedTable::of_day(day, self.dst_end_time - self.dst.ut_offset())
    }
}

/// Standard time and daylight saving time, and when each begins in every year.
///
/// A start and an end never change their order from one year to another, at any distance in years.
/// If some year's end comes before its start, daylight saving time lasts from each start to its end
/// in the next year, and otherwise to its end in the same year.
#[derive(Clone, Copy)]
pub struct AlternateTime {
    rule: AlternateData,
    // Both days again: `dst_start()` and `dst_end()` lend a `RuleDay`, which the data has as
    // numbers (`DayData`).
    dst_start: RuleDay,
    dst_end: RuleDay,
}

impl AlternateTime {
    /// The rule with these parts. Times are seconds from 00:00 of the local day; the start's is in
    /// standard time and the end's in daylight saving time. (POSIX.1-2017, Base Definitions, 8.3)
    ///
    /// Offsets are above -25 and below 26 hours, and times less than a week either way.
    ///
    /// The rule of New York, with daylight saving time from 2:00 on the second Sunday of March to
    /// 2:00 on the first Sunday of November:
    ///
    /// ```
    /// # use std::time::Duration;
    /// # use tz::{datetime::*, error::*, timezone::*, *};
    /// pub fn new_york_rule() -> Result<AlternateTime, TzError> {
    ///     let std = LocalTimeType::new(-18_000, false, Some(b"EST"))?;
    ///     let dst = LocalTimeType::new(-14_400, true, Some(b"EDT"))?;
    ///     let start = RuleDay::MonthWeekDay(MonthWeekDay::new(3, 2, 0)?);
    ///     let end = RuleDay::MonthWeekDay(MonthWeekDay::new(11, 1, 0)?);
    ///     Ok(AlternateTime::new(std, dst, start, 7200, end, 7200)?)
    /// }
    /// ```
    ///
    /// # Errors
    ///
    /// The first of these:
    ///
    /// - [`TransitionRuleError::InvalidStdUtcOffset`] if the offset of standard time is out of
    ///   range;
    /// - [`TransitionRuleError::InvalidDstUtcOffset`] if that of daylight saving time is;
    /// - [`TransitionRuleError::InvalidDstStartEndTime`] if one of the two times is;
    /// - [`TransitionRuleError::InconsistentRule`] if start and end change their order from one
    ///   year to another.
    pub const fn new(
        std: LocalTimeType,
        dst: LocalTimeType,
        dst_start: RuleDay,
        dst_start_time: i32,
        dst_end: RuleDay,
        dst_end_time: i32,
    ) -> Result<Self, TransitionRuleError> {
        let parts = Parts {
            std,
            dst,
            dst_start: DayData::of(&dst_start),
            dst_start_time,
            dst_end: DayData::of(&dst_end),
            dst_end_time,
        };
        match parts.check_range() {
            Ok(()) => {}
            Err(error) => return Err(error),
        }
        let starts = parts.starts(&dst_start);
        let ends = parts.ends(&dst_end);
        let Some(ends_next_year) = starts.order(&ends) else {
            return Err(TransitionRuleError::InconsistentRule);
        };
        Ok(AlternateTime {
            rule: AlternateData::of_tables(parts, starts, ends, ends_next_year),
            dst_start,
            dst_end,
        })
    }

    /// Why parts in range make no rule: two years x and y and a distance k in years, such that the
    /// start of x comes after the end of x + k, and the start of y before the end of y + k. `None`
    /// if they make one, or are out of range.
    #[must_use]
    pub const fn conflict(
        std: LocalTimeType,
        dst: LocalTimeType,
        dst_start: RuleDay,
        dst_start_time: i32,
        dst_end: RuleDay,
        dst_end_time: i32,
    ) -> Option<(i32, i32, i32)> {
        let parts = Parts {
            std,
            dst,
            dst_start: DayData::of(&dst_start),
            dst_start_time,
            dst_end: DayData::of(&dst_end),
            dst_end_time,
        };
        match parts.check_range() {
            Ok(()) => {}
            Err(_) => return None,
        }
        let starts = parts.starts(&dst_start);
        let ends = parts.ends(&dst_end);
        starts.table.conflict(&ends.table)
    }

    /// The type of standard time.
    #[must_use]
    pub const fn std(&self) -> &LocalTimeType {
        self.rule.std()
    }

    /// The type of daylight saving time.
    #[must_use]
    pub const fn dst(&self) -> &LocalTimeType {
        self.rule.dst()
    }

    /// The day on which daylight saving time starts.
    #[must_use]
    pub const fn dst_start(&self) -> &RuleDay {
        &self.dst_start
    }

    /// When daylight saving time starts on its day, in seconds from 00:00 of standard time, less
    /// than a week either way.
    #[must_use]
    pub const fn dst_start_time(&self) -> i32 {
        self.rule.dst_start_time()
    }

    /// The day on which daylight saving time ends.
    #[must_use]
    pub const fn dst_end(&self) -> &RuleDay {
        &self.dst_end
    }

    /// When daylight saving time ends on its day, in seconds from 00:00 of daylight saving time,
    /// less than a week either way.
    #[must_use]
    pub const fn dst_end_time(&self) -> i32 {
        self.rule.dst_end_time()
    }
}

impl PartialEq for AlternateTime {
    fn eq(&self, other: &AlternateTime) -> bool {
        let (a, b) = (&self.rule, &other.rule);
        a.std() == b.std()
            && a.dst() == b.dst()
            && self.dst_start == other.dst_start
            && a.dst_start_time() == b.dst_start_time()
            && self.dst_end == other.dst_end
            && a.dst_end_time() == b.dst_end_time()
    }
}

impl Eq for AlternateTime {}

impl Hash for AlternateTime {
    fn hash<H: Hasher>(&self, state: &mut H) {
        self.std().hash(state);
        self.dst().hash(state);
        self.dst_start.hash(state);
        self.dst_start_time().hash(state);
        self.dst_end.hash(state);
        self.dst_end_time().hash(state);
    }
}

impl fmt::Debug for AlternateTime {
    fn fmt(&self, f: &mut fmt::Formatter<'_>) -> fmt::Result {
        f.debug_struct("AlternateTime")
            .field("std", self.std())
            .field("dst", self.dst())
            .field("dst_start", self.dst_start())
            .field("dst_start_time", &self.dst_start_time())
            .field("dst_end", self.dst_end())
            .field("dst_end_time", &self.dst_end_time())
            .finish()
    }
}

/// Standard time and daylight saving time, and when each begins in every year, in C's layout.
#[repr(C)]
#[derive(Clone, Copy)]
pub struct AlternateData {
    parts: Parts,
    ends_next_year: bool,
    has_inner_switches: bool,
    starts: YearTable,
    ends: YearTable,
}

impl AlternateData {
    /// The data of a rule.
    #[must_use]
    pub const fn of(rule: &AlternateTime) -> &Self {
        &rule.rule
    }

    /// The rule of parts in range with their tables, whose starts and ends keep their order.
    pub(super) const fn of_tables(
        parts: Parts,
        starts: BoundedTable,
        ends: BoundedTable,
        ends_next_year: bool,
    ) -> Self {
        AlternateData {
            parts,
            ends_next_year,
            has_inner_switches: starts.is_inner() && ends.is_inner(),
            starts: starts.table,
            ends: ends.table,
        }
    }

    /// The rule whose bytes are all zero: UTC without a name all year.
    #[cfg(feature = "inner")]
    #[must_use]
    pub const fn zeros() -> Self {
        let parts = Parts {
            std: LocalTimeType::utc(),
            dst: LocalTimeType::utc(),
            dst_start: DayData::zeros(),
            dst_start_time: 0,
            dst_end: DayData::zeros(),
            dst_end_time: 0,
        };
        AlternateData {
            parts,
            ends_next_year: false,
            has_inner_switches: false,
            starts: YearTable::zeros(),
            ends: YearTable::zeros(),
        }
    }

    /// The type of standard time.
    #[must_use]
    pub const fn std(&self) -> &LocalTimeType {
        &self.parts.std
    }

    /// The type of daylight saving time.
    #[must_use]
    pub const fn dst(&self) -> &LocalTimeType {
        &self.parts.dst
    }

    /// The day on which daylight saving time starts.
    #[cfg(feature = "inner")]
    #[must_use]
    pub fn dst_start(&self) -> &DayData {
        &self.parts.dst_start
    }

    /// When daylight saving time starts on its day, in seconds from 00:00 of standard time.
    #[must_use]
    pub const fn dst_start_time(&self) -> i32 {
        self.parts.dst_start_time
    }

    /// The day on which daylight saving time ends.
    #[cfg(feature = "inner")]
    #[must_use]
    pub fn dst_end(&self) -> &DayData {
        &self.parts.dst_end
    }

    /// When daylight saving time ends on its day, in seconds from 00:00 of daylight saving time.
    #[must_use]
    pub const fn dst_end_time(&self) -> i32 {
        self.parts.dst_end_time
    }

    /// The table of the starts of daylight saving time, or of its ends.
    pub(super) const fn table(&self, is_end: bool) -> &YearTable {
        if is_end { &self.ends } else { &self.starts }
    }

    /// The instant at which daylight saving time starts, or ends, in a year.
    pub(crate) const fn switch_in(&self, is_end: bool, year: i32) -> i64 {
        self.parts_are_sound();
        self.table(is_end).in_year(year)
    }

    /// Whether the end comes before the start in some year, so that daylight saving time lasts from
    /// each start to its end in the next year.
    pub(crate) const fn ends_next_year(&self) -> bool {
        self.ends_next_year
    }

    /// Whether each start and each end is ten days or more from the ends of its year.
    pub(super) const fn has_inner_switches(&self) -> bool {
        self.has_inner_switches
    }

    /// The parts are those of a valid rule. This does nothing; its contract is what holds of every
    /// value.
    pub const fn parts_are_sound(&self) {
        let _ = &self.parts;
    }
}
