// Generated from crates/tz_rule/src/timezone/consistency.rt by bindings/erase: its contracts are cut. Change that file instead.
//! Whether a rule is consistent: its starts and ends keep one order over all years and at each
//! distance in years. If not, a conflict shows it.
//!
//! Consistency is determined by the tables of starts and ends alone, without a year, and a conflict
//! is looked for in the years from 1972 to 2000. A start and an end at one instant are in no order,
//! so they make no rule inconsistent: the span between them is empty.

use super::year_table::{BoundedTable, KINDS, YearTable};
use crate::proved::tz_base::constants::{SECONDS_PER_DAY, SECONDS_PER_NORMAL_YEAR};

/// How many kinds there are of two years that follow one another: from 0 two normal years, from 7 a
/// normal and a leap year, from 14 a leap and a normal year.
const PAIR_KINDS: usize = 21;

/// The kind of the first year of each pair kind.
const FIRST_KINDS: [u8; PAIR_KINDS] = [
    0, 1, 2, 3, 4, 5, 6, 0, 1, 2, 3, 4, 5, 6, 7, 8, 9, 10, 11, 12, 13,
];

/// The kind of the second year of each pair kind.
const SECOND_KINDS: [u8; PAIR_KINDS] = [
    1, 2, 3, 4, 5, 6, 0, 8, 9, 10, 11, 12, 13, 7, 2, 3, 4, 5, 6, 0, 1,
];

/// The first of the years that stand for all years.
const FIRST_MODEL_YEAR: i32 = 1972;

/// How many years stand for all years. Each kind of year is that of one of 1972 to 1999, and each
/// pair kind that of one of these and the year after it.
const MODEL_YEARS: u8 = 29;

/// The kind of the first year of a pair kind.
const fn first_kind(pair: usize) -> usize {
    FIRST_KINDS[pair] as usize
}

/// The kind of the second year of a pair kind.
const fn second_kind(pair: usize) -> usize {
    SECOND_KINDS[pair] as usize
}

/// The days of the first year of a pair kind.
const fn first_days(pair: usize) -> u16 {
    if pair < 14 { 365 } else { 366 }
}

impl YearTable {
    /// The seconds from 00:00 UTC of January 1st of the first year of a pair kind to the instant of
    /// the second.
    const fn next_entry(&self, pair: usize) -> i64 {
        let days = first_days(pair);
        self.entry(second_kind(pair)) + SECONDS_PER_DAY * days as i64
    }

    /// Whether the instant of some year comes before that of `other` in the same year.
    pub(super) const fn comes_first(&self, other: &YearTable) -> bool {
        let mut kind = 0;
        while kind < KINDS {
            if self.entry(kind) < other.entry(kind) {
                return true;
            }
            kind += 1;
        }
        false
    }

    /// Whether the instant of some year comes before that of `other` in the next year.
    pub(super) const fn comes_before_next(&self, other: &YearTable) -> bool {
        let mut pair = 0;
        while pair < PAIR_KINDS {
            if self.entry(first_kind(pair)) < other.next_entry(pair) {
                return true;
            }
            pair += 1;
        }
        false
    }

    /// Whether the instant of some year comes after that of `other` in the next year.
    const fn comes_after_next(&self, other: &YearTable) -> bool {
        let mut pair = 0;
        while pair < PAIR_KINDS {
            if other.next_entry(pair) < self.entry(first_kind(pair)) {
                return true;
            }
            pair += 1;
        }
        false
    }

    /// Whether the instant of a year comes before that of `other` in the next year in some years,
    /// and after it in others.
    const fn changes_across_years(&self, other: &YearTable) -> bool {
        self.comes_before_next(other) && self.comes_after_next(other)
    }

    /// Whether starts, of which this is the table, and ends change their order at some distance in
    /// years. Only the distances 0, 1 and -1 need a look: a start or an end lies less than ten days
    /// outside its year, so from two years on the order never changes.
    const fn changes_order(&self, ends: &YearTable) -> bool {
        if self.comes_first(ends) && ends.comes_first(self) {
            return true;
        }
        if self.changes_across_years(ends) {
            return true;
        }
        ends.changes_across_years(self)
    }

    /// A year from 1972 to 2000 in which the instant comes before that of `other` in the year that
    /// is `distance` years later.
    const fn year_before(&self, other: &YearTable, distance: i32) -> Option<i32> {
        let mut index = 0;
        while index < MODEL_YEARS {
            let year = FIRST_MODEL_YEAR + index as i32;
            if self.in_year(year) < other.in_year(year + distance) {
                return Some(year);
            }
            index += 1;
        }
        None
    }

    /// Two years of different order at a distance: the start, of which this is the table, is later
    /// in the first and earlier in the second.
    const fn conflict_at(&self, ends: &YearTable, distance: i32) -> Option<(i32, i32, i32)> {
        let Some(end_year) = ends.year_before(self, -distance) else {
            return None;
        };
        let Some(earlier) = self.year_before(ends, distance) else {
            return None;
        };
        Some((end_year - distance, earlier, distance))
    }

    /// Two years and a distance at which starts, of which this is the table, and ends change their
    /// order.
    pub(super) const fn conflict(&self, ends: &YearTable) -> Option<(i32, i32, i32)> {
        if let Some(found) = self.conflict_at(ends, 0) {
            return Some(found);
        }
        if let Some(found) = self.conflict_at(ends, 1) {
            return Some(found);
        }
        self.conflict_at(ends, -1)
    }
}

impl BoundedTable {
    /// Whether ends come before starts (`self` is the table of starts), if the bounds of both
    /// tables show that their order never changes; `None` if they do not show it.
    const fn order_of_bounds(&self, ends: &BoundedTable) -> Option<bool> {
        let (first_start, last_start) = (self.least, self.greatest);
        let (first_end, last_end) = (ends.least, ends.greatest);
        // The bounds show an order only if no start comes after the next year's end, and no end
        // after the next year's start.
        if last_start as i64 > first_end as i64 + SECONDS_PER_NORMAL_YEAR {
            return None;
        }
        if last_end as i64 > first_start as i64 + SECONDS_PER_NORMAL_YEAR {
            return None;
        }
        if last_start <= first_end {
            return Some(false);
        }
        if last_end < first_start {
            return Some(true);
        }
        None
    }

    /// Whether the end of some year comes before its start. `None` if starts, of which this is the
    /// table, and ends change their order.
    pub(super) const fn order(&self, ends: &BoundedTable) -> Option<bool> {
        if let Some(first) = self.order_of_bounds(ends) {
            return Some(first);
        }
        if self.table.changes_order(&ends.table) {
            return None;
        }
        Some(ends.table.comes_first(&self.table))
    }
}
