// Generated from crates/tz_rule/src/timezone/rule_segments.rt by bindings/erase: its contracts are cut. Change that file instead.
//! The segment of an alternate rule around an instant, from one start or end of daylight saving
//! time up to the next, and the type there.
//!
//! The switches (starts and ends) of the likely year, which is the instant's or a neighbour near a
//! New Year, and of its neighbours determine the segment: always if all lie ten days or more inside
//! their years, and otherwise mostly. If they do not, as near some New Years and more than 1.9
//! billion years from 1970, the determining year is taken instead: the instant's year in UTC or a
//! neighbour, chosen by the first switches of that year and the next.

use super::LocalTimeType;
use super::alternate_time::AlternateData;
use super::year_table::{FIRST_YEAR, LAST_YEAR, likely_year, new_year, rule_year};
use crate::proved::tz_base::calendar;
use crate::proved::tz_base::order::{greater_i64, lesser_i64};

/// A span of time through which a rule has one type, or none.
#[derive(Clone, Copy)]
pub struct RuleSegment<'a> {
    /// The first instant.
    pub from: i64,
    /// The last instant.
    pub last: i64,
    /// The type, if the rule is defined.
    pub local_time_type: Option<&'a LocalTimeType>,
}

/// A span of time through which an alternate rule has one type.
#[derive(Clone, Copy)]
struct AlternateSegment {
    /// The first instant.
    from: i64,
    /// The first instant after the span.
    until: i64,
    /// Whether its type is that of daylight saving time.
    is_daylight: bool,
}

/// The segment around an instant at which rules are undefined.
const fn undefined_segment<'a>(unix_time: i64) -> RuleSegment<'a> {
    let first = new_year(FIRST_YEAR);
    if unix_time < first {
        return RuleSegment {
            from: i64::MIN,
            last: first - 1,
            local_time_type: None,
        };
    }
    RuleSegment {
        from: new_year(LAST_YEAR + 1),
        last: i64::MAX,
        local_time_type: None,
    }
}

impl AlternateData {
    /// The instant at which daylight saving time starts, or ends, in a moved year.
    #[inline(always)]
    pub(super) const fn switch_in_moved(&self, is_end: bool, moved_year: u64) -> i64 {
        self.table(is_end).in_moved_year(moved_year)
    }

    /// The segment that holds an instant, if the moved year and its neighbours determine it;
    /// otherwise a segment nearby.
    ///
    /// `end_is_first` is `ends_next_year()`: whether some year's end comes before its start, so
    /// that daylight saving time ends in the next year.
    #[inline(always)]
    const fn segment_by_order(
        &self,
        end_is_first: bool,
        unix_time: i64,
        moved_year: u64,
    ) -> AlternateSegment {
        self.parts_are_sound();
        let first = self.switch_in_moved(end_is_first, moved_year);
        if unix_time < first {
            return AlternateSegment {
                from: self.switch_in_moved(!end_is_first, moved_year - 1),
                until: first,
                is_daylight: end_is_first,
            };
        }
        let second = self.switch_in_moved(!end_is_first, moved_year);
        if unix_time < second {
            return AlternateSegment {
                from: first,
                until: second,
                is_daylight: !end_is_first,
            };
        }
        AlternateSegment {
            from: second,
            until: self.switch_in_moved(end_is_first, moved_year + 1),
            is_daylight: end_is_first,
        }
    }

    /// The segment of the likely year or its neighbours that the instant chooses: mostly the one
    /// around it.
    ///
    /// Each order has code of its own, which costs fewer steps than tables that are chosen by the
    /// order.
    #[inline(always)]
    const fn near_segment(&self, unix_time: i64) -> Option<AlternateSegment> {
        let Some(moved_year) = likely_year(unix_time) else {
            return None;
        };
        let segment = if self.ends_next_year() {
            self.segment_by_order(true, unix_time, moved_year)
        } else {
            self.segment_by_order(false, unix_time, moved_year)
        };
        Some(segment)
    }

    /// The segment around an instant, if the rule's switches are such that the likely year always
    /// determines it.
    #[inline(always)]
    const fn inner_segment(&self, unix_time: i64) -> Option<AlternateSegment> {
        if !self.has_inner_switches() {
            return None;
        }
        self.near_segment(unix_time)
    }

    /// The segment around an instant, if the likely year determines it.
    const fn likely_segment(&self, unix_time: i64) -> Option<AlternateSegment> {
        let Some(segment) = self.near_segment(unix_time) else {
            return None;
        };
        if unix_time < segment.from || segment.until <= unix_time {
            return None;
        }
        Some(segment)
    }

    /// The year whose switches, with those of its neighbours, determine the segment around an
    /// instant of a year in UTC.
    const fn determining_year(&self, end_is_first: bool, unix_time: i64, year: i32) -> i32 {
        self.parts_are_sound();
        if unix_time < self.switch_in(end_is_first, year) {
            return year - 1;
        }
        if unix_time < self.switch_in(end_is_first, year + 1) {
            return year;
        }
        year + 1
    }

    /// The segment around an instant by its year in UTC, within the years over which the rule is
    /// defined.
    const fn segment_in_year(&self, unix_time: i64) -> Option<AlternateSegment> {
        let Some(year) = rule_year(unix_time) else {
            return None;
        };
        let end_is_first = self.ends_next_year();
        let moved_year = calendar::moved_year(self.determining_year(end_is_first, unix_time, year));
        let segment = self.segment_by_order(end_is_first, unix_time, moved_year);
        Some(AlternateSegment {
            from: greater_i64(segment.from, new_year(FIRST_YEAR)),
            until: lesser_i64(segment.until, new_year(LAST_YEAR + 1)),
            is_daylight: segment.is_daylight,
        })
    }

    /// The type of daylight saving time, or that of standard time.
    pub(super) const fn type_by(&self, is_daylight: bool) -> &LocalTimeType {
        if is_daylight { self.dst() } else { self.std() }
    }

    /// The segment around an instant, with its type, as a segment of the rule.
    const fn rule_segment(&self, _unix_time: i64, segment: AlternateSegment) -> RuleSegment<'_> {
        RuleSegment {
            from: segment.from,
            last: segment.until - 1,
            local_time_type: Some(self.type_by(segment.is_daylight)),
        }
    }

    /// The segment around an instant that the likely year does not always determine.
    const fn outer_segment(&self, unix_time: i64) -> RuleSegment<'_> {
        if let Some(segment) = self.likely_segment(unix_time) {
            return self.rule_segment(unix_time, segment);
        }
        match self.segment_in_year(unix_time) {
            Some(segment) => self.rule_segment(unix_time, segment),
            None => undefined_segment(unix_time),
        }
    }

    /// The segment around an instant: from one start or end of daylight saving time up to the next,
    /// or outside the years of rules.
    #[inline(always)]
    pub(crate) const fn segment(&self, unix_time: i64) -> RuleSegment<'_> {
        match self.inner_segment(unix_time) {
            Some(segment) => self.rule_segment(unix_time, segment),
            None => self.outer_segment(unix_time),
        }
    }
}
