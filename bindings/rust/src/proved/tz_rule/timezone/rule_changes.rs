// Generated from crates/tz_rule/src/timezone/rule_changes.rt by bindings/erase: its contracts are cut. Change that file instead.
//! The changes of a rule's type: the first one after an instant, and the last one up to it.
//!
//! Mostly that is the start or the end of daylight saving time next to the instant, which the
//! tables' entries of its likely year, or of that year and one neighbour, determine. Otherwise, as
//! near some New Years, if a start and an end coincide, or at the ends of the rule's years, a walk
//! goes on from segment to segment. A rule without a change is known by its types and tables, and
//! is not walked over.

use super::LocalTimeType;
use super::alternate_time::AlternateData;
use super::transition_rule::RuleRef;
use super::year_table::likely_year;

/// A change of a rule, from one type to another.
#[derive(Clone, Copy)]
pub struct RuleChange<'a> {
    /// The first instant with the new type.
    pub unix_time: i64,
    /// The type at the instant before.
    pub before: &'a LocalTimeType,
    /// The type from the instant on.
    pub after: &'a LocalTimeType,
}

/// A start or an end of daylight saving time at which the rule has the other type than at the
/// instant before.
#[derive(Clone, Copy)]
struct Switch {
    unix_time: i64,
    is_start: bool,
}

/// The switch at this instant. `earlier` and `later` are it and its neighbour; `None` if both come
/// at one instant.
const fn switch_between(
    unix_time: i64,
    is_start: bool,
    earlier: i64,
    later: i64,
) -> Option<Switch> {
    if earlier < later {
        return Some(Switch {
            unix_time,
            is_start,
        });
    }
    None
}

/// The change at an instant, by the types at the instant before and at it.
#[inline(always)]
const fn change_by_types<'a>(
    unix_time: i64,
    before: Option<&'a LocalTimeType>,
    after: Option<&'a LocalTimeType>,
) -> Option<RuleChange<'a>> {
    let (Some(before), Some(after)) = (before, after) else {
        return None;
    };
    if before.is_same(after) {
        return None;
    }
    Some(RuleChange {
        unix_time,
        before,
        after,
    })
}

impl AlternateData {
    /// The last start or end of daylight saving time up to an instant near the moved year, and the
    /// next one after it. `None` stands for one that coincides with the other of its year, and so
    /// changes nothing. `end_is_first` is `ends_next_year()`.
    ///
    /// The later of a year never coincides with the earlier of the next year, since both are far
    /// inside their years.
    #[inline(always)]
    const fn switches_by_order(
        &self,
        end_is_first: bool,
        unix_time: i64,
        moved_year: u64,
    ) -> (Option<Switch>, Option<Switch>) {
        self.parts_are_sound();
        let first = self.switch_in_moved(end_is_first, moved_year);
        let second = self.switch_in_moved(!end_is_first, moved_year);
        if unix_time < first {
            let earlier = self.switch_in_moved(end_is_first, moved_year - 1);
            let last = self.switch_in_moved(!end_is_first, moved_year - 1);
            return (
                switch_between(last, end_is_first, earlier, last),
                switch_between(first, !end_is_first, first, second),
            );
        }
        if unix_time < second {
            let last = Switch {
                unix_time: first,
                is_start: !end_is_first,
            };
            let next = Switch {
                unix_time: second,
                is_start: end_is_first,
            };
            return (Some(last), Some(next));
        }
        let next = self.switch_in_moved(end_is_first, moved_year + 1);
        let later = self.switch_in_moved(!end_is_first, moved_year + 1);
        (
            switch_between(second, end_is_first, first, second),
            switch_between(next, !end_is_first, next, later),
        )
    }

    /// The last switch up to an instant and the next one after it, if the types differ and the
    /// likely year determines them.
    #[inline(always)]
    const fn switches_around(&self, unix_time: i64) -> Option<(Option<Switch>, Option<Switch>)> {
        if !self.has_inner_switches() || self.std().is_same(self.dst()) {
            return None;
        }
        let Some(moved_year) = likely_year(unix_time) else {
            return None;
        };
        if self.ends_next_year() {
            return Some(self.switches_by_order(true, unix_time, moved_year));
        }
        Some(self.switches_by_order(false, unix_time, moved_year))
    }

    /// The change at a switch.
    const fn change_at(&self, switch: Switch) -> RuleChange<'_> {
        RuleChange {
            unix_time: switch.unix_time,
            before: self.type_by(!switch.is_start),
            after: self.type_by(switch.is_start),
        }
    }

    /// Whether the rule is known to have no change: its types are equal, or daylight saving time
    /// never begins before it ends, or never ends before it begins again.
    const fn has_one_type(&self) -> bool {
        self.parts_are_sound();
        if self.std().is_same(self.dst()) {
            return true;
        }
        let (starts, ends) = (self.table(false), self.table(true));
        if self.ends_next_year() {
            return !starts.comes_before_next(ends);
        }
        !starts.comes_first(ends) || !ends.comes_before_next(starts)
    }

    /// The first change after an instant, from segment to segment.
    #[inline(never)]
    const fn outer_change_after(&self, unix_time: i64) -> Option<RuleChange<'_>> {
        if self.has_one_type() {
            return None;
        }
        let mut segment = self.segment(unix_time);
        while segment.last < i64::MAX {
            let next = segment.last + 1;
            let after = self.segment(next);
            if let Some(change) =
                change_by_types(next, segment.local_time_type, after.local_time_type)
            {
                return Some(change);
            }
            segment = after;
        }
        None
    }

    /// The last change up to an instant, from segment to segment.
    #[inline(never)]
    const fn outer_change_up_to(&self, unix_time: i64) -> Option<RuleChange<'_>> {
        if self.has_one_type() {
            return None;
        }
        let mut segment = self.segment(unix_time);
        while segment.from > i64::MIN {
            let from = segment.from;
            let before = self.segment(from - 1);
            if let Some(change) =
                change_by_types(from, before.local_time_type, segment.local_time_type)
            {
                return Some(change);
            }
            segment = before;
        }
        None
    }

    /// The first change after an instant.
    const fn change_after(&self, unix_time: i64) -> Option<RuleChange<'_>> {
        match self.switches_around(unix_time) {
            Some((_, Some(switch))) => Some(self.change_at(switch)),
            _ => self.outer_change_after(unix_time),
        }
    }

    /// The last change up to an instant.
    const fn change_up_to(&self, unix_time: i64) -> Option<RuleChange<'_>> {
        match self.switches_around(unix_time) {
            Some((Some(switch), _)) => Some(self.change_at(switch)),
            _ => self.outer_change_up_to(unix_time),
        }
    }
}

/// The first change of a rule after an instant.
#[must_use]
pub const fn change_after<'a>(rule: RuleRef<'a>, unix_time: i64) -> Option<RuleChange<'a>> {
    match rule {
        RuleRef::Fixed(_) => None,
        RuleRef::Alternate(rule) => rule.change_after(unix_time),
    }
}

/// The last change of a rule up to an instant.
#[must_use]
pub const fn change_up_to<'a>(rule: RuleRef<'a>, unix_time: i64) -> Option<RuleChange<'a>> {
    match rule {
        RuleRef::Fixed(_) => None,
        RuleRef::Alternate(rule) => rule.change_up_to(unix_time),
    }
}
