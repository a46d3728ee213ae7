//! The parts of which constants are made. A part that the library refuses is a panic, which is an
//! error of compilation in a constant.

use tz::timezone::{AlternateTime, MonthWeekDay, RuleDay, Transition, TransitionRule};
use tz::{LocalTimeType, TimeZoneRef};

/// What the library makes of parts, where it accepts them.
macro_rules! checked {
    ($made:expr, $what:literal) => {
        match $made {
            Ok(value) => value,
            Err(_) => panic!(concat!("the check refuses this ", $what)),
        }
    };
}

// Days of the year, of which a version of the database may have none, are made by it.
#[allow(unused_imports)]
pub(crate) use checked;

/// A zone without leap seconds, by the check of the library.
pub(crate) const fn zone(
    transitions: &'static [Transition],
    local_time_types: &'static [LocalTimeType],
    extra_rule: &'static Option<TransitionRule>,
) -> TimeZoneRef<'static> {
    let zone = TimeZoneRef::new(transitions, local_time_types, &[], extra_rule);
    checked!(zone, "zone")
}

/// A table of pairs of an instant and the index of the type from it on.
pub(crate) const fn table<const N: usize>(pairs: [(i64, usize); N]) -> [Transition; N] {
    let mut table = [Transition::new(0, 0); N];
    let mut at = 0;
    while at < N {
        table[at] = Transition::new(pairs[at].0, pairs[at].1);
        at += 1;
    }
    table
}

/// A type by its offset from UTC in seconds, whether it is daylight saving time, and its name.
pub(crate) const fn local(ut_offset: i32, is_dst: bool, name: &str) -> LocalTimeType {
    let made = LocalTimeType::new(ut_offset, is_dst, Some(name.as_bytes()));
    checked!(made, "type")
}

/// A rule of one type.
pub(crate) const fn fixed(local_time_type: LocalTimeType) -> Option<TransitionRule> {
    Some(TransitionRule::Fixed(local_time_type))
}

/// A rule of two types, by the day and the time of day at which each change is.
pub(crate) const fn alternate(
    std: LocalTimeType,
    dst: LocalTimeType,
    dst_start: RuleDay,
    dst_start_time: i32,
    dst_end: RuleDay,
    dst_end_time: i32,
) -> Option<TransitionRule> {
    let made = AlternateTime::new(std, dst, dst_start, dst_start_time, dst_end, dst_end_time);
    Some(TransitionRule::Alternate(checked!(made, "rule")))
}

/// `Mm.w.d`
pub(crate) const fn week_day(month: u8, week: u8, week_day: u8) -> RuleDay {
    RuleDay::MonthWeekDay(checked!(MonthWeekDay::new(month, week, week_day), "day"))
}

#[cfg(test)]
mod tests {
    use super::*;

    #[test]
    fn a_type_keeps_its_parts() {
        for ut_offset in (-90_000..=93_600).step_by(450) {
            for is_dst in [false, true] {
                let made = local(ut_offset, is_dst, "-ABC12+");
                assert_eq!((made.ut_offset(), made.is_dst()), (ut_offset, is_dst));
                assert_eq!(made.time_zone_designation(), "-ABC12+");
            }
        }
    }
}
