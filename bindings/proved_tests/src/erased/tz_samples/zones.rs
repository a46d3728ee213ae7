// Tests from crates/tz_samples/src/zones.rt by bindings/erase. Change that file instead.
//! Zones and their parts as rows of tables, beside the rows of rules.
//!
//! No proof walks through a static, which holds no type with a model, such as a transition. So
//! tables of tests hold these rows, and functions make of them what they stand for.

use crate::erased::tz_samples::rules::{Day, RuleRow, TypeRow, rule_of, type_of};
use crate::kit::{Vec, VecIn};
use tz::proved::tz_base::error::TzError;
use tz::proved::tz_zone::timezone::{
    AlternateTime, LeapSecond, LocalTimeType, TimeZone, Transition, TransitionRule,
};
use tz::shim::alloc::{AllocError, Global};

/// The rule after a zone's last transition.
pub enum ExtraRule {
    Fixed(TypeRow),
    Alternate(RuleRow),
}

/// The parts of a zone.
pub struct ZoneRow {
    pub types: &'static [TypeRow],
    /// Leap times, and the places of the types.
    pub transitions: &'static [(i64, usize)],
    /// Leap times, and corrections.
    pub leap_seconds: &'static [(i64, i32)],
    pub extra_rule: Option<ExtraRule>,
}

/// A zone with jumps over the same hour.
pub static CROSSING: ZoneRow = ZoneRow {
    types: &[
        (0, false, None),
        (3600, false, None),
        (-10_800, false, None),
        (-19_800, false, None),
        (-16_200, false, None),
    ],
    transitions: &[
        (0, 0),
        (7200, 1),
        (14_400, 2),
        (25_200, 3),
        (28_800, 4),
        (32_400, 0),
    ],
    leap_seconds: &[],
    extra_rule: None,
};

/// The types of the zone with a far offset.
const FAR_TYPES: &[TypeRow] = &[
    (0, false, None),
    (2_147_483_647, false, None),
    (3600, false, None),
];

/// The rule of the zone with a far offset.
const FAR_RULE: RuleRow = (
    (0, false, None),
    (3600, false, None),
    (Day::Julian1(300), 0),
    (Day::Julian1(90), 3600),
);

/// A zone with an hour at an offset of 68 years, and a rule.
pub static FAR_OFFSET: ZoneRow = ZoneRow {
    types: FAR_TYPES,
    transitions: &[(0, 0), (3600, 1), (7200, 0), (10_800, 2)],
    leap_seconds: &[],
    extra_rule: Some(ExtraRule::Alternate(FAR_RULE)),
};

/// A zone with two transitions that the leap second puts at one instant.
pub static ONE_EFFECT: ZoneRow = ZoneRow {
    types: &[(0, false, None), (3600, false, None), (7200, false, None)],
    transitions: &[(100, 1), (101, 2)],
    leap_seconds: &[(100, 1)],
    extra_rule: Some(ExtraRule::Fixed((7200, false, None))),
};

/// The local time types of rows.
pub fn types_of(alloc: Global, rows: &[TypeRow]) -> Result<Vec<LocalTimeType>, TzError> {
    let mut types = Vec::new(alloc);
    for row in rows {
        types.push(type_of(row)?)?;
    }
    Ok(types)
}

/// The transitions at these leap times, to the types at these places.
pub fn transitions_of(alloc: Global, rows: &[(i64, usize)]) -> Result<Vec<Transition>, AllocError> {
    let mut transitions = Vec::new(alloc);
    for &(unix_leap_time, place) in rows {
        transitions.push(Transition::new(unix_leap_time, place))?;
    }
    Ok(transitions)
}

/// This many transitions, a million seconds apart from 0 on, to types 0 and 1 in turn.
pub fn transitions_in_turn(alloc: Global, count: u32) -> Result<Vec<Transition>, AllocError> {
    let mut transitions = Vec::new(alloc);
    for i in 0..count {
        let unix_leap_time = i64::from(i) * 1_000_000;
        transitions.push(Transition::new(unix_leap_time, i as usize % 2))?;
    }
    Ok(transitions)
}

/// The types of offset 0 and of an hour.
pub fn hour_apart() -> Result<[LocalTimeType; 2], TzError> {
    Ok([
        LocalTimeType::with_ut_offset(0)?,
        LocalTimeType::with_ut_offset(3600)?,
    ])
}

/// The leap seconds with these leap times and corrections.
fn leap_seconds_of(alloc: Global, rows: &[(i64, i32)]) -> Result<Vec<LeapSecond>, AllocError> {
    let mut leap_seconds = Vec::new(alloc);
    for &(unix_leap_time, correction) in rows {
        leap_seconds.push(LeapSecond::new(unix_leap_time, correction))?;
    }
    Ok(leap_seconds)
}

/// The rule after the last transition, if there is one.
fn extra_rule_of(row: &Option<ExtraRule>) -> Result<Option<TransitionRule>, TzError> {
    Ok(match row {
        None => None,
        Some(ExtraRule::Fixed(row)) => Some(TransitionRule::Fixed(type_of(row)?)),
        Some(ExtraRule::Alternate(row)) => Some(TransitionRule::Alternate(rule_of(row)?)),
    })
}

/// The zone of a row, with this rule in the place of its own.
pub fn zone_with_rule(
    alloc: Global,
    row: &ZoneRow,
    extra_rule: Option<TransitionRule>,
) -> Result<TimeZone, TzError> {
    let types = types_of(alloc, row.types)?;
    let leap_seconds = leap_seconds_of(alloc, row.leap_seconds)?;
    let transitions = transitions_of(alloc, row.transitions)?;
    TimeZone::new(transitions, types, leap_seconds, extra_rule)
}

/// The zone of a row.
pub fn zone_of(alloc: Global, row: &ZoneRow) -> Result<TimeZone, TzError> {
    zone_with_rule(alloc, row, extra_rule_of(&row.extra_rule)?)
}

/// The zone of types with these offsets alone, of transitions to the types at these places, and of
/// a rule with an offset or none.
pub fn plain_zone(
    alloc: Global,
    ut_offsets: &[i32],
    transitions: &[(i64, usize)],
    rule: Option<i32>,
) -> Result<TimeZone, TzError> {
    let mut types = Vec::new(alloc);
    for ut_offset in ut_offsets {
        types.push(LocalTimeType::with_ut_offset(*ut_offset)?)?;
    }
    let extra_rule = match rule {
        Some(ut_offset) => Some(TransitionRule::Fixed(LocalTimeType::with_ut_offset(
            ut_offset,
        )?)),
        None => None,
    };
    let transitions = transitions_of(alloc, transitions)?;
    TimeZone::new(transitions, types, Vec::new(alloc), extra_rule)
}

/// The zone of a rule alone.
pub fn zone_of_rule(alloc: Global, rule: AlternateTime) -> Result<TimeZone, TzError> {
    let types = Vec::from_slice(alloc, &[*rule.std(), *rule.dst()])?;
    let extra_rule = Some(TransitionRule::Alternate(rule));
    TimeZone::new(Vec::new(alloc), types, Vec::new(alloc), extra_rule)
}

/// A clock of UTC that is set two hours forward at an instant, and stays so.
pub fn two_hours_forward_at(alloc: Global, unix_time: i64) -> Result<TimeZone, TzError> {
    plain_zone(alloc, &[0, 7200], &[(unix_time, 1)], Some(7200))
}
