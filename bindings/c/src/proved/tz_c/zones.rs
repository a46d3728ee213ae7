// Generated from crates/tz_c/src/zones.rt by bindings/erase: its contracts are cut. Change that file instead.
//! Local time types, rule days, alternate rules, and zones.

use crate::proved::tz_c::codes::{
    NO_CHANGE, NO_CONFLICT, NO_RULE, OK, OUT_OF_RANGE, code_of, rule_code, type_code,
};
use crate::proved::tz_c::zone_data::TzZone;
use tz::proved::tz_rule::inner::{AlternateData, DayData, RuleRef, find_local_time_type};
use tz::proved::tz_rule::timezone::{
    AlternateTime, Julian0WithLeap, Julian1WithoutLeap, LocalTimeType, MonthWeekDay, RuleDay,
};
use tz::proved::tz_zone::inner::{self, effect, unix_time_to_unix_leap_time};
use tz::proved::tz_zone::timezone::{Change, LeapSecond, Segment, Transition};

/// The local time type with these parts, as `LocalTimeType::new` makes it.
#[inline(always)]
pub fn tz_local_time_type_new(
    ut_offset: i32,
    is_dst: bool,
    has_name: bool,
    name: &[u8],
    out: &mut LocalTimeType,
) -> u32 {
    let name = if has_name { Some(name) } else { None };
    match LocalTimeType::new(ut_offset, is_dst, name) {
        Ok(local_time_type) => {
            *out = local_time_type;
            OK
        }
        Err(error) => type_code(error),
    }
}

/// The day with this number of the days that are not February 29th, as `Julian1WithoutLeap::new`
/// makes it.
#[inline(always)]
pub fn tz_julian_1_new(julian_day_1: u16, out: &mut DayData) -> u32 {
    match Julian1WithoutLeap::new(julian_day_1) {
        Ok(day) => {
            *out = DayData::of(&RuleDay::Julian1WithoutLeap(day));
            OK
        }
        Err(error) => rule_code(error),
    }
}

/// The day this many days after January 1st, as `Julian0WithLeap::new` makes it.
#[inline(always)]
pub fn tz_julian_0_new(julian_day_0: u16, out: &mut DayData) -> u32 {
    match Julian0WithLeap::new(julian_day_0) {
        Ok(day) => {
            *out = DayData::of(&RuleDay::Julian0WithLeap(day));
            OK
        }
        Err(error) => rule_code(error),
    }
}

/// The week day of a month, as `MonthWeekDay::new` makes it.
#[inline(always)]
pub fn tz_month_week_day_new(month: u8, week: u8, week_day: u8, out: &mut DayData) -> u32 {
    match MonthWeekDay::new(month, week, week_day) {
        Ok(day) => {
            *out = DayData::of(&RuleDay::MonthWeekDay(day));
            OK
        }
        Err(error) => rule_code(error),
    }
}

/// Years that show why parts make no rule.
#[repr(C)]
#[derive(Clone, Copy)]
pub struct ConflictData {
    first_year: i32,
    second_year: i32,
    distance: i32,
}

/// The rule with these parts, as `AlternateTime::new` makes it.
#[inline(always)]
pub fn tz_alternate_new(
    std: &LocalTimeType,
    dst: &LocalTimeType,
    dst_start: &DayData,
    dst_start_time: i32,
    dst_end: &DayData,
    dst_end_time: i32,
    out: &mut AlternateData,
) -> u32 {
    match AlternateTime::new(
        *std,
        *dst,
        dst_start.day(),
        dst_start_time,
        dst_end.day(),
        dst_end_time,
    ) {
        Ok(rule) => {
            *out = *AlternateData::of(&rule);
            OK
        }
        Err(error) => rule_code(error),
    }
}

/// Why parts in range make no rule, as `AlternateTime::conflict` says it.
#[inline(always)]
pub fn tz_alternate_conflict(
    std: &LocalTimeType,
    dst: &LocalTimeType,
    dst_start: &DayData,
    dst_start_time: i32,
    dst_end: &DayData,
    dst_end_time: i32,
    out: &mut ConflictData,
) -> u32 {
    match AlternateTime::conflict(
        *std,
        *dst,
        dst_start.day(),
        dst_start_time,
        dst_end.day(),
        dst_end_time,
    ) {
        Some((first_year, second_year, distance)) => {
            *out = ConflictData {
                first_year,
                second_year,
                distance,
            };
            OK
        }
        None => NO_CONFLICT,
    }
}

/// The rule that two lists give: the first type of `fixed`, or else the first rule of `alternate`.
pub(crate) fn rule_of_lists<'a>(
    fixed: &'a [LocalTimeType],
    alternate: &'a [AlternateData],
) -> Option<RuleRef<'a>> {
    if !fixed.is_empty() {
        return Some(RuleRef::Fixed(&fixed[0]));
    }
    if !alternate.is_empty() {
        return Some(RuleRef::Alternate(&alternate[0]));
    }
    None
}

/// The type of a rule at an instant.
#[inline(always)]
pub fn tz_rule_type_at(
    fixed: &[LocalTimeType],
    alternate: &[AlternateData],
    unix_time: i64,
    out: &mut LocalTimeType,
) -> u32 {
    let Some(rule) = rule_of_lists(fixed, alternate) else {
        return NO_RULE;
    };
    match find_local_time_type(rule, unix_time) {
        Ok(local_time_type) => {
            *out = *local_time_type;
            OK
        }
        Err(_) => OUT_OF_RANGE,
    }
}

/// Parts that may make a zone.
#[repr(C)]
#[derive(Clone, Copy)]
pub struct PartsData<'a> {
    pub transitions: &'a [Transition],
    pub local_time_types: &'a [LocalTimeType],
    pub leap_seconds: &'a [LeapSecond],
    pub fixed: &'a [LocalTimeType],
    pub alternate: &'a [AlternateData],
}

/// The least and the greatest offset of a zone.
#[repr(C)]
#[derive(Clone, Copy)]
pub struct OffsetsData {
    pub(crate) least: i32,
    pub(crate) greatest: i32,
}

/// What a call writes of a segment. Without a type the type is UTC's, whose bytes are zero.
#[repr(C)]
#[derive(Clone, Copy)]
pub struct SegmentData {
    from: i64,
    last: i64,
    has_type: bool,
    local_time_type: LocalTimeType,
}

/// What a call writes of a change.
#[repr(C)]
#[derive(Clone, Copy)]
pub struct ChangeData {
    unix_time: i64,
    before: LocalTimeType,
    after: LocalTimeType,
}

impl SegmentData {
    /// The data of a segment.
    fn of(segment: &Segment<'_>) -> Self {
        let (from, last) = (segment.from(), segment.last());
        match segment.local_time_type() {
            Some(local_time_type) => SegmentData {
                from,
                last,
                has_type: true,
                local_time_type: *local_time_type,
            },
            None => SegmentData {
                from,
                last,
                has_type: false,
                local_time_type: LocalTimeType::utc(),
            },
        }
    }
}

impl ChangeData {
    /// The data of a change.
    fn of(change: &Change<'_>) -> Self {
        ChangeData {
            unix_time: change.unix_time(),
            before: *change.before(),
            after: *change.after(),
        }
    }
}

/// Whether parts make a zone, as `TimeZoneRef::new` checks them, and its end offsets.
#[inline(always)]
pub fn tz_zone_check(parts: &PartsData<'_>, out: &mut OffsetsData) -> u32 {
    match inner::ZoneData::new(
        parts.transitions,
        parts.local_time_types,
        parts.leap_seconds,
        rule_of_lists(parts.fixed, parts.alternate),
    ) {
        Ok(zone) => {
            let (least, greatest) = zone.offsets();
            *out = OffsetsData { least, greatest };
            OK
        }
        Err(error) => code_of(&error),
    }
}

/// The type of a zone's clock at an instant, as `TimeZoneRef::find_local_time_type` finds it.
#[inline(always)]
pub fn tz_zone_type_at(zone: &TzZone<'_>, unix_time: i64, out: &mut LocalTimeType) -> u32 {
    match zone.as_zone_data().find_local_time_type(unix_time) {
        Ok(local_time_type) => {
            *out = *local_time_type;
            OK
        }
        Err(error) => code_of(&error),
    }
}

/// The segment around an instant, as `TimeZoneRef::segment_at` finds it.
#[inline(always)]
pub fn tz_zone_segment_at(zone: &TzZone<'_>, unix_time: i64, out: &mut SegmentData) -> u32 {
    *out = SegmentData::of(&zone.as_zone_data().segment_at(unix_time));
    OK
}

/// The first change after an instant, as `TimeZoneRef::following` finds it.
#[inline(always)]
pub fn tz_zone_following(zone: &TzZone<'_>, unix_time: i64, out: &mut ChangeData) -> u32 {
    match zone.as_zone_data().following(unix_time) {
        Some(change) => {
            *out = ChangeData::of(&change);
            OK
        }
        None => NO_CHANGE,
    }
}

/// The last change before an instant, as `TimeZoneRef::preceding` finds it.
#[inline(always)]
pub fn tz_zone_preceding(zone: &TzZone<'_>, unix_time: i64, out: &mut ChangeData) -> u32 {
    match zone.as_zone_data().preceding(unix_time) {
        Some(change) => {
            *out = ChangeData::of(&change);
            OK
        }
        None => NO_CHANGE,
    }
}

/// The first index of a type in a list.
#[allow(clippy::manual_find, clippy::needless_range_loop)]
fn index_in(types: &[LocalTimeType], local_time_type: &LocalTimeType) -> Option<usize> {
    for index in 0..types.len() {
        if types[index] == *local_time_type {
            return Some(index);
        }
    }
    None
}

/// The first index of a type among those of a rule, of which it is one.
fn index_in_rule(rule: Option<RuleRef<'_>>, local_time_type: &LocalTimeType) -> usize {
    match rule {
        Some(RuleRef::Alternate(rule)) => {
            if rule.std() == local_time_type {
                0
            } else {
                1
            }
        }
        _ => 0,
    }
}

/// The first index of one of a zone's types among those of its list and of its rule.
fn index_of(zone: &TzZone<'_>, local_time_type: &LocalTimeType) -> usize {
    let types = zone.parts.local_time_types;
    match index_in(types, local_time_type) {
        Some(index) => index,
        None => types.len() + index_in_rule(zone.as_zone_data().rule(), local_time_type),
    }
}

/// The index of the type of a zone's clock at an instant.
#[inline(always)]
pub fn tz_zone_place_at(zone: &TzZone<'_>, unix_time: i64, out: &mut usize) -> u32 {
    match zone.as_zone_data().find_local_time_type(unix_time) {
        Ok(local_time_type) => {
            *out = index_of(zone, local_time_type);
            OK
        }
        Err(error) => code_of(&error),
    }
}

/// The leap time of an instant.
#[inline(always)]
pub fn tz_zone_leap_time(zone: &TzZone<'_>, unix_time: i64, out: &mut i64) -> u32 {
    match unix_time_to_unix_leap_time(zone.parts.leap_seconds, unix_time) {
        Ok(leap_time) => {
            *out = leap_time;
            OK
        }
        Err(error) => code_of(&error),
    }
}

/// The least instant at which a leap time is reached.
#[inline(always)]
pub fn tz_zone_effect(zone: &TzZone<'_>, leap_time: i64, out: &mut i64) -> u32 {
    match effect(zone.parts.leap_seconds, leap_time) {
        Ok(unix_time) => {
            *out = unix_time;
            OK
        }
        Err(error) => code_of(&error),
    }
}
