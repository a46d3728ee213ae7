//! Why answers may differ: the list. docs/DIFFERENCES.md has more of each.

use crate::plain::{Local, Parts, Rule};
use crate::{ours, theirs};

/// A reason for which an answer differs.
#[derive(Clone, Copy, Debug, PartialEq, Eq, PartialOrd, Ord)]
pub enum Reason {
    /// tz-rs makes date times of 10^9 nanoseconds and more; here they are an error, which is checked first.
    Nanoseconds,
    /// Files of version 4 are read.
    Version4,
    /// A leap-second table may begin with any correction, and its last record may say when it expires; in files before version 4 such a table is
    /// an error that comes before those of transitions.
    LeapTable,
    /// A transition falls on the second of a negative leap second: tz-rs's check takes it a second early, and its lookup does not.
    NegativeLeapSecond,
    /// The start and the end of a rule coincide in a year near the instant: here the pairing of starts and ends is that of all years.
    Tie,
    /// tz-rs's own lookups give the list that is found here, and not that which tz-rs finds.
    Search,
    /// Within 200 years of an end of `i32` tz-rs refuses many local times; here a search fails only if a jump over the local time cannot be made.
    Ends,
    /// `unique` looks at slots alone in tz-rs, even if they are too few.
    Unique,
}

/// The years of UTC around an instant.
fn year_of(unix_time: i64) -> i64 {
    1970 + unix_time.div_euclid(31_556_952)
}

/// Whether a rule's start and end coincide in some year near an instant.
pub fn has_tie(rule: Option<&Rule>, unix_time: i64) -> bool {
    let Some(Rule::Alternate(rule)) = rule else {
        return false;
    };
    let year = year_of(unix_time);
    (year - 2..=year + 2).any(|year| rule.start_in(year) == rule.end_in(year))
}

/// Whether the table is one that tz-rs refuses: its first correction is not 1 or -1, or its last record repeats the one before.
fn is_new_leap_table(leap_seconds: &[(i64, i32)]) -> bool {
    let repeats = matches!(leap_seconds, [.., (_, before), (_, last)] if before == last);
    let begins = matches!(leap_seconds, [(_, first), ..] if first.abs() != 1);
    repeats || begins
}

/// Whether the last transition falls on the second of a negative leap second.
fn is_on_negative_leap_second(parts: &Parts) -> bool {
    let Some((last, _)) = parts.transitions.last() else {
        return false;
    };
    let mut before = 0;
    parts.leap_seconds.iter().any(|&(at, correction)| {
        let is_negative = correction < before;
        before = correction;
        is_negative && at == *last
    })
}

/// Why a zone of parts is made by one crate alone, or refused in another way.
pub fn of_zone(parts: &Parts, version: Option<u8>) -> Option<Reason> {
    if version == Some(b'4') {
        return Some(Reason::Version4);
    }
    if is_new_leap_table(&parts.leap_seconds) {
        return Some(Reason::LeapTable);
    }
    if is_on_negative_leap_second(parts) {
        return Some(Reason::NegativeLeapSecond);
    }
    if parts
        .transitions
        .last()
        .is_some_and(|&(last, _)| has_tie(parts.rule.as_ref(), last))
    {
        return Some(Reason::Tie);
    }
    None
}

/// Why lookups of an instant differ.
pub fn of_instant(rule: Option<&Rule>, unix_time: i64) -> Option<Reason> {
    has_tie(rule, unix_time).then_some(Reason::Tie)
}

/// The list of a local time by tz-rs's own lookups: each offset of the zone that the clock has at the instant where it would show the local
/// time, and each change over it. Changes are those of this crate, with types that tz-rs looks up.
fn by_lookups(
    zone: &ours::Zone,
    other: &theirs::Zone,
    local: &Local,
) -> Option<Vec<(bool, i64, String, String)>> {
    let reading = local.reading();
    let borrowed = zone.as_ref();
    let mut offsets: Vec<i64> = borrowed
        .local_time_types()
        .iter()
        .map(|kind| i64::from(kind.ut_offset()))
        .collect();
    match borrowed.extra_rule() {
        Some(::ours::timezone::TransitionRule::Fixed(kind)) => {
            offsets.push(kind.ut_offset().into())
        }
        Some(::ours::timezone::TransitionRule::Alternate(rule)) => {
            offsets.extend([
                i64::from(rule.std().ut_offset()),
                i64::from(rule.dst().ut_offset()),
            ]);
        }
        None => {}
    }
    offsets.sort_unstable();
    offsets.dedup();
    let mut list = Vec::new();
    for offset in &offsets {
        let unix_time = reading - offset;
        if let Some((is, text)) = theirs::type_at(other, unix_time)
            && i64::from(is) == *offset
        {
            list.push((false, unix_time, text, String::new()));
        }
    }
    let (least, greatest) = (offsets.first()?, offsets.last()?);
    let mut at = reading - greatest - 1;
    while let Some(change) = borrowed.following(at) {
        at = change.unix_time();
        if at > reading - least + 1 {
            break;
        }
        let (Some(before), Some(after)) =
            (theirs::type_at(other, at - 1), theirs::type_at(other, at))
        else {
            continue;
        };
        if at + i64::from(before.0) <= reading && reading < at + i64::from(after.0) {
            list.push((true, at, before.1, after.1));
        }
    }
    list.sort_by_key(|entry| entry.1);
    Some(list)
}

/// Why searches of a local time differ.
pub fn of_search(
    zone: &ours::Zone,
    other: &theirs::Zone,
    rule: Option<&Rule>,
    local: &Local,
) -> Option<Reason> {
    let (here, there) = (ours::found(zone, local), theirs::found(other, local));
    let is_near_end = i64::from(local.year).abs() > i64::from(i32::MAX) - 200;
    match (&here, &there) {
        (Ok(here), Err(there)) if is_near_end && there.contains("OutOfRange") => {
            let expected = by_lookups(zone, other, local)?;
            // Where there is a tie too, tz-rs's lookups give another list.
            (*here == expected || has_tie(rule, local.reading())).then_some(Reason::Ends)
        }
        (Ok(here), Ok(there)) => {
            let expected = by_lookups(zone, other, local)?;
            if *here == expected && *there != expected {
                return Some(if is_near_end {
                    Reason::Ends
                } else {
                    Reason::Search
                });
            }
            has_tie(rule, local.reading()).then_some(Reason::Tie)
        }
        (Err(here), Ok(_)) if is_near_end && here.contains("OutOfRange") => Some(Reason::Ends),
        _ => None,
    }
}
