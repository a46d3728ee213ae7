// Tests from crates/tz_zone_tests/src/rules/consistency.rt by bindings/erase. Change that file instead.
//! Rules whose days are near each other: which are consistent, with one day's time a second
//! earlier, as it is, and a second later.

use crate::erased::tz_samples::rules::Day::{Julian0 as Z, Julian1 as J, Month as M};
use crate::erased::tz_samples::rules::{Day, day_of};
use crate::erased::tz_zone_tests::expect::expect_eq_at;
use crate::kit::process::Abort;
use crate::kit::{self};
use tz::proved::tz_base::error::TransitionRuleError;
use tz::proved::tz_rule::timezone::{AlternateTime, LocalTimeType};

/// A rule day and a day time in whole days.
type At = (Day, i8);

/// Which of the three times are accepted. (A static's rows hold no arrays.)
type Answers = (Option<bool>, Option<bool>, Option<bool>);

/// Makes the rule with the first day's time moved by seconds; the first day is the start, or the
/// end.
fn rule(x: At, seconds: i8, y: At, is_start: bool) -> Result<AlternateTime, TransitionRuleError> {
    let utc = LocalTimeType::utc();
    let x = (x.0, i32::from(x.1) * 86_400 + i32::from(seconds));
    let y = (y.0, i32::from(y.1) * 86_400);
    let (start, end) = if is_start { (x, y) } else { (y, x) };
    AlternateTime::new(utc, utc, day_of(start.0)?, start.1, day_of(end.0)?, end.1)
}

/// Whether the rule is accepted, where no other fault than inconsistency comes.
fn is_accepted(x: At, seconds: i8, y: At, is_start: bool) -> Option<bool> {
    match rule(x, seconds, y, is_start) {
        Ok(_) => Some(true),
        Err(TransitionRuleError::InconsistentRule) => Some(false),
        Err(_) => None,
    }
}

/// Which of the three times are accepted.
fn accepted(x: At, y: At, is_start: bool) -> Answers {
    (
        is_accepted(x, -1, y, is_start),
        is_accepted(x, 0, y, is_start),
        is_accepted(x, 1, y, is_start),
    )
}

/// Accepted at each of the three times, refused a second later, and refused a second earlier.
const ALL: Answers = (Some(true), Some(true), Some(true));

const NOT_LATER: Answers = (Some(true), Some(true), Some(false));

const NOT_EARLIER: Answers = (Some(false), Some(true), Some(true));

/// Refused where the first day comes a second later.
static REFUSED_LATER: [(At, At); 28] = [
    ((J(59), 0), (J(60), -1)),
    ((Z(364), 0), (Z(0), -1)),
    ((Z(365), 0), (Z(0), 0)),
    ((J(90), 0), (Z(90), 0)),
    ((Z(89), 0), (J(90), 0)),
    ((Z(364), 0), (J(1), -1)),
    ((Z(365), 0), (J(1), 0)),
    ((M(1, 4, 0), 0), (J(28), 0)),
    ((M(2, 5, 0), 0), (J(60), -1)),
    ((M(12, 5, 0), 0), (J(1), -1)),
    ((M(1, 4, 0), 0), (Z(27), 0)),
    ((M(2, 5, 0), 0), (Z(58), 1)),
    ((M(2, 4, 0), 0), (Z(59), -1)),
    ((M(2, 5, 0), 0), (Z(59), 0)),
    ((M(12, 5, 0), 0), (Z(0), -1)),
    ((J(1), 0), (M(1, 1, 0), 0)),
    ((J(53), 0), (M(2, 5, 0), 0)),
    ((J(365), 0), (M(1, 1, 0), -1)),
    ((Z(0), 0), (M(1, 1, 0), 0)),
    ((Z(52), 0), (M(2, 5, 0), 0)),
    ((Z(59), 0), (M(3, 1, 0), 0)),
    ((Z(59), -3), (M(2, 5, 0), 4)),
    ((Z(364), 0), (M(1, 1, 0), -1)),
    ((Z(365), 0), (M(1, 1, 0), 0)),
    ((M(3, 4, 2), 0), (M(3, 5, 4), -2)),
    ((M(4, 4, 2), 0), (M(4, 5, 3), -1)),
    ((M(3, 4, 2), 5), (M(4, 1, 4), -4)),
    ((M(4, 4, 2), 5), (M(5, 1, 3), -3)),
];

/// Accepted at each time.
static NEVER_REFUSED: [(At, At); 7] = [
    ((J(365), 0), (J(1), -1)),
    ((Z(58), 0), (Z(59), -1)),
    ((J(365), 0), (Z(0), 0)),
    ((M(3, 4, 2), 0), (M(3, 5, 5), -3)),
    ((M(4, 4, 2), 0), (M(4, 5, 4), -2)),
    ((M(3, 4, 2), 5), (M(4, 1, 5), -5)),
    ((M(4, 4, 2), 5), (M(5, 1, 4), -4)),
];

/// Refused where the first day comes a second earlier.
static REFUSED_EARLIER: [(At, At); 11] = [
    ((M(12, 5, 0), 3), (J(1), -4)),
    ((M(12, 5, 0), 3), (Z(0), -4)),
    ((J(365), 3), (M(1, 1, 0), -4)),
    ((Z(364), 4), (M(1, 1, 0), -4)),
    ((Z(365), 3), (M(1, 1, 0), -4)),
    ((M(2, 4, 2), 0), (M(2, 5, 3), -1)),
    ((M(3, 4, 2), 0), (M(3, 5, 6), -4)),
    ((M(4, 4, 2), 0), (M(4, 5, 5), -3)),
    ((M(2, 4, 2), 5), (M(3, 1, 3), -3)),
    ((M(3, 4, 2), 5), (M(4, 1, 6), -6)),
    ((M(4, 4, 2), 5), (M(5, 1, 5), -5)),
];

/// The rule with the first day as the start, or as the end, has these answers.
fn expect_answers(rt: &impl Abort, x: &At, y: &At, is_start: bool, answers: &Answers) {
    let (start, end) = if is_start { (x, y) } else { (y, x) };
    expect_eq_at(rt, &(start, end), &accepted(*x, *y, is_start), answers);
}

/// Each row has these answers, and has them with start and end exchanged.
fn expect_rows(rt: &impl Abort, rows: &[(At, At)], answers: &Answers) {
    for (x, y) in rows {
        expect_answers(rt, x, y, true, answers);
        expect_answers(rt, x, y, false, answers);
    }
}

#[test]
fn rows() {
    let rt = kit::HostRuntime;

    expect_rows(&rt, &REFUSED_LATER, &NOT_LATER);
    expect_rows(&rt, &NEVER_REFUSED, &ALL);
    expect_rows(&rt, &REFUSED_EARLIER, &NOT_EARLIER);
}

/// The answers for two days, and for the same with start and end exchanged.
fn both_ways(x: At, y: At) -> [Answers; 2] {
    [accepted(x, y, true), accepted(x, y, false)]
}

/// A week and a week day of a month, with a day time in whole days.
type Place = (u8, u8, i8);

/// The day at a place of a month.
fn day_of_month(month: u8, place: Place) -> At {
    let (week, week_day, days) = place;
    (M(month, week, week_day), days)
}

/// The month that comes this many months later.
fn month_later(month: u8, months: u8) -> u8 {
    month.wrapping_add(months).wrapping_add(11) % 12 + 1
}

/// For each month but the last: a day of it, how many months later the other day lies, the other
/// day, and which of the three times are accepted.
static OF_MONTHS: [(Place, u8, Place, Answers); 9] = [
    ((4, 0, 0), 0, (5, 0, 0), NOT_LATER),
    ((4, 0, 4), 1, (1, 0, -3), NOT_LATER),
    ((3, 2, 0), 0, (4, 3, -1), NOT_LATER),
    ((5, 2, 0), 1, (1, 3, -1), NOT_LATER),
    ((5, 0, 0), 0, (5, 0, 0), ALL),
    ((5, 0, 4), 1, (1, 0, -3), ALL),
    ((5, 0, 0), 1, (5, 0, 0), ALL),
    ((5, 2, 0), 1, (5, 3, 0), ALL),
    ((5, 2, 0), 0, (5, 3, -1), NOT_EARLIER),
];

/// For each month but the last: a day of it, how many months later the other day lies, and the
/// other day; they are accepted without a second more or less.
static ACCEPTED_OF_MONTHS: [(Place, u8, Place); 2] =
    [((1, 0, 0), 2, (1, 0, 0)), ((3, 0, 4), 0, (4, 0, -3))];

#[test]
fn rows_of_months() {
    let rt = kit::HostRuntime;

    for month in 1..12u8 {
        for &(x, months, y, answers) in OF_MONTHS.iter() {
            let (x, y) = (
                day_of_month(month, x),
                day_of_month(month_later(month, months), y),
            );
            expect_eq_at(&rt, &month, &both_ways(x, y), &[answers; 2]);
        }
        for &(x, months, y) in ACCEPTED_OF_MONTHS.iter() {
            let (x, y) = (
                day_of_month(month, x),
                day_of_month(month_later(month, months), y),
            );
            let found = [is_accepted(x, 0, y, true), is_accepted(x, 0, y, false)];
            expect_eq_at(&rt, &month, &found, &[Some(true); 2]);
        }
    }
}
