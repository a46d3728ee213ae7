// Tests from crates/tz_zone_tests/src/changes.rt by bindings/erase. Change that file instead.
//! Changes of clocks, by rows.

use crate::erased::tz_samples::rules::central_europe;
use crate::erased::tz_zone_tests::clocks::{SPRING_2024, three_types};
use crate::erased::tz_zone_tests::expect::{expect_eq, expect_eq_at};
use crate::kit::process::Abort;
use crate::kit::{self};
use crate::utc;
use tz::proved::tz_base::error::TzError;
use tz::proved::tz_zone::timezone::{Change, TimeZoneRef, Transition, TransitionRule};

/// A change: its instant, and the offsets before it and from it on.
type Row = (i64, i32, i32);

/// The first change of the rule of Central Europe, and the last one.
const FIRST: Row = (utc!(-2147483646-03-28 01:00:00), 3600, 7200);

const LAST: Row = (utc!(2147483645-10-29 01:00:00), 7200, 3600);

/// The parts of a change.
fn row_of(change: Option<Change<'_>>) -> Option<Row> {
    let change = change?;
    Some((
        change.unix_time(),
        change.before().ut_offset(),
        change.after().ut_offset(),
    ))
}

/// From one instant on, and back from another, the changes are these, whether each is asked for or
/// they come in turn.
fn expect_changes(rt: &impl Abort, zone: &TimeZoneRef<'_>, low: i64, high: i64, rows: &[Row]) {
    let mut from = low;
    let mut after = zone.changes_after(low);
    for row in rows {
        expect_eq_at(rt, &from, &row_of(zone.following(from)), &Some(*row));
        expect_eq_at(rt, &from, &row_of(after.next()), &Some(*row));
        from = row.0;
    }
    let mut until = high;
    let mut before = zone.changes_before(high);
    for row in rows.iter().rev() {
        expect_eq_at(rt, &until, &row_of(zone.preceding(until)), &Some(*row));
        expect_eq_at(rt, &until, &row_of(before.next()), &Some(*row));
        until = row.0;
    }
}

/// There is no change up to an instant, and none after another, however often they are asked for.
fn expect_no_others(rt: &impl Abort, zone: &TimeZoneRef<'_>, first: i64, last: i64) {
    expect_eq(rt, &row_of(zone.preceding(first)), &None);
    expect_eq(rt, &row_of(zone.following(last)), &None);
    let mut before = zone.changes_before(first);
    let mut after = zone.changes_after(last);
    for _ in 0..2 {
        expect_eq(rt, &row_of(before.next()), &None);
        expect_eq(rt, &row_of(after.next()), &None);
    }
}

#[test]
fn changes_of_a_rule() -> Result<(), TzError> {
    let rt = kit::HostRuntime;

    static PARIS: [Row; 6] = [
        (utc!(2024-03-31 01:00:00), 3600, 7200),
        (utc!(2024-10-27 01:00:00), 7200, 3600),
        (utc!(2025-03-30 01:00:00), 3600, 7200),
        (utc!(2025-10-26 01:00:00), 7200, 3600),
        (utc!(2026-03-29 01:00:00), 3600, 7200),
        (utc!(2026-10-25 01:00:00), 7200, 3600),
    ];
    const FROM: i64 = utc!(2024-01-01 00:00:00);
    const UNTIL: i64 = utc!(2027-01-01 00:00:00);
    let types = three_types()?;
    let rule = Some(TransitionRule::Alternate(central_europe()?));
    let zone = TimeZoneRef::new(&[], &types, &[], &rule)?;
    expect_changes(&rt, &zone, FROM, UNTIL, &PARIS);
    expect_changes(&rt, &zone, i64::MIN, FIRST.0 + 1, &[FIRST]);
    expect_changes(&rt, &zone, LAST.0 - 1, i64::MAX, &[LAST]);
    expect_no_others(&rt, &zone, FIRST.0, LAST.0);

    let types = three_types()?;
    let transitions = [Transition::new(0, 1), Transition::new(1_700_000_000, 1)];
    let zone = TimeZoneRef::new(&transitions, &types, &[], &rule)?;
    expect_changes(&rt, &zone, FROM, UNTIL, &PARIS);
    expect_changes(&rt, &zone, i64::MIN, SPRING_2024, &[(0, 0, 3600)]);
    expect_no_others(&rt, &zone, 0, LAST.0);
    Ok(())
}

/// A transition to an equal type is no change, and neither is the beginning of a rule with the type
/// of the last transition.
#[test]
fn changes_of_transitions() -> Result<(), TzError> {
    let rt = kit::HostRuntime;

    static ROWS: [Row; 3] = [(10, 0, 3600), (30, 3600, 0), (40, 0, 7200)];
    let types = three_types()?;
    let transitions = [
        Transition::new(10, 1),
        Transition::new(20, 1),
        Transition::new(30, 0),
        Transition::new(40, 2),
    ];
    let rule = Some(TransitionRule::Fixed(types[2]));
    let zone = TimeZoneRef::new(&transitions, &types, &[], &rule)?;
    expect_changes(&rt, &zone, i64::MIN, i64::MAX, &ROWS);
    expect_no_others(&rt, &zone, 10, 40);
    Ok(())
}
