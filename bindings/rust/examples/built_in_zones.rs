//! A table of two zones that the program holds itself: their transitions lie in read-only memory, and each zone is checked once, at its first use.

use std::sync::LazyLock;
use tz::timezone::{AlternateTime, MonthWeekDay, RuleDay, Transition, TransitionRule};
use tz::{DateTime, LocalTimeType, TimeZoneRef, TzError};

/// Kathmandu: mean time until 1920, and from 1986 on a quarter of an hour more than before.
static KATHMANDU_TRANSITIONS: [Transition; 2] = [
    Transition::new(-1_577_943_676, 1),
    Transition::new(504_901_800, 2),
];

static KATHMANDU_TYPES: LazyLock<Vec<LocalTimeType>> = LazyLock::new(|| {
    types(&[
        (20_476, false, "LMT"),
        (19_800, false, "+0530"),
        (20_700, false, "+0545"),
    ])
});

static KATHMANDU_RULE: LazyLock<Option<TransitionRule>> =
    LazyLock::new(|| KATHMANDU_TYPES.last().copied().map(TransitionRule::Fixed));

/// New York since 2007, by a rule alone.
static NEW_YORK_TYPES: LazyLock<Vec<LocalTimeType>> =
    LazyLock::new(|| types(&[(-18_000, false, "EST"), (-14_400, true, "EDT")]));

static NEW_YORK_RULE: LazyLock<Option<TransitionRule>> = LazyLock::new(|| {
    let [std, dst] = NEW_YORK_TYPES[..] else {
        return None;
    };
    // The second Sunday of March and the first one of November, at two o'clock.
    let start = RuleDay::MonthWeekDay(MonthWeekDay::new(3, 2, 0).ok()?);
    let end = RuleDay::MonthWeekDay(MonthWeekDay::new(11, 1, 0).ok()?);
    let rule = AlternateTime::new(std, dst, start, 7200, end, 7200).ok()?;
    Some(TransitionRule::Alternate(rule))
});

/// The zones by their names. A zone is a few pointers into the statics above.
static ZONES: LazyLock<[(&str, TimeZoneRef<'static>); 2]> = LazyLock::new(|| {
    let kathmandu = TimeZoneRef::new(
        &KATHMANDU_TRANSITIONS,
        &KATHMANDU_TYPES,
        &[],
        &KATHMANDU_RULE,
    );
    let new_york = TimeZoneRef::new(&[], &NEW_YORK_TYPES, &[], &NEW_YORK_RULE);
    let made = "the table is checked by a run of this example";
    [
        ("Asia/Kathmandu", kathmandu.expect(made)),
        ("America/New_York", new_york.expect(made)),
    ]
});

/// Local time types from a table of offsets, daylight flags and names.
fn types(rows: &[(i32, bool, &str)]) -> Vec<LocalTimeType> {
    let made = rows.iter().map(|&(ut_offset, is_dst, name)| {
        LocalTimeType::new(ut_offset, is_dst, Some(name.as_bytes()))
    });
    made.collect::<Result<_, _>>().unwrap_or_default()
}

fn main() -> Result<(), TzError> {
    for unix_time in [0, 504_901_800, 1_752_580_800] {
        for (name, zone) in *ZONES {
            let date_time = DateTime::from_timespec(unix_time, 0, zone)?;
            let shown = date_time.local_time_type().time_zone_designation();
            println!("{date_time} {shown} {name}");
        }
    }
    Ok(())
}
