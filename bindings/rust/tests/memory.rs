//! Searches into a list, with each number of entries: what they allocate, and that they fail where memory is refused and only there.
#![cfg(feature = "alloc")]

use std::alloc::{GlobalAlloc, Layout, System};
use std::cell::Cell;
use std::ptr;
use tz::datetime::{FoundDateTimeKind, FoundDateTimeList};
use tz::timezone::{AlternateTime, MonthWeekDay, RuleDay, Transition, TransitionRule};
use tz::{DateTime, LocalTimeType, TimeZoneRef, TzError};

thread_local! {
    /// How many allocations this thread asked for, and whether they are refused.
    static ASKED: Cell<usize> = const { Cell::new(0) };
    static REFUSED: Cell<bool> = const { Cell::new(false) };
}

struct Counting;

// SAFETY: the calls are the system's, or find no memory.
unsafe impl GlobalAlloc for Counting {
    unsafe fn alloc(&self, layout: Layout) -> *mut u8 {
        ASKED.set(ASKED.get() + 1);
        if REFUSED.get() {
            return ptr::null_mut();
        }
        // SAFETY: the layout is the caller's.
        unsafe { System.alloc(layout) }
    }

    unsafe fn dealloc(&self, pointer: *mut u8, layout: Layout) {
        // SAFETY: the memory is the system's.
        unsafe { System.dealloc(pointer, layout) }
    }
}

#[global_allocator]
static HEAP: Counting = Counting;

/// What a call returns, and how many allocations it asks for.
fn counted<T>(call: impl FnOnce() -> T) -> (T, usize) {
    let before = ASKED.get();
    let made = call();
    (made, ASKED.get() - before)
}

/// What a call returns if each allocation is refused.
fn refused<T>(call: impl FnOnce() -> T) -> T {
    REFUSED.set(true);
    let made = call();
    REFUSED.set(false);
    made
}

type Local = (i32, u8, u8, u8, u8);

/// A list has what the search into slots finds. One entry in the list itself takes no memory until it is moved out.
fn expect(
    zone: TimeZoneRef<'_>,
    local: Local,
    entries: usize,
    in_place: bool,
) -> FoundDateTimeList {
    let (year, month, day, hour, minute) = local;
    let find = || DateTime::find(year, month, day, hour, minute, 7, 9, zone);
    let mut slots = [None; 4];
    let slots = DateTime::find_n(&mut slots, year, month, day, hour, minute, 7, 9, zone).unwrap();
    let expected: Vec<FoundDateTimeKind> = slots.data().iter().flatten().copied().collect();
    assert_eq!(slots.count(), entries, "{local:?}");

    let (list, asked) = counted(find);
    let list = list.unwrap();
    assert_eq!(asked > 0, entries > 0 && !in_place, "{local:?}");
    match refused(find) {
        Ok(found) => assert!(asked == 0 && found == list),
        Err(error) => assert!(asked > 0 && matches!(error, TzError::Memory(_))),
    }

    assert_eq!(list.as_slice(), expected);
    assert_eq!((list.len(), list.is_empty()), (entries, entries == 0));
    assert!(list.iter().eq(&expected) && (&list).into_iter().eq(&expected));
    assert_eq!(list.unique(), slots.unique());
    assert_eq!(list.earliest(), slots.earliest());
    assert_eq!(list.latest(), slots.latest());
    assert_eq!(
        format!("{list:?}"),
        format!("FoundDateTimeList({expected:?})")
    );

    let (copy, asked) = counted(|| list.clone());
    assert_eq!(asked > 0, entries > 0 && !in_place);
    assert!(copy == list);
    let (moved, asked) = counted(|| copy.into_inner());
    assert_eq!(asked, usize::from(in_place));
    assert_eq!(moved, expected);
    assert!(list.clone().into_iter().eq(moved));
    list
}

fn offsets<const N: usize>(hours: [i32; N]) -> [LocalTimeType; N] {
    hours.map(|hour| LocalTimeType::with_ut_offset(3600 * hour).unwrap())
}

fn last_sunday(month: u8) -> RuleDay {
    RuleDay::MonthWeekDay(MonthWeekDay::new(month, 5, 0).unwrap())
}

#[test]
fn one_date_time_takes_no_memory() {
    let [winter, summer] = offsets([1, 2]);
    let rule = AlternateTime::new(
        winter,
        summer,
        last_sunday(3),
        7200,
        last_sunday(10),
        10_800,
    );
    let rule = Some(TransitionRule::Alternate(rule.unwrap()));
    let types = [winter, summer];
    let zone = TimeZoneRef::new(&[], &types, &[], &rule).unwrap();
    expect(TimeZoneRef::utc(), (2000, 1, 1, 0, 0), 1, true);
    // Far from the change, on both sides of it, in the gap and in the fold.
    expect(zone, (2000, 7, 1, 12, 0), 1, true);
    expect(zone, (2000, 3, 26, 1, 59), 1, true);
    expect(zone, (2000, 3, 26, 3, 0), 1, true);
    expect(zone, (2000, 10, 29, 1, 59), 1, true);
    expect(zone, (2000, 10, 29, 3, 0), 1, true);
    expect(zone, (2000, 3, 26, 2, 0), 1, false);
    expect(zone, (2000, 3, 26, 2, 59), 1, false);
    expect(zone, (2000, 10, 29, 2, 0), 2, false);
    expect(zone, (2000, 10, 29, 2, 59), 2, false);
}

#[test]
fn changes_close_together_are_listed() {
    // Set back twice, half an hour apart.
    let transitions = [Transition::new(0, 1), Transition::new(1800, 2)];
    let types = offsets([2, 1, 0, 10]);
    let rule = Some(TransitionRule::Fixed(types[2]));
    let near = TimeZoneRef::new(&transitions, &types[..3], &[], &rule).unwrap();
    let far = TimeZoneRef::new(&transitions, &types, &[], &rule).unwrap();
    expect(near, (1970, 1, 1, 1, 15), 3, false);
    expect(near, (1970, 1, 1, 0, 45), 2, false);
    // The fourth type, which is never in use, makes the window as wide as to have both changes: a list of one.
    let once = expect(near, (1970, 1, 1, 3, 0), 1, true);
    let listed = expect(far, (1970, 1, 1, 3, 0), 1, false);
    assert!(once == listed);
    assert!(once != expect(near, (1970, 1, 1, 3, 1), 1, true));
    assert!(once != FoundDateTimeList::default());
}

#[test]
fn nothing_takes_no_memory() {
    let transitions = [Transition::new(0, 1)];
    let types = offsets([2, 1]);
    let zone = TimeZoneRef::new(&transitions, &types, &[], &None).unwrap();
    let list = expect(zone, (1971, 1, 1, 0, 0), 0, false);
    assert!(list == FoundDateTimeList::default());
}
