//! Query lines, read and printed by hand.

use super::loops::{self, Entry, Lines, Local, Shown};
use tz::datetime::FoundDateTimeKind;
use tz::{DateTime, TimeZone};

struct Made(TimeZone);

fn shown(date_time: &DateTime) -> Shown {
    let local = Local {
        year: date_time.year(),
        month: date_time.month(),
        day: date_time.month_day(),
        hour: date_time.hour(),
        minute: date_time.minute(),
        second: date_time.second(),
    };
    Shown { local, offset: date_time.local_time_type().ut_offset() }
}

fn name_of(date_time: &DateTime) -> &str {
    let name = date_time.local_time_type().time_zone_designation();
    if name.is_empty() { "-" } else { name }
}

impl Lines for Made {
    fn named(&self, instant: i64, nanoseconds: u32, take: impl FnOnce(Option<(Shown, &str)>)) {
        let date_time = DateTime::from_timespec(instant, nanoseconds, self.0.as_ref()).ok();
        take(date_time.as_ref().map(|date_time| (shown(date_time), name_of(date_time))));
    }

    fn found(&self, local: Local, nanoseconds: u32, mut take: impl FnMut(usize, Option<Entry<'_>>)) {
        let Local { year, month, day, hour, minute, second } = local;
        let found = DateTime::find(year, month, day, hour, minute, second, nanoseconds, self.0.as_ref()).unwrap().into_inner();
        take(found.len(), None);
        for entry in &found {
            // Handed on in each arm: rustc 1.95 loses an offset where the arms meet, with `lto`.
            match entry {
                FoundDateTimeKind::Normal(date_time) => {
                    let entry = Entry::Shown(shown(date_time), name_of(date_time));
                    take(found.len(), Some(entry));
                }
                FoundDateTimeKind::Skipped { before_transition: before, after_transition: after } => {
                    let (name, other) = (name_of(before), name_of(after));
                    let entry = Entry::Skipped(shown(before), name, shown(after), other);
                    take(found.len(), Some(entry));
                }
            }
        }
    }
}

/// Answers the lines on standard input.
pub fn answer(zone: TimeZone) {
    loops::answer_lines(&Made(zone));
}
