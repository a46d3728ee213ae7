// Generated from crates/tz_query/src/query/time_answers.rt by bindings/erase: its contracts are cut. Change that file instead.
//! Answers of `T` lines: the date time of an instant.

use super::answers::Answers;
use super::fault_names::fault_name;
use super::output::{Output, Written};
use super::read_query::Nanoseconds;
use super::suffixes::Suffix;
use crate::shim::alloc::Allocator;
use tz::proved::tz::LocalTimeType;
use tz::proved::tz::constants::NANOSECONDS_PER_SECOND;
use tz::proved::tz::inner::{Fields, local_reading};

/// What a clock with this offset from UTC shows at a Unix time, if its year is one of 32 bits. The
/// nanoseconds are 0: a line shows those of its query.
pub fn shown_fields(unix_time: i64, ut_offset: i32) -> Option<Fields> {
    let reading = local_reading(unix_time, ut_offset)?;
    Some(Fields::from_reading(reading, 0))
}

impl<A: Allocator> Output<A> {
    /// Writes the answer of an instant. `suffix` is that of the type that the clock has there.
    #[inline(always)]
    fn push_instant(
        &mut self,
        unix_time: i64,
        nanoseconds: &Nanoseconds,
        suffix: &Suffix,
    ) -> Written {
        let Some(fields) = shown_fields(unix_time, suffix.local_time_type.ut_offset()) else {
            return self.push_error("OutOfRange");
        };
        self.push_shown(b"", &fields, suffix, nanoseconds)
    }
}

impl<'a, A: Allocator + Copy> Answers<'a, A> {
    /// The type of the clock at an instant outside the kept segment, if it has one.
    fn type_at(&mut self, unix_time: i64) -> Option<&'a LocalTimeType> {
        self.follow(unix_time);
        self.zone.find_local_time_type(unix_time).ok()
    }

    /// Answers an instant.
    #[inline(always)]
    pub fn answer_time(&mut self, unix_time: i64, nanoseconds: &Nanoseconds) -> Written {
        if self.segment.has(unix_time, unix_time) {
            let suffix = &self.segment.suffix;
            return self.output.push_instant(unix_time, nanoseconds, suffix);
        }
        let Some(local_time_type) = self.type_at(unix_time) else {
            return self.answer_by_lookup(unix_time, *nanoseconds);
        };
        let suffix = self.suffixes.of(local_time_type);
        self.output.push_instant(unix_time, nanoseconds, suffix)
    }

    /// Looks an instant up once more, for the error, which [`Answers::type_at`] drops. It finds no
    /// type then: the arm for one is there since `type_at` promises nothing of `None`.
    #[cold]
    fn answer_by_lookup(&mut self, unix_time: i64, nanoseconds: Nanoseconds) -> Written {
        match self.zone.find_local_time_type(unix_time) {
            Ok(local_time_type) => {
                let suffix = self.suffixes.of(local_time_type);
                self.output.push_instant(unix_time, &nanoseconds, suffix)
            }
            Err(error) => self.output.push_error(fault_name(&error)),
        }
    }

    /// Answers an instant with any nanoseconds.
    #[inline(never)]
    pub fn answer_any_time(&mut self, unix_time: i64, nanoseconds: u32) -> Written {
        if nanoseconds >= NANOSECONDS_PER_SECOND {
            return self.output.push_error("InvalidNanoseconds");
        }
        self.answer_time(unix_time, &Nanoseconds::new(nanoseconds))
    }
}
