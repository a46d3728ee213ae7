// Generated from crates/tz_query/src/query/search_answers.rt by bindings/erase: its contracts are cut. Change that file instead.
//! Answers of `F` lines: what the search for fields finds.

use super::answers::Answers;
use super::fault_names::field_fault_name;
use super::output::Written;
use super::read_query::Nanoseconds;
use crate::shim::alloc::Allocator;
use tz::proved::tz::datetime::{DateTime, FoundDateTimeKind};
use tz::proved::tz::inner::{
    self, Fields, WindowTypes, ZoneData, fields_of, types_of_window, window_of,
};
use tz::proved::tz::{LocalTimeType, TzError};

impl<'a, A: Allocator + Copy> Answers<'a, A> {
    /// Writes `front` and the line of fields that a type shows.
    #[inline(always)]
    pub fn push_shown(
        &mut self,
        front: &[u8],
        fields: &Fields,
        local_time_type: &LocalTimeType,
        nanoseconds: &Nanoseconds,
    ) -> Written {
        let suffix = self.suffixes.of(local_time_type);
        self.output.push_shown(front, fields, suffix, nanoseconds)
    }

    /// Writes `front` and the line of a date time of a list.
    fn push_listed(
        &mut self,
        front: &[u8],
        date_time: &DateTime,
        nanoseconds: &Nanoseconds,
    ) -> Written {
        let local_time_type = date_time.local_time_type();
        self.push_shown(front, fields_of(date_time), local_time_type, nanoseconds)
    }

    /// Writes the line of an entry of a list.
    fn push_entry(&mut self, entry: &FoundDateTimeKind, nanoseconds: &Nanoseconds) -> Written {
        match entry {
            FoundDateTimeKind::Normal(date_time) => self.push_listed(b"N ", date_time, nanoseconds),
            FoundDateTimeKind::Skipped {
                before_transition,
                after_transition,
            } => {
                self.push_listed(b"S ", before_transition, nanoseconds)?;
                self.output.page.pop();
                self.push_listed(b" ", after_transition, nanoseconds)
            }
        }
    }

    /// Writes the answer lines of a list.
    pub fn push_found(
        &mut self,
        found: &[FoundDateTimeKind],
        nanoseconds: &Nanoseconds,
    ) -> Written {
        self.output.push_count(b'F', found.len())?;
        for entry in found {
            self.push_entry(entry, nanoseconds)?;
        }
        Ok(())
    }

    /// Answers fields with these nanoseconds by a search of their own.
    fn answer_by_search(&mut self, fields: Fields, nanoseconds: Nanoseconds) -> Written {
        let mut whole = fields;
        whole.nanoseconds = nanoseconds.number();
        match inner::find_fields(self.alloc, &whole, &ZoneData::of(&self.zone)) {
            Ok(list) => self.push_found(&list.into_inner(), &nanoseconds),
            Err(TzError::DateTime(fault)) => self.output.push_error(field_fault_name(&fault)),
            Err(TzError::OutOfRange) => self.output.push_error("OutOfRange"),
            Err(TzError::Memory(fault)) => Err(fault),
            Err(_) => unreachable!(),
        }
    }

    /// The type that the clock has throughout a window, if it has one.
    fn type_in_window(&mut self, low: i64, high: i64) -> Option<&'a LocalTimeType> {
        self.follow(low);
        match types_of_window(&ZoneData::of(&self.zone), low, high) {
            WindowTypes::One(local_time_type) => Some(local_time_type),
            _ => None,
        }
    }

    /// Answers fields with these nanoseconds: by the type that is kept, if the clock has it
    /// throughout their window, or by a search there.
    #[inline(always)]
    pub fn answer_search(&mut self, fields: &Fields, nanoseconds: &Nanoseconds) -> Written {
        let Ok(()) = fields.check() else {
            return self.answer_by_search(*fields, *nanoseconds);
        };
        let reading = fields.reading();
        let (low, high) = window_of(&ZoneData::of(&self.zone), reading);
        if self.segment.has(low, high) {
            let (output, suffix) = (&mut self.output, &self.segment.suffix);
            return output.push_shown(b"F 1\nN ", fields, suffix, nanoseconds);
        }
        let Some(local_time_type) = self.type_in_window(low, high) else {
            return self.answer_by_search(*fields, *nanoseconds);
        };
        self.push_shown(b"F 1\nN ", fields, local_time_type, nanoseconds)
    }

    /// Answers any fields.
    #[inline(never)]
    pub fn answer_any_search(&mut self, fields: &Fields) -> Written {
        match fields.check() {
            Ok(()) => self.answer_search(fields, &Nanoseconds::new(fields.nanoseconds)),
            Err(fault) => self.output.push_error(field_fault_name(&fault)),
        }
    }
}
