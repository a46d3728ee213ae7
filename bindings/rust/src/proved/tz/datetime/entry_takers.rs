// Generated from crates/tz/src/datetime/entry_takers.rt by bindings/erase: its contracts are cut. Change that file instead.
//! What takes the entries of a search, in order of time: instants that show a reading, and jumps
//! over it. `Dated` makes date times of them for a list; `EntryEnds` (`entry_ends.rt`) keeps their
//! ends alone.

use super::{DateTime, FoundDateTimeKind};
use crate::proved::tz_base::error::TzError;
use crate::proved::tz_base::fields::Fields;
use crate::proved::tz_zone::timezone::LocalTimeType;
use crate::shim::alloc::AllocError;

/// What takes the entries of a search, in order of time.
pub(crate) trait EntryTaker<'a> {
    /// Takes an instant at which a clock shows the reading in a type.
    fn shown(&mut self, unix_time: i64, local_time_type: &'a LocalTimeType) -> Result<(), TzError>;

    /// Takes a jump over the reading: the instant from which on a clock has the second type.
    fn skipped(
        &mut self,
        unix_time: i64,
        before: &'a LocalTimeType,
        after: &'a LocalTimeType,
    ) -> Result<(), TzError>;
}

/// A list that a search writes to.
pub(crate) trait DateTimeList {
    /// Adds one at the end. If out of memory, it adds none.
    fn push(&mut self, found: FoundDateTimeKind) -> Result<(), AllocError>;
}

/// A list that takes the entries of fields as date times.
pub(super) struct Dated<'l, L> {
    pub(super) fields: &'l Fields,
    pub(super) list: &'l mut L,
}

impl<'a, L: DateTimeList> EntryTaker<'a> for Dated<'_, L> {
    #[inline(always)]
    fn shown(&mut self, unix_time: i64, local_time_type: &'a LocalTimeType) -> Result<(), TzError> {
        let date_time = DateTime::of_fields(self.fields, *local_time_type, unix_time);
        self.list.push(FoundDateTimeKind::Normal(date_time))?;
        Ok(())
    }

    #[inline(always)]
    fn skipped(
        &mut self,
        unix_time: i64,
        before: &'a LocalTimeType,
        after: &'a LocalTimeType,
    ) -> Result<(), TzError> {
        let before_transition = DateTime::shown_by(unix_time, self.fields.nanoseconds, *before)?;
        let after_transition = DateTime::shown_by(unix_time, self.fields.nanoseconds, *after)?;
        self.list.push(FoundDateTimeKind::Skipped {
            before_transition,
            after_transition,
        })?;
        Ok(())
    }
}
