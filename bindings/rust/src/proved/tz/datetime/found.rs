// Generated from crates/tz/src/datetime/found.rt by bindings/erase: its contracts are cut. Change that file instead.
//! What a search of date times finds: an entry; lists of entries, in memory of their own or in a
//! buffer of the caller; and which of these is the unique, the earliest or the latest one.

use super::DateTime;
#[cfg(feature = "alloc")]
use super::entry_takers::DateTimeList;
#[cfg(feature = "alloc")]
use crate::proved::tz_base::error::TzError;
#[cfg(feature = "alloc")]
use crate::shim::Vec;
#[cfg(feature = "alloc")]
use crate::shim::alloc::{AllocError, Allocator, Global};
use core::fmt;

/// An entry of what a search finds: a date time with the fields, or a jump over them.
#[derive(Clone, Copy, Debug, PartialEq, Eq)]
pub enum FoundDateTimeKind {
    /// The clock shows the date time.
    Normal(DateTime),
    /// The clock was set forward over the date time.
    ///
    /// Both sides have the Unix time of the jump, and the nanoseconds of the search.
    Skipped {
        /// The date time that the clock would have shown without the jump.
        before_transition: DateTime,
        /// The date time that the clock shows.
        after_transition: DateTime,
    },
}

impl FoundDateTimeKind {
    /// The date time twice, or the sides before and after the jump.
    pub(crate) const fn sides(&self) -> (&DateTime, &DateTime) {
        match self {
            FoundDateTimeKind::Normal(date_time) => (date_time, date_time),
            FoundDateTimeKind::Skipped {
                before_transition,
                after_transition,
            } => (before_transition, after_transition),
        }
    }
}

/// The date times that a search found, by rising Unix time.
///
/// Lists are equal when their entries are, on whichever allocators.
#[cfg(feature = "alloc")]
#[derive(PartialEq, Eq)]
pub struct FoundDateTimeList<A: Allocator + Copy = Global> {
    pub(crate) found: Vec<FoundDateTimeKind, A>,
}

#[cfg(feature = "alloc")]
impl<A: Allocator + Copy> FoundDateTimeList<A> {
    /// An empty list.
    #[must_use]
    pub fn new_in(alloc: A) -> Self {
        FoundDateTimeList {
            found: Vec::new(alloc),
        }
    }

    /// A copy of the list, on the same allocator.
    ///
    /// # Errors
    ///
    /// [`TzError::Memory`] if an allocation fails.
    pub fn try_clone(&self) -> Result<Self, TzError> {
        let found = self.found.clone()?;
        Ok(FoundDateTimeList { found })
    }

    /// The date time, if exactly one was found and no jump, and otherwise `None`.
    #[must_use]
    pub fn unique(&self) -> Option<DateTime> {
        match *self.found.as_slice() {
            [FoundDateTimeKind::Normal(date_time)] => Some(date_time),
            _ => None,
        }
    }

    /// The earliest date time; of a jump the side before it. `None` if nothing was found.
    #[must_use]
    pub fn earliest(&self) -> Option<DateTime> {
        Some(*self.found.first()?.sides().0)
    }

    /// The latest date time; of a jump the side after it. `None` if nothing was found.
    #[must_use]
    pub fn latest(&self) -> Option<DateTime> {
        Some(*self.found.last()?.sides().1)
    }

    /// What was found.
    #[must_use]
    pub fn into_inner(self) -> Vec<FoundDateTimeKind, A> {
        self.found
    }
}

#[cfg(feature = "alloc")]
impl<A: Allocator + Copy> DateTimeList for FoundDateTimeList<A> {
    /// The first one gets room for two, since a reading is found once, or twice if clocks are set
    /// back over it.
    #[inline(always)]
    fn push(&mut self, found: FoundDateTimeKind) -> Result<(), AllocError> {
        if self.found.is_empty() {
            self.found.reserve_exact(2)?;
        }
        self.found.push(found)?;
        Ok(())
    }
}

/// Prints the name of the type and what was found, as if that alone stood in it.
#[cfg(feature = "alloc")]
impl<A: Allocator + Copy> fmt::Debug for FoundDateTimeList<A> {
    fn fmt(&self, f: &mut fmt::Formatter<'_>) -> fmt::Result {
        f.debug_tuple("FoundDateTimeList")
            .field(&self.found)
            .finish()
    }
}

/// The date times that a search found, by rising Unix time, as far as a buffer goes.
///
/// All are counted, and the first of them are in the buffer's first slots. Lists are equal if all
/// slots of the buffers are, and the counts are.
///
/// The Unix time of a local time that is in no gap and no fold. One slot is enough, as all entries
/// are counted:
///
/// ```
/// # use std::time::Duration;
/// # use tz::{datetime::*, error::*, timezone::*, *};
/// pub fn plain_instant(
///     zone: TimeZoneRef<'_>,
///     local: UtcDateTime,
/// ) -> Result<Option<i64>, TzError> {
///     let mut slots = [None; 1];
///     let found = DateTime::find_n_local(&mut slots, local, zone)?;
///     Ok(found.unique().map(|date_time| date_time.unix_time()))
/// }
/// ```
pub struct FoundDateTimeListRefMut<'a> {
    buf: &'a mut [Option<FoundDateTimeKind>],
    count: usize,
}

impl<'a> FoundDateTimeListRefMut<'a> {
    /// A list of these slots with nothing found: its count is 0, and the slots stay as they are.
    #[must_use]
    pub const fn new(buf: &'a mut [Option<FoundDateTimeKind>]) -> Self {
        FoundDateTimeListRefMut { buf, count: 0 }
    }

    /// The list of `count` date times, the first of which are in the slots already.
    pub(super) fn counted(buf: &'a mut [Option<FoundDateTimeKind>], count: usize) -> Self {
        FoundDateTimeListRefMut { buf, count }
    }

    /// How many slots were written.
    const fn written(&self) -> usize {
        crate::shim::least!(self.count, self.buf.len())
    }

    /// The slots that were written.
    #[must_use]
    pub const fn data(&self) -> &[Option<FoundDateTimeKind>] {
        self.buf.split_at(self.written()).0
    }

    /// How many date times were found, whether there was a slot for each or not.
    #[must_use]
    pub const fn count(&self) -> usize {
        self.count
    }

    /// Whether there was a slot for each date time.
    #[must_use]
    pub const fn is_exhaustive(&self) -> bool {
        self.count <= self.buf.len()
    }

    /// The earliest date time that was written; of a jump the side before it. `None` if nothing was
    /// written.
    #[inline]
    #[must_use]
    pub const fn earliest(&self) -> Option<DateTime> {
        Some(
            *(match (match self.data().first() {
                Some(value) => value,
                None => return None,
            })
            .as_ref()
            {
                Some(value) => value,
                None => return None,
            })
            .sides()
            .0,
        )
    }

    /// The latest date time that was written; of a jump the side after it. `None` if nothing was
    /// written.
    #[inline]
    #[must_use]
    pub const fn latest(&self) -> Option<DateTime> {
        Some(
            *(match (match self.data().last() {
                Some(value) => value,
                None => return None,
            })
            .as_ref()
            {
                Some(value) => value,
                None => return None,
            })
            .sides()
            .1,
        )
    }

    /// The date time, if exactly one was found and no jump, and there was a slot for it, and
    /// otherwise `None`.
    #[inline]
    #[must_use]
    pub const fn unique(&self) -> Option<DateTime> {
        match *self.data() {
            [Some(FoundDateTimeKind::Normal(date_time))] if self.is_exhaustive() => Some(date_time),
            _ => None,
        }
    }
}

impl PartialEq for FoundDateTimeListRefMut<'_> {
    fn eq(&self, other: &Self) -> bool {
        *self.buf == *other.buf && self.count == other.count
    }
}

/// Prints the name of the type, all slots, how many of them were written, and how many date times
/// were found.
impl fmt::Debug for FoundDateTimeListRefMut<'_> {
    fn fmt(&self, f: &mut fmt::Formatter<'_>) -> fmt::Result {
        f.debug_struct("FoundDateTimeListRefMut")
            .field("buf", &self.buf)
            .field("current_index", &self.written())
            .field("count", &self.count)
            .finish()
    }
}
