//! What clocks show: [`DateTime`] in a zone, [`UtcDateTime`] in UTC; and searches for a local time, with what they return.
//!
//! [`Disambiguation`] is how one instant is chosen where clocks skip a local time or show it twice, and [`Meaning`] says which it is.

#[cfg(feature = "alloc")]
mod find;
#[cfg(feature = "std")]
mod system_time;

pub use crate::proved::tz::datetime::{
    DateTime, Disambiguation, FoundDateTimeKind, FoundDateTimeListRefMut, Meaning, UtcDateTime,
};
#[cfg(feature = "alloc")]
pub use find::FoundDateTimeList;
