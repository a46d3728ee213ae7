// Generated from crates/tz/src/datetime/mod.rt by bindings/erase: its contracts are cut. Change that file instead.
//! Date times.

pub(crate) mod date_time;
pub(crate) mod disambiguation;
mod entry_ends;
pub(crate) mod entry_takers;
pub(crate) mod find;
mod found;
pub(crate) mod gaps_and_folds;
pub(crate) mod in_place;
mod meaning;
pub(crate) mod slots;
pub(crate) mod utc_date_time;

pub use date_time::DateTime;
pub use disambiguation::Disambiguation;
#[cfg(feature = "alloc")]
pub use found::FoundDateTimeList;
pub use found::{FoundDateTimeKind, FoundDateTimeListRefMut};
pub use meaning::Meaning;
pub use utc_date_time::UtcDateTime;
