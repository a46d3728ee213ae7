// Generated from crates/tz/src/inner.rt by bindings/erase: its contracts are cut. Change that file instead.
//! For the crates above and their tests, and no part of the public surface: fields, texts, searches
//! for fields and the slots that they fill, columns, and readers of bytes.

#[cfg(feature = "inner")]
pub use crate::proved::tz::columns::date_times::DateTimeSlot;
pub use crate::proved::tz::columns::date_times::write_date_times;
pub use crate::proved::tz::columns::instants::{
    NoInstant, write_instants, write_instants_of_readings,
};
pub use crate::proved::tz::columns::{Unanswered, write_offsets};
pub use crate::proved::tz::datetime::date_time::fields_of;
#[cfg(feature = "inner")]
pub use crate::proved::tz::datetime::disambiguation::find_one;
#[cfg(all(feature = "alloc", feature = "inner"))]
pub use crate::proved::tz::datetime::find::find_fields;
pub use crate::proved::tz::datetime::gaps_and_folds::types_of_window;
#[cfg(feature = "inner")]
pub use crate::proved::tz::datetime::gaps_and_folds::window_of;
#[cfg(feature = "alloc")]
pub use crate::proved::tz::datetime::in_place::{FoundDateTimes, find_in_place};
#[cfg(feature = "inner")]
pub use crate::proved::tz::datetime::slots::{Slot, find_into};
pub use crate::proved::tz::datetime::utc_date_time::utc_fields_of;
#[cfg(feature = "inner")]
pub use crate::proved::tz::parse::{read_digits, value_of};
#[cfg(feature = "inner")]
pub use crate::proved::tz_base::fields::{Fields, is_reading, local_reading};
#[cfg(feature = "inner")]
pub use crate::proved::tz_base::print::middle_of;
#[cfg(feature = "inner")]
pub use crate::proved::tz_base::text_buffer::two_pairs;
pub use crate::proved::tz_base::text_buffer::{TextBuffer, pair_of};
#[cfg(feature = "inner")]
pub use crate::proved::tz_zone::inner::after_byte;
#[cfg(all(feature = "std", feature = "inner"))]
pub use crate::proved::tz_zone::inner::read_to_end;
pub use crate::proved::tz_zone::inner::{WindowTypes, ZoneData};
