// Generated from crates/tz_zone/src/table.rt by bindings/erase: its contracts are cut. Change that file instead.
//! The table of a zone: transitions, and a view that reads them one at a time.

mod transition_view;

use core::hash::{Hash, Hasher};
pub use transition_view::TransitionView;

/// A leap time from which on a local time type holds.
#[repr(C)]
#[derive(Clone, Copy, Debug, PartialEq, Eq)]
pub struct Transition {
    unix_leap_time: i64,
    local_time_type_index: usize,
}

impl Hash for Transition {
    fn hash<H: Hasher>(&self, state: &mut H) {
        self.unix_leap_time.hash(state);
        self.local_time_type_index.hash(state);
    }
}

impl Transition {
    /// The transition at this leap time to the type with this number.
    #[must_use]
    pub const fn new(unix_leap_time: i64, local_time_type_index: usize) -> Self {
        Transition {
            unix_leap_time,
            local_time_type_index,
        }
    }

    /// The leap time: Unix time with the leap seconds so far counted in.
    #[must_use]
    pub const fn unix_leap_time(&self) -> i64 {
        self.unix_leap_time
    }

    /// The number of the type in the zone's list.
    #[must_use]
    pub const fn local_time_type_index(&self) -> usize {
        self.local_time_type_index
    }
}
