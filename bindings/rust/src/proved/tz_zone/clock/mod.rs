// Generated from crates/tz_zone/src/clock/mod.rt by bindings/erase: its contracts are cut. Change that file instead.
//! The clock of a zone: its type at an instant, its segments, and where it changes.

mod binary_search;
mod changes;
mod lookup;
mod segment;
pub mod window_types;

pub use changes::{change_after_last, change_before_next, find_following, find_preceding};
pub use lookup::find_local_time_type;
pub use segment::{Change, Segment, clock_segment_at};
#[cfg(feature = "inner")]
pub use window_types::{Span, Stage};
pub use window_types::{first_stage, span_from};
