// Generated from crates/tz_format/src/moment.rt by bindings/erase: its contracts are cut. Change that file instead.
//! What patterns print of a date time.

use crate::proved::tz::LocalTimeType;
use crate::proved::tz_base::fields::Fields;

/// Where the name of a moment's type stands. That of a local time type is made when it is printed,
/// since Rust checks the text each time that it is made.
#[derive(Clone, Copy)]
pub(crate) enum Name<'a> {
    /// This text.
    Fixed(&'static str),
    /// The name of this type, which is empty if there is none.
    OfType(&'a LocalTimeType),
}

impl<'a> Name<'a> {
    /// The name.
    pub(crate) fn text(self) -> &'a str {
        match self {
            Name::Fixed(text) => text,
            Name::OfType(local_time_type) => local_time_type.time_zone_designation(),
        }
    }
}

/// The fields, the offset from UTC in seconds, the name of the type, which is empty if there is
/// none, and the Unix time.
#[derive(Clone, Copy)]
pub(crate) struct Moment<'a> {
    pub(crate) fields: Fields,
    pub(crate) ut_offset: i32,
    pub(crate) name: Name<'a>,
    pub(crate) unix_time: i64,
}
