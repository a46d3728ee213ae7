// Generated from crates/tz_rule/src/timezone/local_time_type.rt by bindings/erase: its contracts are cut. Change that file instead.
//! Local time types.

use crate::proved::tz_base::error::LocalTimeTypeError;
use core::fmt;
use core::hash::{Hash, Hasher};

/// A name of one to seven ASCII bytes, or none, of length 0. The bytes after the name are zero.
#[repr(C)]
#[derive(Clone, Copy, Debug)]
pub(super) struct Designation {
    pub(super) bytes: [u8; 7],
    pub(super) len: u8,
}

/// A local time type: an offset that is added to UTC, a daylight flag and a name.
#[repr(C)]
#[derive(Clone, Copy)]
pub struct LocalTimeType {
    ut_offset: i32,
    is_dst: bool,
    time_zone_designation: Designation,
}

impl PartialEq for LocalTimeType {
    fn eq(&self, other: &LocalTimeType) -> bool {
        self.is_same(other)
    }
}

impl Eq for LocalTimeType {}

impl Hash for LocalTimeType {
    fn hash<H: Hasher>(&self, state: &mut H) {
        self.ut_offset.hash(state);
        self.is_dst.hash(state);
        self.designation().hash(state);
    }
}

impl fmt::Debug for LocalTimeType {
    fn fmt(&self, f: &mut fmt::Formatter<'_>) -> fmt::Result {
        f.debug_struct("LocalTimeType")
            .field("ut_offset", &self.ut_offset)
            .field("is_dst", &self.is_dst)
            .field("time_zone_designation", &self.designation())
            .finish()
    }
}

/// A bit for each byte: that of `0-9A-Za-z+-` is set.
static NAME_BITS: [u32; 8] = [0, 0x03ff_2800, 0x07ff_fffe, 0x07ff_fffe, 0, 0, 0, 0];

/// Whether a name may have the byte.
const fn is_designation_byte(byte: u8) -> bool {
    NAME_BITS[(byte / 32) as usize] >> (byte % 32) & 1 == 1
}

impl Designation {
    /// No name.
    const fn none() -> Designation {
        Designation {
            bytes: [0; 7],
            len: 0,
        }
    }

    /// Checks and stores a name.
    #[inline]
    const fn new(name: &[u8]) -> Result<Designation, LocalTimeTypeError> {
        let len = name.len();
        if len < 1 || len > 7 {
            return Err(LocalTimeTypeError::InvalidTimeZoneDesignationLength);
        }
        let mut bytes = [0; 7];
        let mut index = 0;
        while index < len {
            if !is_designation_byte(name[index]) {
                return Err(LocalTimeTypeError::InvalidTimeZoneDesignationChar);
            }
            bytes[index] = name[index];
            index += 1;
        }
        Ok(Designation {
            bytes,
            len: len as u8,
        })
    }

    /// The bytes and the length, as one number.
    const fn word(&self) -> u64 {
        let [b0, b1, b2, b3, b4, b5, b6] = self.bytes;
        u64::from_le_bytes([b0, b1, b2, b3, b4, b5, b6, self.len])
    }

    /// The bytes of the name, empty if there is no name.
    #[inline]
    const fn as_bytes(&self) -> &[u8] {
        self.bytes.split_at(self.len as usize).0
    }

    /// The name, empty if there is none.
    const fn as_str(&self) -> &str {
        crate::shim::text(self.as_bytes())
    }
}

impl LocalTimeType {
    /// The type with this offset in seconds, this daylight flag and this name of 1 to 7 bytes of
    /// `0-9A-Za-z+-`. (RFC 8536, section 3.2)
    ///
    /// Central European summer time, two hours ahead of UTC:
    ///
    /// ```
    /// # use std::time::Duration;
    /// # use tz::{datetime::*, error::*, timezone::*, *};
    /// pub fn summer_time() -> Result<LocalTimeType, TzError> {
    ///     Ok(LocalTimeType::new(7200, true, Some(b"CEST"))?)
    /// }
    /// ```
    ///
    /// # Errors
    ///
    /// The first of these:
    ///
    /// - [`LocalTimeTypeError::InvalidUtcOffset`] if the offset is `i32::MIN`;
    /// - [`LocalTimeTypeError::InvalidTimeZoneDesignationLength`] if the name does not have 1 to 7
    ///   bytes;
    /// - [`LocalTimeTypeError::InvalidTimeZoneDesignationChar`] if it has any other byte.
    #[inline]
    pub const fn new(
        ut_offset: i32,
        is_dst: bool,
        time_zone_designation: Option<&[u8]>,
    ) -> Result<Self, LocalTimeTypeError> {
        if ut_offset == i32::MIN {
            return Err(LocalTimeTypeError::InvalidUtcOffset);
        }
        let time_zone_designation = match time_zone_designation {
            Some(name) => match Designation::new(name) {
                Ok(designation) => designation,
                Err(error) => return Err(error),
            },
            None => Designation::none(),
        };
        Ok(LocalTimeType {
            ut_offset,
            is_dst,
            time_zone_designation,
        })
    }

    /// The type of UTC, without a name.
    #[must_use]
    pub const fn utc() -> Self {
        LocalTimeType {
            ut_offset: 0,
            is_dst: false,
            time_zone_designation: Designation::none(),
        }
    }

    /// The type with this offset in seconds, without a name.
    ///
    /// # Errors
    ///
    /// [`LocalTimeTypeError::InvalidUtcOffset`] if the offset is `i32::MIN`.
    pub const fn with_ut_offset(ut_offset: i32) -> Result<Self, LocalTimeTypeError> {
        LocalTimeType::new(ut_offset, false, None)
    }

    /// Seconds that are added to UTC, never `i32::MIN`.
    #[must_use]
    pub const fn ut_offset(&self) -> i32 {
        self.ut_offset
    }

    /// Whether this is daylight saving time.
    #[must_use]
    pub const fn is_dst(&self) -> bool {
        self.is_dst
    }

    /// The name, empty if there is none.
    #[must_use]
    pub const fn time_zone_designation(&self) -> &str {
        self.time_zone_designation.as_str()
    }

    /// Whether the other type has the same offset, daylight flag and name. This is what `==`
    /// returns, in a form that Rust can compute in a constant.
    #[must_use]
    pub const fn is_same(&self, other: &LocalTimeType) -> bool {
        // The words compare the eight bytes of each name at once.
        self.ut_offset == other.ut_offset
            && self.is_dst == other.is_dst
            && self.time_zone_designation.word() == other.time_zone_designation.word()
    }

    /// The name, if there is one.
    fn designation(&self) -> Option<&str> {
        if self.time_zone_designation.len == 0 {
            return None;
        }
        Some(self.time_zone_designation.as_str())
    }
}

/// The bytes of the type's name, empty if it has no name.
#[inline]
#[must_use]
pub const fn designation_bytes(local_time_type: &LocalTimeType) -> &[u8] {
    local_time_type.time_zone_designation.as_bytes()
}
