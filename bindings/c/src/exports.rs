// Generated from crates/tz_c/src by bindings/erase: its contracts are cut. Change that file instead.
//! The functions of tz.h, each by one pattern: from what C passes it makes what the function of a
//! source takes, and calls that.
#![allow(unsafe_code)]

#[cfg(feature = "zones")]
use crate::pointers::raw_parts;
use crate::pointers::{Out, list, list_mut, one};
use crate::proved::tz_c::date_time_data::{DateTimeData, FoundData, UtcData};
use crate::proved::tz_c::date_times::ParsedData;
use crate::proved::tz_c::dates::DateData;
use crate::proved::tz_c::rule_data::RuleData;
use crate::proved::tz_c::texts::SettingData;
use crate::proved::tz_c::zone_data::TzZone;
use crate::proved::tz_c::zones::{ChangeData, ConflictData, OffsetsData, PartsData, SegmentData};
use crate::proved::tz_c::{codes, columns, date_times, dates, formats, searches, texts, zones};
use tz::proved::tz::inner::Fields;
use tz::proved::tz::{DateTime, UtcDateTime};
use tz::proved::tz_civil::WeekDate;
use tz::proved::tz_rule::inner::{AlternateData, DayData};
use tz::proved::tz_rule::timezone::LocalTimeType;
use tz::proved::tz_zone::inner::FileSizes;
use tz::proved::tz_zone::timezone::{LeapSecond, Transition};
use tz::shim::alloc::Global;

/// A `TzZone` as C has it: pointers and lengths.
#[repr(C)]
pub struct Zone {
    parts: Parts,
    offsets: OffsetsData,
}

// `tz_layout` writes the size of what the functions take.
const _: () = assert!(size_of::<Zone>() == size_of::<TzZone<'static>>());

impl Zone {
    /// The slices.
    ///
    /// # Safety
    ///
    /// Each pointer is as [`list`] requires it, as long as the slices are used.
    #[inline(always)]
    pub(crate) unsafe fn data(&self) -> TzZone<'_> {
        // SAFETY: `list` requires of each pointer what this function does.
        unsafe {
            TzZone {
                parts: self.parts.data(),
                offsets: self.offsets,
            }
        }
    }

    /// What C sees of slices of the library's own memory.
    #[cfg(feature = "zones")]
    pub(crate) fn of(data: TzZone<'static>) -> Self {
        let parts = Parts::of(data.parts);
        let offsets = data.offsets;
        Zone { parts, offsets }
    }
}

/// A `PartsData` as C has it: pointers and lengths.
#[repr(C)]
pub struct Parts {
    transitions: *const Transition,
    transitions_length: usize,
    local_time_types: *const LocalTimeType,
    local_time_types_length: usize,
    leap_seconds: *const LeapSecond,
    leap_seconds_length: usize,
    fixed: *const LocalTimeType,
    fixed_length: usize,
    alternate: *const AlternateData,
    alternate_length: usize,
}

// `tz_layout` writes the size of what the functions take.
const _: () = assert!(size_of::<Parts>() == size_of::<PartsData<'static>>());

impl Parts {
    /// The slices.
    ///
    /// # Safety
    ///
    /// Each pointer is as [`list`] requires it, as long as the slices are used.
    #[inline(always)]
    pub(crate) unsafe fn data(&self) -> PartsData<'_> {
        // SAFETY: `list` requires of each pointer what this function does.
        unsafe {
            PartsData {
                transitions: list(self.transitions, self.transitions_length),
                local_time_types: list(self.local_time_types, self.local_time_types_length),
                leap_seconds: list(self.leap_seconds, self.leap_seconds_length),
                fixed: list(self.fixed, self.fixed_length),
                alternate: list(self.alternate, self.alternate_length),
            }
        }
    }

    /// What C sees of slices of the library's own memory.
    #[cfg(feature = "zones")]
    pub(crate) fn of(data: PartsData<'static>) -> Self {
        let (transitions, transitions_length) = raw_parts(data.transitions);
        let (local_time_types, local_time_types_length) = raw_parts(data.local_time_types);
        let (leap_seconds, leap_seconds_length) = raw_parts(data.leap_seconds);
        let (fixed, fixed_length) = raw_parts(data.fixed);
        let (alternate, alternate_length) = raw_parts(data.alternate);
        Parts {
            transitions,
            transitions_length,
            local_time_types,
            local_time_types_length,
            leap_seconds,
            leap_seconds_length,
            fixed,
            fixed_length,
            alternate,
            alternate_length,
        }
    }
}

/// What a code says.
///
/// # Safety
///
/// What tz.h asks of a caller.
#[unsafe(no_mangle)]
pub unsafe extern "C" fn tz_error_text(
    code: u32,
    text: *mut u8,
    text_length: usize,
    len: *mut usize,
) -> u32 {
    // SAFETY: tz.h asks of a caller what these require.
    let (text, mut len) = unsafe { (list_mut(text, text_length), Out::new(len)) };
    let answer = codes::tz_error_text(code, text, &mut len.value);
    // SAFETY: tz.h asks of a caller what these require.
    unsafe { len.write(answer) };
    answer
}

/// The number of the layout, and the sizes of the types that cross.
///
/// # Safety
///
/// What tz.h asks of a caller.
#[unsafe(no_mangle)]
pub unsafe extern "C" fn tz_layout(out: *mut usize, out_length: usize) -> u32 {
    // SAFETY: tz.h asks of a caller what these require.
    let out = unsafe { list_mut(out, out_length) };
    codes::tz_layout(out)
}

/// The number of the layout, TZ_ABI of the header. A program refers to the name, so that it is
/// neither linked nor loaded with a library of another layout.
#[unsafe(no_mangle)]
pub extern "C" fn tz_abi_2() -> u32 {
    codes::tz_abi_2()
}

/// The offsets of the zone's clock at instants.
///
/// # Safety
///
/// What tz.h asks of a caller.
#[unsafe(no_mangle)]
pub unsafe extern "C" fn tz_column_offsets(
    unix_times: *const i64,
    unix_times_length: usize,
    zone: *const Zone,
    offsets: *mut i32,
    offsets_length: usize,
    codes: *mut u32,
    codes_length: usize,
) -> u32 {
    // SAFETY: tz.h asks of a caller what these require.
    let (unix_times, zone, offsets, codes) = unsafe {
        (
            list(unix_times, unix_times_length),
            one(zone).data(),
            list_mut(offsets, offsets_length),
            list_mut(codes, codes_length),
        )
    };
    columns::tz_column_offsets(unix_times, &zone, offsets, codes)
}

/// What the zone's clock shows at instants.
///
/// # Safety
///
/// What tz.h asks of a caller.
#[unsafe(no_mangle)]
pub unsafe extern "C" fn tz_column_date_times(
    unix_times: *const i64,
    unix_times_length: usize,
    nanoseconds: *const u32,
    nanoseconds_length: usize,
    zone: *const Zone,
    date_times: *mut DateTimeData,
    date_times_length: usize,
    codes: *mut u32,
    codes_length: usize,
) -> u32 {
    // SAFETY: tz.h asks of a caller what these require.
    let (unix_times, nanoseconds, zone, date_times, codes) = unsafe {
        (
            list(unix_times, unix_times_length),
            list(nanoseconds, nanoseconds_length),
            one(zone).data(),
            list_mut(date_times, date_times_length),
            list_mut(codes, codes_length),
        )
    };
    columns::tz_column_date_times(unix_times, nanoseconds, &zone, date_times, codes)
}

/// The instants that fields mean by a choice.
///
/// # Safety
///
/// What tz.h asks of a caller.
#[unsafe(no_mangle)]
pub unsafe extern "C" fn tz_column_instants(
    fields: *const Fields,
    fields_length: usize,
    choice: u8,
    zone: *const Zone,
    unix_times: *mut i64,
    unix_times_length: usize,
    codes: *mut u32,
    codes_length: usize,
) -> u32 {
    // SAFETY: tz.h asks of a caller what these require.
    let (fields, zone, unix_times, codes) = unsafe {
        (
            list(fields, fields_length),
            one(zone).data(),
            list_mut(unix_times, unix_times_length),
            list_mut(codes, codes_length),
        )
    };
    columns::tz_column_instants(fields, choice, &zone, unix_times, codes)
}

/// The instants that readings mean by a choice: those of fields that are read so, without
/// nanoseconds.
///
/// # Safety
///
/// What tz.h asks of a caller.
#[unsafe(no_mangle)]
pub unsafe extern "C" fn tz_column_instants_of_readings(
    readings: *const i64,
    readings_length: usize,
    choice: u8,
    zone: *const Zone,
    unix_times: *mut i64,
    unix_times_length: usize,
    codes: *mut u32,
    codes_length: usize,
) -> u32 {
    // SAFETY: tz.h asks of a caller what these require.
    let (readings, zone, unix_times, codes) = unsafe {
        (
            list(readings, readings_length),
            one(zone).data(),
            list_mut(unix_times, unix_times_length),
            list_mut(codes, codes_length),
        )
    };
    columns::tz_column_instants_of_readings(readings, choice, &zone, unix_times, codes)
}

/// The date time with the fields, which the type shows.
///
/// # Safety
///
/// What tz.h asks of a caller.
#[unsafe(no_mangle)]
pub unsafe extern "C" fn tz_date_time_new(
    fields: *const Fields,
    local_time_type: *const LocalTimeType,
    out: *mut DateTimeData,
) -> u32 {
    // SAFETY: tz.h asks of a caller what these require.
    let (fields, local_time_type, mut out) =
        unsafe { (one(fields), one(local_time_type), Out::new(out)) };
    let answer = date_times::tz_date_time_new(fields, local_time_type, &mut out.value);
    // SAFETY: tz.h asks of a caller what these require.
    unsafe { out.write(answer) };
    answer
}

/// What the type shows at an instant.
///
/// # Safety
///
/// What tz.h asks of a caller.
#[unsafe(no_mangle)]
pub unsafe extern "C" fn tz_date_time_from_timespec_and_local(
    unix_time: i64,
    nanoseconds: u32,
    local_time_type: *const LocalTimeType,
    out: *mut DateTimeData,
) -> u32 {
    // SAFETY: tz.h asks of a caller what these require.
    let (local_time_type, mut out) = unsafe { (one(local_time_type), Out::new(out)) };
    let answer = date_times::tz_date_time_from_timespec_and_local(
        unix_time,
        nanoseconds,
        local_time_type,
        &mut out.value,
    );
    // SAFETY: tz.h asks of a caller what these require.
    unsafe { out.write(answer) };
    answer
}

/// What the zone's clock shows at an instant.
///
/// # Safety
///
/// What tz.h asks of a caller.
#[unsafe(no_mangle)]
pub unsafe extern "C" fn tz_date_time_from_timespec(
    unix_time: i64,
    nanoseconds: u32,
    zone: *const Zone,
    out: *mut DateTimeData,
) -> u32 {
    // SAFETY: tz.h asks of a caller what these require.
    let (zone, mut out) = unsafe { (one(zone).data(), Out::new(out)) };
    let answer =
        date_times::tz_date_time_from_timespec(unix_time, nanoseconds, &zone, &mut out.value);
    // SAFETY: tz.h asks of a caller what these require.
    unsafe { out.write(answer) };
    answer
}

/// The date time of UTC at the same instant.
///
/// # Safety
///
/// What tz.h asks of a caller.
#[unsafe(no_mangle)]
pub unsafe extern "C" fn tz_date_time_to_utc(date_time: *const DateTime, out: *mut UtcData) -> u32 {
    // SAFETY: tz.h asks of a caller what these require.
    let (date_time, mut out) = unsafe { (one(date_time), Out::new(out)) };
    let answer = date_times::tz_date_time_to_utc(date_time, &mut out.value);
    // SAFETY: tz.h asks of a caller what these require.
    unsafe { out.write(answer) };
    answer
}

/// The week day, from Sunday = 0 to 6.
///
/// # Safety
///
/// What tz.h asks of a caller.
#[unsafe(no_mangle)]
pub unsafe extern "C" fn tz_date_time_week_day(date_time: *const DateTime) -> u8 {
    // SAFETY: tz.h asks of a caller what these require.
    let date_time = unsafe { one(date_time) };
    date_times::tz_date_time_week_day(date_time)
}

/// Days since January 1st, from 0 to 365.
///
/// # Safety
///
/// What tz.h asks of a caller.
#[unsafe(no_mangle)]
pub unsafe extern "C" fn tz_date_time_year_day(date_time: *const DateTime) -> u16 {
    // SAFETY: tz.h asks of a caller what these require.
    let date_time = unsafe { one(date_time) };
    date_times::tz_date_time_year_day(date_time)
}

/// The date time of UTC with the fields.
///
/// # Safety
///
/// What tz.h asks of a caller.
#[unsafe(no_mangle)]
pub unsafe extern "C" fn tz_utc_new(fields: *const Fields, out: *mut UtcData) -> u32 {
    // SAFETY: tz.h asks of a caller what these require.
    let (fields, mut out) = unsafe { (one(fields), Out::new(out)) };
    let answer = date_times::tz_utc_new(fields, &mut out.value);
    // SAFETY: tz.h asks of a caller what these require.
    unsafe { out.write(answer) };
    answer
}

/// The date time of UTC at an instant.
///
/// # Safety
///
/// What tz.h asks of a caller.
#[unsafe(no_mangle)]
pub unsafe extern "C" fn tz_utc_from_timespec(
    unix_time: i64,
    nanoseconds: u32,
    out: *mut UtcData,
) -> u32 {
    // SAFETY: tz.h asks of a caller what these require.
    let mut out = unsafe { Out::new(out) };
    let answer = date_times::tz_utc_from_timespec(unix_time, nanoseconds, &mut out.value);
    // SAFETY: tz.h asks of a caller what these require.
    unsafe { out.write(answer) };
    answer
}

/// The date time of UTC a duration later.
///
/// # Safety
///
/// What tz.h asks of a caller.
#[unsafe(no_mangle)]
pub unsafe extern "C" fn tz_utc_add(
    utc: *const UtcDateTime,
    seconds: u64,
    nanoseconds: u32,
    out: *mut UtcData,
) -> u32 {
    // SAFETY: tz.h asks of a caller what these require.
    let (utc, mut out) = unsafe { (one(utc), Out::new(out)) };
    let answer = date_times::tz_utc_add(utc, seconds, nanoseconds, &mut out.value);
    // SAFETY: tz.h asks of a caller what these require.
    unsafe { out.write(answer) };
    answer
}

/// The date time of UTC a duration earlier.
///
/// # Safety
///
/// What tz.h asks of a caller.
#[unsafe(no_mangle)]
pub unsafe extern "C" fn tz_utc_sub(
    utc: *const UtcDateTime,
    seconds: u64,
    nanoseconds: u32,
    out: *mut UtcData,
) -> u32 {
    // SAFETY: tz.h asks of a caller what these require.
    let (utc, mut out) = unsafe { (one(utc), Out::new(out)) };
    let answer = date_times::tz_utc_sub(utc, seconds, nanoseconds, &mut out.value);
    // SAFETY: tz.h asks of a caller what these require.
    unsafe { out.write(answer) };
    answer
}

/// The week day, from Sunday = 0 to 6.
///
/// # Safety
///
/// What tz.h asks of a caller.
#[unsafe(no_mangle)]
pub unsafe extern "C" fn tz_utc_week_day(utc: *const UtcDateTime) -> u8 {
    // SAFETY: tz.h asks of a caller what these require.
    let utc = unsafe { one(utc) };
    date_times::tz_utc_week_day(utc)
}

/// Days since January 1st, from 0 to 365.
///
/// # Safety
///
/// What tz.h asks of a caller.
#[unsafe(no_mangle)]
pub unsafe extern "C" fn tz_utc_year_day(utc: *const UtcDateTime) -> u16 {
    // SAFETY: tz.h asks of a caller what these require.
    let utc = unsafe { one(utc) };
    date_times::tz_utc_year_day(utc)
}

/// The local time and the offset of a text, as `ParsedDateTime::parse` reads it.
///
/// # Safety
///
/// What tz.h asks of a caller.
#[unsafe(no_mangle)]
pub unsafe extern "C" fn tz_date_time_read(
    text: *const u8,
    text_length: usize,
    out: *mut ParsedData,
) -> u32 {
    // SAFETY: tz.h asks of a caller what these require.
    let (text, mut out) = unsafe { (list(text, text_length), Out::new(out)) };
    let answer = date_times::tz_date_time_read(text, &mut out.value);
    // SAFETY: tz.h asks of a caller what these require.
    unsafe { out.write(answer) };
    answer
}

/// The least instant at which the zone's clock shows a date, at which `TimeZoneRef::start_of_day`
/// returns its date time.
///
/// # Safety
///
/// What tz.h asks of a caller.
#[unsafe(no_mangle)]
pub unsafe extern "C" fn tz_zone_start_of_day(
    zone: *const Zone,
    date: *const DateData,
    unix_time: *mut i64,
) -> u32 {
    // SAFETY: tz.h asks of a caller what these require.
    let (zone, date, mut unix_time) = unsafe { (one(zone).data(), one(date), Out::new(unix_time)) };
    let answer = dates::tz_zone_start_of_day(&zone, date, &mut unix_time.value);
    // SAFETY: tz.h asks of a caller what these require.
    unsafe { unix_time.write(answer) };
    answer
}

/// The date this many months later, or earlier if they are negative, as `Date::checked_add_months`
/// finds it.
///
/// # Safety
///
/// What tz.h asks of a caller.
#[unsafe(no_mangle)]
pub unsafe extern "C" fn tz_date_add_months(
    date: *const DateData,
    months: i32,
    out: *mut DateData,
) -> u32 {
    // SAFETY: tz.h asks of a caller what these require.
    let (date, mut out) = unsafe { (one(date), Out::new(out)) };
    let answer = dates::tz_date_add_months(date, months, &mut out.value);
    // SAFETY: tz.h asks of a caller what these require.
    unsafe { out.write(answer) };
    answer
}

/// The week date of a date, as `Date::week_date` finds it.
///
/// # Safety
///
/// What tz.h asks of a caller.
#[unsafe(no_mangle)]
pub unsafe extern "C" fn tz_date_week_date(date: *const DateData, out: *mut WeekDate) -> u32 {
    // SAFETY: tz.h asks of a caller what these require.
    let (date, mut out) = unsafe { (one(date), Out::new(out)) };
    let answer = dates::tz_date_week_date(date, &mut out.value);
    // SAFETY: tz.h asks of a caller what these require.
    unsafe { out.write(answer) };
    answer
}

/// The date with a week date, as `Date::from_week_date` finds it.
///
/// # Safety
///
/// What tz.h asks of a caller.
#[unsafe(no_mangle)]
pub unsafe extern "C" fn tz_date_from_week_date(
    week_date: *const WeekDate,
    out: *mut DateData,
) -> u32 {
    // SAFETY: tz.h asks of a caller what these require.
    let (week_date, mut out) = unsafe { (one(week_date), Out::new(out)) };
    let answer = dates::tz_date_from_week_date(week_date, &mut out.value);
    // SAFETY: tz.h asks of a caller what these require.
    unsafe { out.write(answer) };
    answer
}

/// The date time as the pattern prints it, but for the pattern of HTTP's dates, which names UTC.
///
/// # Safety
///
/// What tz.h asks of a caller.
#[unsafe(no_mangle)]
pub unsafe extern "C" fn tz_date_time_format(
    date_time: *const DateTime,
    pattern: *const u8,
    pattern_length: usize,
    text: *mut u8,
    text_length: usize,
    len: *mut usize,
) -> u32 {
    // SAFETY: tz.h asks of a caller what these require.
    let (date_time, pattern, text, mut len) = unsafe {
        (
            one(date_time),
            list(pattern, pattern_length),
            list_mut(text, text_length),
            Out::new(len),
        )
    };
    let answer = formats::tz_date_time_format(date_time, pattern, text, &mut len.value);
    // SAFETY: tz.h asks of a caller what these require.
    unsafe { len.write(answer) };
    answer
}

/// The date time of UTC as the pattern prints it.
///
/// # Safety
///
/// What tz.h asks of a caller.
#[unsafe(no_mangle)]
pub unsafe extern "C" fn tz_utc_format(
    utc: *const UtcDateTime,
    pattern: *const u8,
    pattern_length: usize,
    text: *mut u8,
    text_length: usize,
    len: *mut usize,
) -> u32 {
    // SAFETY: tz.h asks of a caller what these require.
    let (utc, pattern, text, mut len) = unsafe {
        (
            one(utc),
            list(pattern, pattern_length),
            list_mut(text, text_length),
            Out::new(len),
        )
    };
    let answer = formats::tz_utc_format(utc, pattern, text, &mut len.value);
    // SAFETY: tz.h asks of a caller what these require.
    unsafe { len.write(answer) };
    answer
}

/// The local time and the offset of a text that the pattern prints, as `Pattern::read` reads it.
///
/// # Safety
///
/// What tz.h asks of a caller.
#[unsafe(no_mangle)]
pub unsafe extern "C" fn tz_pattern_read(
    pattern: *const u8,
    pattern_length: usize,
    text: *const u8,
    text_length: usize,
    out: *mut ParsedData,
) -> u32 {
    // SAFETY: tz.h asks of a caller what these require.
    let (pattern, text, mut out) = unsafe {
        (
            list(pattern, pattern_length),
            list(text, text_length),
            Out::new(out),
        )
    };
    let answer = formats::tz_pattern_read(pattern, text, &mut out.value);
    // SAFETY: tz.h asks of a caller what these require.
    unsafe { out.write(answer) };
    answer
}

/// Writes the entries that a search finds of the fields, without the first `skip`, to the slots as
/// far as they go, and counts all.
///
/// # Safety
///
/// What tz.h asks of a caller.
#[unsafe(no_mangle)]
pub unsafe extern "C" fn tz_find_n(
    fields: *const Fields,
    zone: *const Zone,
    skip: usize,
    slots: *mut FoundData,
    slots_length: usize,
    count: *mut usize,
) -> u32 {
    // SAFETY: tz.h asks of a caller what these require.
    let (fields, zone, slots, mut count) = unsafe {
        (
            one(fields),
            one(zone).data(),
            list_mut(slots, slots_length),
            Out::new(count),
        )
    };
    let answer = searches::tz_find_n(fields, &zone, skip, slots, &mut count.value);
    // SAFETY: tz.h asks of a caller what these require.
    unsafe { count.write(answer) };
    answer
}

/// The one date time that the fields mean by a choice.
///
/// # Safety
///
/// What tz.h asks of a caller.
#[unsafe(no_mangle)]
pub unsafe extern "C" fn tz_find_one(
    fields: *const Fields,
    choice: u8,
    zone: *const Zone,
    out: *mut DateTimeData,
) -> u32 {
    // SAFETY: tz.h asks of a caller what these require.
    let (fields, zone, mut out) = unsafe { (one(fields), one(zone).data(), Out::new(out)) };
    let answer = searches::tz_find_one(fields, choice, &zone, &mut out.value);
    // SAFETY: tz.h asks of a caller what these require.
    unsafe { out.write(answer) };
    answer
}

/// The date time of UTC as its `Display` prints it.
///
/// # Safety
///
/// What tz.h asks of a caller.
#[unsafe(no_mangle)]
pub unsafe extern "C" fn tz_utc_text(
    utc: *const UtcDateTime,
    text: *mut u8,
    text_length: usize,
    len: *mut usize,
) -> u32 {
    // SAFETY: tz.h asks of a caller what these require.
    let (utc, text, mut len) = unsafe { (one(utc), list_mut(text, text_length), Out::new(len)) };
    let answer = texts::tz_utc_text(utc, text, &mut len.value);
    // SAFETY: tz.h asks of a caller what these require.
    unsafe { len.write(answer) };
    answer
}

/// The date time as its `Display` prints it.
///
/// # Safety
///
/// What tz.h asks of a caller.
#[unsafe(no_mangle)]
pub unsafe extern "C" fn tz_date_time_text(
    date_time: *const DateTime,
    text: *mut u8,
    text_length: usize,
    len: *mut usize,
) -> u32 {
    // SAFETY: tz.h asks of a caller what these require.
    let (date_time, text, mut len) =
        unsafe { (one(date_time), list_mut(text, text_length), Out::new(len)) };
    let answer = texts::tz_date_time_text(date_time, text, &mut len.value);
    // SAFETY: tz.h asks of a caller what these require.
    unsafe { len.write(answer) };
    answer
}

/// The TZ string of a rule, as `TzString::from_rule` writes it.
///
/// # Safety
///
/// What tz.h asks of a caller.
#[unsafe(no_mangle)]
pub unsafe extern "C" fn tz_rule_text(
    fixed: *const LocalTimeType,
    fixed_length: usize,
    alternate: *const AlternateData,
    alternate_length: usize,
    text: *mut u8,
    text_length: usize,
    len: *mut usize,
) -> u32 {
    // SAFETY: tz.h asks of a caller what these require.
    let (fixed, alternate, text, mut len) = unsafe {
        (
            list(fixed, fixed_length),
            list(alternate, alternate_length),
            list_mut(text, text_length),
            Out::new(len),
        )
    };
    let answer = texts::tz_rule_text(fixed, alternate, text, &mut len.value);
    // SAFETY: tz.h asks of a caller what these require.
    unsafe { len.write(answer) };
    answer
}

/// Whether the text is a name of a time zone, as `is_zone_name` returns.
///
/// # Safety
///
/// What tz.h asks of a caller.
#[unsafe(no_mangle)]
pub unsafe extern "C" fn tz_name_check(name: *const u8, name_length: usize) -> u32 {
    // SAFETY: tz.h asks of a caller what these require.
    let name = unsafe { list(name, name_length) };
    texts::tz_name_check(name)
}

/// How the text of a setting names a zone.
///
/// # Safety
///
/// What tz.h asks of a caller.
#[unsafe(no_mangle)]
pub unsafe extern "C" fn tz_setting_read(
    text: *const u8,
    text_length: usize,
    out: *mut SettingData,
) -> u32 {
    // SAFETY: tz.h asks of a caller what these require.
    let (text, mut out) = unsafe { (list(text, text_length), Out::new(out)) };
    let answer = texts::tz_setting_read(text, &mut out.value);
    // SAFETY: tz.h asks of a caller what these require.
    unsafe { out.write(answer) };
    answer
}

/// The sizes of a TZif file, by its headers alone.
///
/// # Safety
///
/// What tz.h asks of a caller.
#[unsafe(no_mangle)]
pub unsafe extern "C" fn tz_file_sizes(
    bytes: *const u8,
    bytes_length: usize,
    out: *mut FileSizes,
) -> u32 {
    // SAFETY: tz.h asks of a caller what these require.
    let (bytes, mut out) = unsafe { (list(bytes, bytes_length), Out::new(out)) };
    let answer = texts::tz_file_sizes(bytes, &mut out.value);
    // SAFETY: tz.h asks of a caller what these require.
    unsafe { out.write(answer) };
    answer
}

/// The parts of a TZif file, and the least and the greatest offset of its zone.
///
/// # Safety
///
/// What tz.h asks of a caller.
#[unsafe(no_mangle)]
pub unsafe extern "C" fn tz_file_read(
    bytes: *const u8,
    bytes_length: usize,
    transitions: *mut Transition,
    transitions_length: usize,
    local_time_types: *mut LocalTimeType,
    local_time_types_length: usize,
    leap_seconds: *mut LeapSecond,
    leap_seconds_length: usize,
    rule: *mut RuleData,
    out: *mut OffsetsData,
) -> u32 {
    // SAFETY: tz.h asks of a caller what these require.
    let (bytes, transitions, local_time_types, leap_seconds, mut rule, mut out) = unsafe {
        (
            list(bytes, bytes_length),
            list_mut(transitions, transitions_length),
            list_mut(local_time_types, local_time_types_length),
            list_mut(leap_seconds, leap_seconds_length),
            Out::new(rule),
            Out::new(out),
        )
    };
    let answer = texts::tz_file_read(
        Global,
        bytes,
        transitions,
        local_time_types,
        leap_seconds,
        &mut rule.value,
        &mut out.value,
    );
    // SAFETY: tz.h asks of a caller what these require.
    unsafe {
        rule.write(answer);
        out.write(answer)
    };
    answer
}

/// The rule of a TZ string, ordinary or extended, without white space at its ends.
///
/// # Safety
///
/// What tz.h asks of a caller.
#[unsafe(no_mangle)]
pub unsafe extern "C" fn tz_string_read(
    text: *const u8,
    text_length: usize,
    is_extended: bool,
    out: *mut RuleData,
) -> u32 {
    // SAFETY: tz.h asks of a caller what these require.
    let (text, mut out) = unsafe { (list(text, text_length), Out::new(out)) };
    let answer = texts::tz_string_read(text, is_extended, &mut out.value);
    // SAFETY: tz.h asks of a caller what these require.
    unsafe { out.write(answer) };
    answer
}

/// The local time type with these parts, as `LocalTimeType::new` makes it.
///
/// # Safety
///
/// What tz.h asks of a caller.
#[unsafe(no_mangle)]
pub unsafe extern "C" fn tz_local_time_type_new(
    ut_offset: i32,
    is_dst: bool,
    has_name: bool,
    name: *const u8,
    name_length: usize,
    out: *mut LocalTimeType,
) -> u32 {
    // SAFETY: tz.h asks of a caller what these require.
    let (name, mut out) = unsafe { (list(name, name_length), Out::new(out)) };
    let answer = zones::tz_local_time_type_new(ut_offset, is_dst, has_name, name, &mut out.value);
    // SAFETY: tz.h asks of a caller what these require.
    unsafe { out.write(answer) };
    answer
}

/// The day with this number of the days that are not February 29th, as `Julian1WithoutLeap::new`
/// makes it.
///
/// # Safety
///
/// What tz.h asks of a caller.
#[unsafe(no_mangle)]
pub unsafe extern "C" fn tz_julian_1_new(julian_day_1: u16, out: *mut DayData) -> u32 {
    // SAFETY: tz.h asks of a caller what these require.
    let mut out = unsafe { Out::new(out) };
    let answer = zones::tz_julian_1_new(julian_day_1, &mut out.value);
    // SAFETY: tz.h asks of a caller what these require.
    unsafe { out.write(answer) };
    answer
}

/// The day this many days after January 1st, as `Julian0WithLeap::new` makes it.
///
/// # Safety
///
/// What tz.h asks of a caller.
#[unsafe(no_mangle)]
pub unsafe extern "C" fn tz_julian_0_new(julian_day_0: u16, out: *mut DayData) -> u32 {
    // SAFETY: tz.h asks of a caller what these require.
    let mut out = unsafe { Out::new(out) };
    let answer = zones::tz_julian_0_new(julian_day_0, &mut out.value);
    // SAFETY: tz.h asks of a caller what these require.
    unsafe { out.write(answer) };
    answer
}

/// The week day of a month, as `MonthWeekDay::new` makes it.
///
/// # Safety
///
/// What tz.h asks of a caller.
#[unsafe(no_mangle)]
pub unsafe extern "C" fn tz_month_week_day_new(
    month: u8,
    week: u8,
    week_day: u8,
    out: *mut DayData,
) -> u32 {
    // SAFETY: tz.h asks of a caller what these require.
    let mut out = unsafe { Out::new(out) };
    let answer = zones::tz_month_week_day_new(month, week, week_day, &mut out.value);
    // SAFETY: tz.h asks of a caller what these require.
    unsafe { out.write(answer) };
    answer
}

/// The rule with these parts, as `AlternateTime::new` makes it.
///
/// # Safety
///
/// What tz.h asks of a caller.
#[unsafe(no_mangle)]
pub unsafe extern "C" fn tz_alternate_new(
    std: *const LocalTimeType,
    dst: *const LocalTimeType,
    dst_start: *const DayData,
    dst_start_time: i32,
    dst_end: *const DayData,
    dst_end_time: i32,
    out: *mut AlternateData,
) -> u32 {
    // SAFETY: tz.h asks of a caller what these require.
    let (std, dst, dst_start, dst_end, mut out) = unsafe {
        (
            one(std),
            one(dst),
            one(dst_start),
            one(dst_end),
            Out::new(out),
        )
    };
    let answer = zones::tz_alternate_new(
        std,
        dst,
        dst_start,
        dst_start_time,
        dst_end,
        dst_end_time,
        &mut out.value,
    );
    // SAFETY: tz.h asks of a caller what these require.
    unsafe { out.write(answer) };
    answer
}

/// Why parts in range make no rule, as `AlternateTime::conflict` says it.
///
/// # Safety
///
/// What tz.h asks of a caller.
#[unsafe(no_mangle)]
pub unsafe extern "C" fn tz_alternate_conflict(
    std: *const LocalTimeType,
    dst: *const LocalTimeType,
    dst_start: *const DayData,
    dst_start_time: i32,
    dst_end: *const DayData,
    dst_end_time: i32,
    out: *mut ConflictData,
) -> u32 {
    // SAFETY: tz.h asks of a caller what these require.
    let (std, dst, dst_start, dst_end, mut out) = unsafe {
        (
            one(std),
            one(dst),
            one(dst_start),
            one(dst_end),
            Out::new(out),
        )
    };
    let answer = zones::tz_alternate_conflict(
        std,
        dst,
        dst_start,
        dst_start_time,
        dst_end,
        dst_end_time,
        &mut out.value,
    );
    // SAFETY: tz.h asks of a caller what these require.
    unsafe { out.write(answer) };
    answer
}

/// The type of a rule at an instant.
///
/// # Safety
///
/// What tz.h asks of a caller.
#[unsafe(no_mangle)]
pub unsafe extern "C" fn tz_rule_type_at(
    fixed: *const LocalTimeType,
    fixed_length: usize,
    alternate: *const AlternateData,
    alternate_length: usize,
    unix_time: i64,
    out: *mut LocalTimeType,
) -> u32 {
    // SAFETY: tz.h asks of a caller what these require.
    let (fixed, alternate, mut out) = unsafe {
        (
            list(fixed, fixed_length),
            list(alternate, alternate_length),
            Out::new(out),
        )
    };
    let answer = zones::tz_rule_type_at(fixed, alternate, unix_time, &mut out.value);
    // SAFETY: tz.h asks of a caller what these require.
    unsafe { out.write(answer) };
    answer
}

/// Whether parts make a zone, as `TimeZoneRef::new` checks them, and its end offsets.
///
/// # Safety
///
/// What tz.h asks of a caller.
#[unsafe(no_mangle)]
pub unsafe extern "C" fn tz_zone_check(parts: *const Parts, out: *mut OffsetsData) -> u32 {
    // SAFETY: tz.h asks of a caller what these require.
    let (parts, mut out) = unsafe { (one(parts).data(), Out::new(out)) };
    let answer = zones::tz_zone_check(&parts, &mut out.value);
    // SAFETY: tz.h asks of a caller what these require.
    unsafe { out.write(answer) };
    answer
}

/// The type of a zone's clock at an instant, as `TimeZoneRef::find_local_time_type` finds it.
///
/// # Safety
///
/// What tz.h asks of a caller.
#[unsafe(no_mangle)]
pub unsafe extern "C" fn tz_zone_type_at(
    zone: *const Zone,
    unix_time: i64,
    out: *mut LocalTimeType,
) -> u32 {
    // SAFETY: tz.h asks of a caller what these require.
    let (zone, mut out) = unsafe { (one(zone).data(), Out::new(out)) };
    let answer = zones::tz_zone_type_at(&zone, unix_time, &mut out.value);
    // SAFETY: tz.h asks of a caller what these require.
    unsafe { out.write(answer) };
    answer
}

/// The segment around an instant, as `TimeZoneRef::segment_at` finds it.
///
/// # Safety
///
/// What tz.h asks of a caller.
#[unsafe(no_mangle)]
pub unsafe extern "C" fn tz_zone_segment_at(
    zone: *const Zone,
    unix_time: i64,
    out: *mut SegmentData,
) -> u32 {
    // SAFETY: tz.h asks of a caller what these require.
    let (zone, mut out) = unsafe { (one(zone).data(), Out::new(out)) };
    let answer = zones::tz_zone_segment_at(&zone, unix_time, &mut out.value);
    // SAFETY: tz.h asks of a caller what these require.
    unsafe { out.write(answer) };
    answer
}

/// The first change after an instant, as `TimeZoneRef::following` finds it.
///
/// # Safety
///
/// What tz.h asks of a caller.
#[unsafe(no_mangle)]
pub unsafe extern "C" fn tz_zone_following(
    zone: *const Zone,
    unix_time: i64,
    out: *mut ChangeData,
) -> u32 {
    // SAFETY: tz.h asks of a caller what these require.
    let (zone, mut out) = unsafe { (one(zone).data(), Out::new(out)) };
    let answer = zones::tz_zone_following(&zone, unix_time, &mut out.value);
    // SAFETY: tz.h asks of a caller what these require.
    unsafe { out.write(answer) };
    answer
}

/// The last change before an instant, as `TimeZoneRef::preceding` finds it.
///
/// # Safety
///
/// What tz.h asks of a caller.
#[unsafe(no_mangle)]
pub unsafe extern "C" fn tz_zone_preceding(
    zone: *const Zone,
    unix_time: i64,
    out: *mut ChangeData,
) -> u32 {
    // SAFETY: tz.h asks of a caller what these require.
    let (zone, mut out) = unsafe { (one(zone).data(), Out::new(out)) };
    let answer = zones::tz_zone_preceding(&zone, unix_time, &mut out.value);
    // SAFETY: tz.h asks of a caller what these require.
    unsafe { out.write(answer) };
    answer
}

/// The index of the type of a zone's clock at an instant.
///
/// # Safety
///
/// What tz.h asks of a caller.
#[unsafe(no_mangle)]
pub unsafe extern "C" fn tz_zone_place_at(
    zone: *const Zone,
    unix_time: i64,
    out: *mut usize,
) -> u32 {
    // SAFETY: tz.h asks of a caller what these require.
    let (zone, mut out) = unsafe { (one(zone).data(), Out::new(out)) };
    let answer = zones::tz_zone_place_at(&zone, unix_time, &mut out.value);
    // SAFETY: tz.h asks of a caller what these require.
    unsafe { out.write(answer) };
    answer
}

/// The leap time of an instant.
///
/// # Safety
///
/// What tz.h asks of a caller.
#[unsafe(no_mangle)]
pub unsafe extern "C" fn tz_zone_leap_time(
    zone: *const Zone,
    unix_time: i64,
    out: *mut i64,
) -> u32 {
    // SAFETY: tz.h asks of a caller what these require.
    let (zone, mut out) = unsafe { (one(zone).data(), Out::new(out)) };
    let answer = zones::tz_zone_leap_time(&zone, unix_time, &mut out.value);
    // SAFETY: tz.h asks of a caller what these require.
    unsafe { out.write(answer) };
    answer
}

/// The least instant at which a leap time is reached.
///
/// # Safety
///
/// What tz.h asks of a caller.
#[unsafe(no_mangle)]
pub unsafe extern "C" fn tz_zone_effect(zone: *const Zone, leap_time: i64, out: *mut i64) -> u32 {
    // SAFETY: tz.h asks of a caller what these require.
    let (zone, mut out) = unsafe { (one(zone).data(), Out::new(out)) };
    let answer = zones::tz_zone_effect(&zone, leap_time, &mut out.value);
    // SAFETY: tz.h asks of a caller what these require.
    unsafe { out.write(answer) };
    answer
}
