// Generated from crates/tz_zone/src/parse/tz_file.rt by bindings/erase: its contracts are cut. Change that file instead.
//! TZif files: numbers, whose most significant byte comes first, and headers; the frame, which is
//! one unit or two, and the footer; the tables of a unit; the footer's rule; and the zone that they
//! make, `TimeZone::from_tz_data`. (RFC 8536)

use super::tz_string::parse_posix_tz;
#[cfg(feature = "alloc")]
use crate::proved::tz_base::error::TimeZoneError;
use crate::proved::tz_base::error::{ParseDataError, TzError, TzFileError};
use crate::proved::tz_rule::timezone::{LocalTimeType, TransitionRule};
use crate::proved::tz_zone::leap::LeapSecond;
use crate::proved::tz_zone::leap::table_checks::is_plain_table;
use crate::proved::tz_zone::table::Transition;
#[cfg(feature = "alloc")]
use crate::proved::tz_zone::timezone::TimeZone;
#[cfg(feature = "alloc")]
use crate::shim::Vec;
#[cfg(feature = "alloc")]
use crate::shim::alloc::{AllocError, Allocator, Global};
use core::str;

/// The four bytes at a position.
fn four_at(bytes: &[u8], at: usize) -> [u8; 4] {
    let four = &bytes[at..at + 4];
    [four[0], four[1], four[2], four[3]]
}

/// The eight bytes at a position.
fn eight_at(bytes: &[u8], at: usize) -> [u8; 8] {
    // One slice, so that the bounds are checked once.
    let eight = &bytes[at..at + 8];
    [
        eight[0], eight[1], eight[2], eight[3], eight[4], eight[5], eight[6], eight[7],
    ]
}

/// The count at a position.
fn count_at(bytes: &[u8], at: usize) -> u32 {
    u32::from_be_bytes(four_at(bytes, at))
}

/// The signed number of four bytes at a position.
fn signed_at(bytes: &[u8], at: usize) -> i32 {
    i32::from_be_bytes(four_at(bytes, at))
}

/// The signed number of eight bytes at a position.
fn long_signed_at(bytes: &[u8], at: usize) -> i64 {
    i64::from_be_bytes(eight_at(bytes, at))
}

/// The time at a position.
fn time_at(size: TimeSize, bytes: &[u8], at: usize) -> i64 {
    match size {
        TimeSize::Four => i64::from(signed_at(bytes, at)),
        TimeSize::Eight => long_signed_at(bytes, at),
    }
}

/// How many bytes a time of a block has.
#[derive(Clone, Copy)]
enum TimeSize {
    /// Four bytes, in the first block, which is all that version 1 has.
    Four,
    /// Eight bytes, in the second block, which later versions add.
    Eight,
}

impl TimeSize {
    /// How many bytes one time has.
    const fn len(self) -> usize {
        match self {
            TimeSize::Four => 4,
            TimeSize::Eight => 8,
        }
    }

    /// How many bytes a number of times has.
    const fn times_len(self, count: u32) -> u64 {
        match self {
            TimeSize::Four => count as u64 * 4,
            TimeSize::Eight => count as u64 * 8,
        }
    }

    /// How many bytes a number of leap seconds has, each a time and a correction of four bytes.
    const fn leaps_len(self, count: u32) -> u64 {
        match self {
            TimeSize::Four => count as u64 * 8,
            TimeSize::Eight => count as u64 * 12,
        }
    }
}

/// Whether the byte is that of a version that is read. The byte of version 1 is 0.
fn is_version(byte: u8) -> bool {
    matches!(byte, 0 | b'2' | b'3' | b'4')
}

/// Whether the version of a unit allows an extended TZ string after it. (RFC 8536, section 3.3.1)
fn is_extended(unit: &Unit<'_>) -> bool {
    unit.version == b'3' || unit.version == b'4'
}

/// Whether a block of this version may hold these leap seconds: before version 4 their table
/// neither has a truncated start nor expires.
fn may_hold(version: u8, leap_seconds: &[LeapSecond]) -> bool {
    version == b'4' || is_plain_table(leap_seconds)
}

/// How many bytes a header has.
const HEADER_LEN: usize = 44;

/// The six counts of a header: how many indicators of both kinds, leap seconds, transitions, types
/// and name bytes the block has.
#[derive(Clone, Copy)]
struct Counts {
    ut_local: u32,
    std_wall: u32,
    leap: u32,
    transition: u32,
    local_type: u32,
    char: u32,
}

/// Whether a header with this number of types may have this number of indicators.
fn is_indicator_count(count: u32, local_types: u32) -> bool {
    count == 0 || count == local_types
}

impl Counts {
    /// The counts of a header.
    fn read(bytes: &[u8]) -> Self {
        Counts {
            ut_local: count_at(bytes, 20),
            std_wall: count_at(bytes, 24),
            leap: count_at(bytes, 28),
            transition: count_at(bytes, 32),
            local_type: count_at(bytes, 36),
            char: count_at(bytes, 40),
        }
    }

    /// Whether the counts fit together.
    fn are_counts(self) -> bool {
        self.local_type != 0
            && self.char != 0
            && is_indicator_count(self.ut_local, self.local_type)
            && is_indicator_count(self.std_wall, self.local_type)
    }
}

/// Whether the first bytes are those of a TZif file.
fn has_magic(bytes: &[u8]) -> bool {
    bytes.starts_with(b"TZif")
}

/// Reads the header at the front.
fn read_header(bytes: &[u8]) -> Result<Counts, TzFileError> {
    if bytes.len() < 4 {
        return Err(TzFileError::ParseData(ParseDataError::UnexpectedEof));
    }
    if !has_magic(bytes) {
        return Err(TzFileError::InvalidMagicNumber);
    }
    if bytes.len() < 5 {
        return Err(TzFileError::ParseData(ParseDataError::UnexpectedEof));
    }
    if !is_version(bytes[4]) {
        return Err(TzFileError::UnsupportedTzFileVersion);
    }
    if bytes.len() < HEADER_LEN {
        return Err(TzFileError::ParseData(ParseDataError::UnexpectedEof));
    }
    let counts = Counts::read(bytes);
    if !counts.are_counts() {
        return Err(TzFileError::InvalidHeader);
    }
    Ok(counts)
}

/// Positions in a unit, from the first byte of its header: where each part of the block begins, and
/// where the block ends. The counts determine them, so they may be past the end of the file, and
/// past what a `usize` holds on a machine of 32 bits.
#[derive(Clone, Copy)]
struct Layout {
    indexes: u64,
    types: u64,
    names: u64,
    leaps: u64,
    std_walls: u64,
    ut_locals: u64,
    end: u64,
}

impl Layout {
    /// The layout of a block with these counts.
    const fn new(size: TimeSize, counts: Counts) -> Self {
        let indexes = HEADER_LEN as u64 + size.times_len(counts.transition);
        let types = indexes + counts.transition as u64;
        let names = types + counts.local_type as u64 * 6;
        let leaps = names + counts.char as u64;
        let std_walls = leaps + size.leaps_len(counts.leap);
        let ut_locals = std_walls + counts.std_wall as u64;
        let end = ut_locals + counts.ut_local as u64;
        Layout {
            indexes,
            types,
            names,
            leaps,
            std_walls,
            ut_locals,
            end,
        }
    }
}

/// The parts of a block.
#[derive(Clone, Copy)]
struct Block<'a> {
    times: &'a [u8],
    indexes: &'a [u8],
    types: &'a [u8],
    names: &'a [u8],
    leaps: &'a [u8],
    std_walls: &'a [u8],
    ut_locals: &'a [u8],
}

/// A unit: the version and the counts of its header, its block, and the bytes after the unit.
#[derive(Clone, Copy)]
struct Unit<'a> {
    size: TimeSize,
    version: u8,
    counts: Counts,
    block: Block<'a>,
    after: &'a [u8],
}

/// Cuts the block after the header into its parts.
#[inline(always)]
fn cut_block(size: TimeSize, counts: Counts, bytes: &[u8]) -> Block<'_> {
    let layout = Layout::new(size, counts);
    Block {
        times: &bytes[HEADER_LEN..layout.indexes as usize],
        indexes: &bytes[layout.indexes as usize..layout.types as usize],
        types: &bytes[layout.types as usize..layout.names as usize],
        names: &bytes[layout.names as usize..layout.leaps as usize],
        leaps: &bytes[layout.leaps as usize..layout.std_walls as usize],
        std_walls: &bytes[layout.std_walls as usize..layout.ut_locals as usize],
        ut_locals: &bytes[layout.ut_locals as usize..layout.end as usize],
    }
}

/// Reads the header at the front, and cuts its block.
#[inline(always)]
fn read_unit(size: TimeSize, bytes: &[u8]) -> Result<Unit<'_>, TzFileError> {
    let counts = read_header(bytes)?;
    let end = Layout::new(size, counts).end;
    if (bytes.len() as u64) < end {
        return Err(TzFileError::ParseData(ParseDataError::UnexpectedEof));
    }
    Ok(Unit {
        size,
        // The fifth byte of a header is its version.
        version: bytes[4],
        counts,
        block: cut_block(size, counts, bytes),
        after: &bytes[end as usize..],
    })
}

/// The parts of a file that are read: the unit whose tables are read, which is the first in version
/// 1 and otherwise the second, and the footer after the second. The version in this unit's own
/// header counts; the two headers are not compared.
#[derive(Clone, Copy)]
struct Frame<'a> {
    unit: Unit<'a>,
    footer: Option<&'a [u8]>,
}

/// Cuts a file into the parts that are read.
#[inline(always)]
fn read_frame(bytes: &[u8]) -> Result<Frame<'_>, TzFileError> {
    // In later versions the first unit is for readers of version 1: of its block only the length is
    // used.
    let first = read_unit(TimeSize::Four, bytes)?;
    // Version 1, whose byte is 0.
    if first.version == 0 {
        if !first.after.is_empty() {
            return Err(TzFileError::RemainingDataV1);
        }
        return Ok(Frame {
            unit: first,
            footer: None,
        });
    }
    let second = read_unit(TimeSize::Eight, first.after)?;
    Ok(Frame {
        unit: second,
        footer: Some(second.after),
    })
}

/// How many entries each table of a file has, and how many bytes its footer has, in C's layout.
#[cfg(feature = "inner")]
#[repr(C)]
#[derive(Clone, Copy)]
pub struct FileSizes {
    transitions: usize,
    local_time_types: usize,
    leap_seconds: usize,
    footer: usize,
}

/// The sizes of a file whose headers and blocks are whole. Its tables are not looked at.
#[cfg(feature = "inner")]
pub fn file_sizes(bytes: &[u8]) -> Result<FileSizes, TzFileError> {
    let frame = read_frame(bytes)?;
    let counts = frame.unit.counts;
    let footer = match frame.footer {
        Some(footer) => footer.len(),
        None => 0,
    };
    Ok(FileSizes {
        transitions: counts.transition as usize,
        local_time_types: counts.local_type as usize,
        leap_seconds: counts.leap as usize,
        footer,
    })
}

/// The transitions, in their order, with times of four bytes.
#[cfg(feature = "alloc")]
fn read_short_transitions<A: Allocator + Copy>(
    alloc: A,
    unit: &Unit<'_>,
) -> Result<Vec<Transition, A>, AllocError> {
    let mut transitions = Vec::with_capacity(alloc, unit.counts.transition as usize)?;
    let times = unit.block.times.chunks_exact(4);
    transitions.extend(times.zip(unit.block.indexes).map(|(time, index)| {
        Transition::new(i64::from(signed_at(time, 0)), usize::from(*index))
    }))?;
    Ok(transitions)
}

/// The transitions, in their order, with times of eight bytes.
#[cfg(feature = "alloc")]
fn read_long_transitions<A: Allocator + Copy>(
    alloc: A,
    unit: &Unit<'_>,
) -> Result<Vec<Transition, A>, AllocError> {
    let mut transitions = Vec::with_capacity(alloc, unit.counts.transition as usize)?;
    let times = unit.block.times.chunks_exact(8);
    transitions.extend(
        times
            .zip(unit.block.indexes)
            .map(|(time, index)| Transition::new(long_signed_at(time, 0), usize::from(*index))),
    )?;
    Ok(transitions)
}

/// The transitions, in their order. Each size of times has a loop of its own, which does not test
/// the size.
#[cfg(feature = "alloc")]
fn read_transitions<A: Allocator + Copy>(
    alloc: A,
    unit: &Unit<'_>,
) -> Result<Vec<Transition, A>, AllocError> {
    match unit.size {
        TimeSize::Four => read_short_transitions(alloc, unit),
        TimeSize::Eight => read_long_transitions(alloc, unit),
    }
}

/// The daylight flag of a type.
fn read_daylight_flag(byte: u8) -> Result<bool, TzFileError> {
    match byte {
        0 => Ok(false),
        1 => Ok(true),
        _ => Err(TzFileError::InvalidDstIndicator),
    }
}

/// Where the first zero byte stands.
fn first_zero(bytes: &[u8]) -> Option<usize> {
    bytes.iter().position(|byte| *byte == 0)
}

/// The name at an index of the name bytes, if a zero byte ends it.
fn name_at(names: &[u8], index: usize) -> Option<&[u8]> {
    if names.len() < index {
        return None;
    }
    let (_, rest) = names.split_at(index);
    match first_zero(rest) {
        Some(len) => Some(&rest[..len]),
        None => None,
    }
}

/// The name, unless it is empty.
fn non_empty(name: &[u8]) -> Option<&[u8]> {
    if name.is_empty() { None } else { Some(name) }
}

/// The type of a record.
fn read_type(unit: &Unit<'_>, index: u32) -> Result<LocalTimeType, TzError> {
    let at = index as usize * 6;
    let ut_offset = signed_at(unit.block.types, at);
    let is_dst = read_daylight_flag(unit.block.types[at + 4])?;
    let Some(name) = name_at(unit.block.names, usize::from(unit.block.types[at + 5])) else {
        return Err(TzError::TzFile(
            TzFileError::InvalidTimeZoneDesignationCharIndex,
        ));
    };
    let local_time_type = LocalTimeType::new(ut_offset, is_dst, non_empty(name))?;
    Ok(local_time_type)
}

/// The types, in their order.
#[cfg(feature = "alloc")]
fn read_types<A: Allocator + Copy>(
    alloc: A,
    unit: &Unit<'_>,
) -> Result<Vec<LocalTimeType, A>, TzError> {
    let mut local_time_types = Vec::with_capacity(alloc, unit.counts.local_type as usize)?;
    for i in 0..unit.counts.local_type {
        local_time_types.push(read_type(unit, i)?)?;
    }
    Ok(local_time_types)
}

/// The leap second of a record.
fn leap_second_at(unit: &Unit<'_>, index: u32) -> LeapSecond {
    let at = unit.size.leaps_len(index) as usize;
    let unix_leap_time = time_at(unit.size, unit.block.leaps, at);
    let correction = signed_at(unit.block.leaps, at + unit.size.len());
    LeapSecond::new(unix_leap_time, correction)
}

/// The leap seconds, in their order.
#[cfg(feature = "alloc")]
fn read_leap_seconds<A: Allocator + Copy>(
    alloc: A,
    unit: &Unit<'_>,
) -> Result<Vec<LeapSecond, A>, AllocError> {
    let mut leap_seconds = Vec::with_capacity(alloc, unit.counts.leap as usize)?;
    for i in 0..unit.counts.leap {
        leap_seconds.push(leap_second_at(unit, i))?;
    }
    Ok(leap_seconds)
}

/// The indicator of a type, which is 0 where none is given.
fn indicator_at(indicators: &[u8], index: u32) -> u8 {
    indicators.get(index as usize).copied().unwrap_or(0)
}

/// Whether a type may have these two indicators: UT only with standard time.
fn is_pair(std_wall: u8, ut_local: u8) -> bool {
    matches!((std_wall, ut_local), (0, 0) | (1, 0) | (1, 1))
}

/// Whether the indicators of a type go together.
fn has_indicators(unit: &Unit<'_>, index: u32) -> bool {
    let std_wall = indicator_at(unit.block.std_walls, index);
    let ut_local = indicator_at(unit.block.ut_locals, index);
    is_pair(std_wall, ut_local)
}

/// Checks the indicators of all types.
fn check_indicators(unit: &Unit<'_>) -> Result<(), TzFileError> {
    for i in 0..unit.counts.local_type {
        if !has_indicators(unit, i) {
            return Err(TzFileError::InvalidStdWallUtLocal);
        }
    }
    Ok(())
}

/// Whether all bytes are below a number. The loop has no branch, so it can be vectorized.
fn are_below(bytes: &[u8], bound: usize) -> bool {
    let mut greatest = 0;
    for byte in bytes {
        greatest = greatest.max(*byte);
    }
    usize::from(greatest) < bound
}

/// Whether a transition has an earlier leap time than another one.
const fn is_earlier(change: Transition, next: Transition) -> bool {
    change.unix_leap_time() < next.unix_leap_time()
}

/// Whether each transition comes before the next one. The loop has no branch on the times, and
/// reads each of them once.
fn all_rise(transitions: &[Transition]) -> bool {
    let Some((first, rest)) = transitions.split_first() else {
        return true;
    };
    let mut rise = true;
    let mut last = *first;
    for next in rest {
        rise &= is_earlier(last, *next);
        last = *next;
    }
    rise
}

/// Whether the transitions of a unit rise and name one of so many types. If not,
/// `check_transitions` finds the first fault.
fn are_sound(unit: &Unit<'_>, transitions: &[Transition], types: usize) -> bool {
    are_below(unit.block.indexes, types) && all_rise(transitions)
}

/// The tables of a file.
#[cfg(feature = "alloc")]
struct Tables<A: Allocator + Copy = Global> {
    transitions: Vec<Transition, A>,
    local_time_types: Vec<LocalTimeType, A>,
    leap_seconds: Vec<LeapSecond, A>,
}

/// Reads the tables.
#[cfg(feature = "alloc")]
#[inline(always)]
fn read_tables<A: Allocator + Copy>(alloc: A, unit: &Unit<'_>) -> Result<Tables<A>, TzError> {
    let transitions = read_transitions(alloc, unit)?;
    let local_time_types = read_types(alloc, unit)?;
    let leap_seconds = read_leap_seconds(alloc, unit)?;
    check_indicators(unit)?;
    Ok(Tables {
        transitions,
        local_time_types,
        leap_seconds,
    })
}

/// Whether the first and the last byte are line feeds. A single line feed is both, and is a footer
/// without a text.
fn is_between_line_feeds(footer: &[u8]) -> bool {
    footer.first() == Some(&b'\n') && footer.last() == Some(&b'\n')
}

/// Whether a zero byte is among the bytes.
fn has_zero(bytes: &[u8]) -> bool {
    bytes.contains(&0)
}

/// Whether a text may stand in a footer: it does not begin with a colon, and has no zero byte.
fn may_be_text(text: &[u8]) -> bool {
    text.first() != Some(&b':') && !has_zero(text)
}

/// The bytes without white space at their ends.
fn trim(bytes: &[u8]) -> &[u8] {
    bytes.trim_ascii()
}

/// The text of a footer.
fn footer_text(footer: &[u8]) -> Result<&[u8], TzFileError> {
    str::from_utf8(footer)?;
    let text = trim(footer);
    if !is_between_line_feeds(footer) || !may_be_text(text) {
        return Err(TzFileError::InvalidFooter);
    }
    Ok(text)
}

/// The rule of a footer, if its text is not empty.
#[inline(always)]
fn read_footer(footer: &[u8], extended: bool) -> Result<Option<TransitionRule>, TzError> {
    let text = footer_text(footer)?;
    if text.is_empty() {
        return Ok(None);
    }
    match parse_posix_tz(text, extended) {
        Ok(rule) => Ok(Some(rule)),
        Err(error) => Err(error),
    }
}

/// The rule of the footer's text. There is none in version 1, or if the text is empty.
#[inline(always)]
fn read_extra_rule(
    footer: Option<&[u8]>,
    extended: bool,
) -> Result<Option<TransitionRule>, TzError> {
    match footer {
        Some(footer) => read_footer(footer, extended),
        None => Ok(None),
    }
}

#[cfg(feature = "alloc")]
impl<A: Allocator + Copy> TimeZone<A> {
    /// The zone that the bytes of a TZif file denote. (RFC 8536)
    ///
    /// All parts of the file are located before anything is allocated, so a count that exceeds the
    /// file allocates nothing.
    ///
    /// What clocks show at a Unix time in the zone of a file whose bytes were read:
    ///
    /// ```text
    /// pub fn local_time(alloc: Global, file: &[u8], unix_time: i64) -> Result<DateTime, TzError> {
    ///     let zone = TimeZone::from_tz_data(alloc, file)?;
    ///     DateTime::from_timespec(unix_time, 0, zone.as_ref())
    /// }
    /// ```
    ///
    /// # Errors
    ///
    /// - [`TzError::TzFile`] if the bytes are not a file of version 1 to 4. Headers and the lengths
    ///   of blocks are checked first, then types, then indicators, then the footer;
    /// - [`TzError::LocalTimeType`] if a record does not make a local time type;
    /// - [`TzError::TzString`], [`TzError::LocalTimeType`] or [`TzError::TransitionRule`] if the
    ///   text of the footer is not a TZ string, or does not make a rule;
    /// - [`TzError::TimeZone`] with `InvalidLeapSecond` if the version does not allow the
    ///   leap-second table, and otherwise the errors of [`TimeZone::new`], once all else is valid;
    /// - [`TzError::Memory`] if an allocation fails.
    pub fn from_tz_data(alloc: A, bytes: &[u8]) -> Result<Self, TzError> {
        parse_tz_file(alloc, bytes)
    }
}

/// Reads a zone from the bytes of a file.
#[cfg(feature = "alloc")]
#[inline(always)]
fn parse_tz_file<A: Allocator + Copy>(alloc: A, bytes: &[u8]) -> Result<TimeZone<A>, TzError> {
    let frame = read_frame(bytes)?;
    let tables = read_tables(alloc, &frame.unit)?;
    let extra_rule = read_extra_rule(frame.footer, is_extended(&frame.unit))?;
    if !may_hold(frame.unit.version, &tables.leap_seconds) {
        return Err(TzError::TimeZone(TimeZoneError::InvalidLeapSecond));
    }
    let types = tables.local_time_types.len();
    let are_sound = are_sound(&frame.unit, &tables.transitions, types);
    TimeZone::with_transitions(
        are_sound,
        tables.transitions,
        tables.local_time_types,
        tables.leap_seconds,
        extra_rule,
    )
}
