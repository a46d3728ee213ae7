// Generated from crates/tz_query/src/query/program.rt by bindings/erase: its contracts are cut. Change that file instead.
//! The program over arguments, a file reader, an input and outputs that are passed in.

use super::read_query::read_number;
use crate::proved::tz_query::query::streams::{RunFault, run, write_front};
use crate::shim::ArrayString;
use crate::shim::Vec;
use crate::shim::alloc::Allocator;
use crate::shim::io::{Read, Write};
use core::fmt::Write as _;
use tz::proved::tz::error::ReadFault;
use tz::proved::tz::{TimeZone, TzError};

/// Why the arguments name no zone.
enum Fault {
    /// They are not an option and its value.
    Arguments,
    /// A file cannot be read.
    File,
    /// Memory is out.
    Memory,
    /// The value makes no zone.
    Zone(TzError),
}

impl From<TzError> for Fault {
    fn from(error: TzError) -> Self {
        match error {
            TzError::Memory(_) => Fault::Memory,
            error => Fault::Zone(error),
        }
    }
}

/// The offset that an argument has, if it is a number of 32 bits.
fn read_offset(value: &str) -> Option<i32> {
    match read_number(value.as_bytes())? {
        (number, []) => i32::try_from(number).ok(),
        _ => None,
    }
}

/// The zone that the arguments name.
fn zone_of_arguments<A: Allocator + Copy, F: Fn(&str) -> Result<Vec<u8>, ReadFault>>(
    alloc: A,
    arguments: &[&str],
    reader: F,
) -> Result<TimeZone<A>, Fault> {
    match arguments {
        ["-o", number] => {
            let ut_offset = read_offset(number).ok_or(Fault::Arguments)?;
            Ok(TimeZone::fixed(alloc, ut_offset)?)
        }
        ["-f", path] => match reader(path) {
            Ok(bytes) => Ok(TimeZone::from_tz_data(alloc, &bytes)?),
            Err(ReadFault::Memory(_)) => Err(Fault::Memory),
            Err(ReadFault::Failed(_)) => Err(Fault::File),
        },
        ["-z", text] => match TimeZone::from_posix_tz(alloc, reader, text) {
            Ok(zone) => Ok(zone),
            Err(tz::proved::tz::Error::Io(_)) => Err(Fault::File),
            Err(tz::proved::tz::Error::Tz(error)) => Err(Fault::from(error)),
            _ => unreachable!(),
        },
        _ => Err(Fault::Arguments),
    }
}

/// Prints the line of a failure, as far as it can be written, and returns its status.
pub(crate) fn fail<E: Write>(err: &mut E, line: &str) -> u8 {
    // An error of the error output has nowhere to be told.
    let _ = write_front(err, line.as_bytes());
    1
}

/// The most bytes of an error's text.
const LONGEST: usize = 128;

/// Prints the line of a refused zone, as far as it can be written.
fn refuse<E: Write>(err: &mut E, error: &TzError) {
    let mut text = ArrayString::<LONGEST>::new();
    if !write_front(err, b"tzq: zone refused: ") || write!(text, "{error}").is_err() {
        return;
    }
    if write_front(err, text.as_str().as_bytes()) {
        let _ = write_front(err, b"\n");
    }
}

/// The line of a run that ends without all answers.
pub(crate) fn line_of(fault: RunFault) -> &'static str {
    match fault {
        RunFault::Read => "tzq: cannot read queries\n",
        RunFault::Memory => "tzq: no memory\n",
        RunFault::Write => "tzq: cannot write answers\n",
    }
}

/// Runs the program and returns its status.
///
/// `arguments` are an option and its value, which name a zone: `-o` that of an offset from UTC in
/// seconds, `-f` that of the TZif file which the reader finds at a path, `-z` that of a string, as
/// [`TimeZone::from_posix_tz`] returns it. The zone is made first, then the input is read to its
/// end, and then the answers of its lines are written. An error prints one line to `err`, if that
/// can be written, and the status is 1, or 2 if the zone is invalid. Whatever the status, what was
/// appended to `out` is empty or a prefix of the answers.
pub fn tool<A, F, R, W, E>(
    alloc: A,
    arguments: &[&str],
    reader: F,
    input: &mut R,
    out: &mut W,
    err: &mut E,
) -> u8
where
    A: Allocator + Copy,
    F: Fn(&str) -> Result<Vec<u8>, ReadFault>,
    R: Read,
    W: Write,
    E: Write,
{
    match zone_of_arguments(alloc, arguments, reader) {
        Ok(zone) => match run(alloc, zone.as_ref(), input, out) {
            Ok(()) => 0,
            Err(fault) => fail(err, line_of(fault)),
        },
        Err(Fault::Arguments) => fail(err, "tzq: bad arguments\n"),
        Err(Fault::File) => fail(err, "tzq: cannot read file\n"),
        Err(Fault::Memory) => fail(err, "tzq: no memory\n"),
        Err(Fault::Zone(error)) => {
            refuse(err, &error);
            2
        }
    }
}
