//! Settings by which the time zone of a string is found.

use super::TimeZone;
use crate::error::{AllocError, Error, ReadFault};
use crate::proved::tz_zone::timezone::TimeZoneSettings as Settings;
use crate::shim::Vec as Items;
use crate::shim::alloc::Global;
use alloc::boxed::Box;
use alloc::collections::TryReserveError;
use alloc::vec::Vec;
use core::error;

#[cfg(feature = "std")]
use crate::proved::tz_zone::timezone::{DEFAULT_DIRECTORIES, TimeZone as Zone};
#[cfg(feature = "std")]
use crate::shim::rt::Machine;

/// An error of a reader.
type AnyError = Box<dyn error::Error + Send + Sync + 'static>;

/// A function that returns the bytes of the file at a path.
type ReadFileFn = fn(path: &str) -> Result<Vec<u8>, AnyError>;

/// Whether a reader's error is a failed allocation.
fn is_out_of_memory(error: &(dyn error::Error + 'static)) -> bool {
    #[cfg(feature = "std")]
    if let Some(error) = error.downcast_ref::<std::io::Error>() {
        return error.kind() == std::io::ErrorKind::OutOfMemory;
    }
    matches!(error.downcast_ref(), Some(ReadFault::Memory(_)))
        || error.is::<AllocError>()
        || error.is::<TryReserveError>()
}

/// What a search takes, of a function that reads a file.
fn reader_of(read_file_fn: ReadFileFn) -> impl Fn(&str) -> Result<Items<u8>, ReadFault> {
    let fault_of = |error: AnyError| match is_out_of_memory(&*error) {
        true => ReadFault::Memory(AllocError),
        false => ReadFault::Failed(error),
    };
    move |path: &str| read_file_fn(path).map(Items::from_std).map_err(fault_of)
}

/// How a time zone is found: the directories of files, and the function that reads one.
///
/// The function is called with each path in turn until it returns bytes, or an error that says that an allocation failed: an `std::io::Error` of the
/// kind `OutOfMemory`, a [`ReadFault::Memory`], an [`AllocError`] or a `TryReserveError`. Such an error ends the call with
/// [`TzError::Memory`](crate::TzError::Memory), since it is unknown whether the file exists.
#[derive(Debug)]
pub struct TimeZoneSettings<'a> {
    directories: &'a [&'a str],
    read_file_fn: ReadFileFn,
}

impl<'a> TimeZoneSettings<'a> {
    /// The directories in which systems keep their time zone files.
    #[cfg(feature = "std")]
    pub const DEFAULT_DIRECTORIES: &'static [&'static str] = DEFAULT_DIRECTORIES;

    /// The function that reads a file of the machine.
    #[cfg(feature = "std")]
    pub const DEFAULT_READ_FILE_FN: ReadFileFn = |path| Ok(std::fs::read(path)?);

    /// The usual directories, and the machine's files.
    #[cfg(feature = "std")]
    pub const DEFAULT: TimeZoneSettings<'static> = TimeZoneSettings {
        directories: Self::DEFAULT_DIRECTORIES,
        read_file_fn: Self::DEFAULT_READ_FILE_FN,
    };

    /// The settings with these directories, of which earlier ones come first, and this function.
    pub const fn new(directories: &'a [&'a str], read_file_fn: ReadFileFn) -> TimeZoneSettings<'a> {
        TimeZoneSettings {
            directories,
            read_file_fn,
        }
    }

    /// The settings of the proved library.
    fn proved(&self) -> Settings<'a, impl Fn(&str) -> Result<Items<u8>, ReadFault>> {
        Settings::new(self.directories, reader_of(self.read_file_fn))
    }

    /// The machine's local time zone: that of the TZif file at `/etc/localtime`.
    ///
    /// # Errors
    ///
    /// - [`Error::Io`] if that file cannot be read;
    /// - [`Error::Tz`] with an error of [`TimeZone::from_tz_data`] if the file is not a TZif file, or of `Memory` if an allocation fails, also in the
    ///   reader.
    pub fn parse_local(&self) -> Result<TimeZone, Error> {
        Ok(TimeZone::of(self.proved().parse_local(Global)?))
    }

    /// The time zone of a string, as the environment variable `TZ` has one. (POSIX.1-2017, Base Definitions, 8.3)
    ///
    /// `localtime` is the machine's local time. What follows a `:` names a file. Any other string names a file too, or is a TZ string if no such file
    /// can be read. A name that begins with `/` is the path of the file, and any other name is that of a file in one of the directories. No call
    /// reads the variable itself.
    ///
    /// # Errors
    ///
    /// - [`Error::Io`] if the file of `localtime` or of a name after `:` cannot be read;
    /// - [`Error::Tz`] with an error of [`TimeZone::from_tz_data`] if the file is not a TZif file, of `Memory` if an allocation fails, also in the
    ///   reader, and otherwise with one of the TZ string.
    pub fn parse_posix_tz(&self, tz_string: &str) -> Result<TimeZone, Error> {
        Ok(TimeZone::of(
            self.proved().parse_posix_tz(Global, tz_string)?,
        ))
    }
}

#[cfg(feature = "std")]
impl TimeZone {
    /// The machine's local time zone: that of the TZif file at `/etc/localtime`.
    ///
    /// # Errors
    ///
    /// Those of [`TimeZoneSettings::parse_local`].
    pub fn local() -> Result<Self, Error> {
        TimeZoneSettings::DEFAULT.parse_local()
    }

    /// The time zone of a string, with the [usual directories](TimeZoneSettings::DEFAULT_DIRECTORIES). (POSIX.1-2017, Base Definitions, 8.3)
    ///
    /// A string that a user chose may be a path, or a TZ string: `UTC+3` is three hours *behind* UTC. [`TimeZone::named`] takes names alone.
    ///
    /// # Errors
    ///
    /// Those of [`TimeZoneSettings::parse_posix_tz`].
    pub fn from_posix_tz(tz_string: &str) -> Result<Self, Error> {
        TimeZoneSettings::DEFAULT.parse_posix_tz(tz_string)
    }

    /// The time zone with the name, such as `Europe/Paris`, in the database of the system. (tz database, Timezone identifiers)
    ///
    /// A name has parts of ASCII letters, digits, `.`, `_`, `+` and `-`, with `/` between them; no part is `.` or `..`. A file is only looked for in
    /// the [usual directories](TimeZoneSettings::DEFAULT_DIRECTORIES), and for a text that is no name none is. A name is never read as a TZ string.
    ///
    /// # Errors
    ///
    /// - [`Error::Io`] if the text is not a name, or if no directory has a file with it that can be read; the error's text says which, and has the
    ///   name;
    /// - [`Error::Tz`] with an error of [`TimeZone::from_tz_data`] if the file is not a TZif file, or of `Memory` if an allocation fails, also that for
    ///   the bytes of a file.
    pub fn named(name: &str) -> Result<Self, Error> {
        let reader = reader_of(TimeZoneSettings::DEFAULT_READ_FILE_FN);
        Ok(TimeZone::of(Zone::named(Global, reader, name)?))
    }
}

/// The bytes of the file at the path, read to its end, if there are at most `limit` of them.
///
/// So a file that someone else chooses takes no more memory than the limit needs. Files of time zones are shorter than 10000 bytes, or with leap
/// seconds and all their history than 100000.
///
/// # Errors
///
/// - [`ReadFault::Failed`] if the file cannot be opened or read, or, with a text that says so, if it is longer: after one byte more than the limit
///   was read;
/// - [`ReadFault::Memory`] if an allocation for its bytes fails.
#[cfg(feature = "std")]
pub fn read_file_up_to(limit: usize, path: &str) -> Result<Vec<u8>, ReadFault> {
    use crate::proved::tz_zone::timezone::read_file_up_to;
    Ok(read_file_up_to(&Machine, Global, limit, path)?.into_std())
}
