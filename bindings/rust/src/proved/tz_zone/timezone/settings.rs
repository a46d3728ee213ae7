// Generated from crates/tz_zone/src/timezone/settings.rt by bindings/erase: its contracts are cut. Change that file instead.
//! Settings: the files that a name means in directories, and the zone of a name, of the environment
//! variable TZ's text or of the machine.

#[cfg(feature = "alloc")]
use super::TimeZone;
#[cfg(feature = "alloc")]
use super::zone_names::{is_zone_name, no_such_zone, not_a_name};
#[cfg(feature = "alloc")]
use crate::proved::tz_base::error::{Error, ReadFault, TzError, TzStringError};
#[cfg(feature = "alloc")]
use crate::proved::tz_zone::parse::tz_string::zone_of_tz_string;
use crate::shim::ArrayString;
#[cfg(feature = "alloc")]
use crate::shim::alloc::{AllocError, Allocator};
#[cfg(feature = "alloc")]
use crate::shim::anyhow;
#[cfg(feature = "alloc")]
use crate::shim::{String, Vec};

/// The directories in which systems keep their time zone files.
pub const DEFAULT_DIRECTORIES: &[&str] =
    &["/usr/share/zoneinfo", "/share/zoneinfo", "/etc/zoneinfo"];

/// The file of the machine's local time.
const LOCAL_TIME_FILE: &str = "/etc/localtime";

/// Whether the string means the machine's local time.
fn is_local_time(text: &str) -> bool {
    text == "localtime"
}

/// The name after a colon.
fn after_colon(text: &str) -> Option<&str> {
    text.strip_prefix(':')
}

/// The zone of the bytes of a file.
#[cfg(feature = "alloc")]
fn zone_of_bytes<A: Allocator + Copy>(alloc: A, bytes: &[u8]) -> Result<TimeZone<A>, Error> {
    match TimeZone::from_tz_data(alloc, bytes) {
        Ok(zone) => Ok(zone),
        Err(error) => Err(Error::Tz(error)),
    }
}

/// The zone of the file that was found.
#[cfg(feature = "alloc")]
fn zone_of_found<A: Allocator + Copy>(
    alloc: A,
    found: Result<Vec<u8>, ReadFault>,
) -> Result<TimeZone<A>, Error> {
    match found {
        Ok(bytes) => zone_of_bytes(alloc, &bytes),
        Err(ReadFault::Memory(error)) => Err(Error::Tz(TzError::Memory(error))),
        Err(ReadFault::Failed(fault)) => Err(Error::Io(fault)),
    }
}

/// How a time zone is found: the directories of files, and the function that reads one.
///
/// The function returns the bytes of the file at a path. It is called with each path in turn until
/// it returns bytes or `ReadFault::Memory`.
pub struct TimeZoneSettings<'a, F> {
    directories: &'a [&'a str],
    reader: F,
}

#[cfg(feature = "alloc")]
impl<'a, F: Fn(&str) -> Result<Vec<u8>, ReadFault>> TimeZoneSettings<'a, F> {
    /// The settings with these directories, and with this function that reads a file.
    #[must_use]
    pub const fn new(directories: &'a [&'a str], reader: F) -> Self {
        TimeZoneSettings {
            directories,
            reader,
        }
    }

    /// The machine's local time zone, from `/etc/localtime`.
    ///
    /// # Errors
    ///
    /// - [`Error::Io`] with the reader's error if that file cannot be read;
    /// - [`Error::Tz`] with an error of [`TimeZone::from_tz_data`] if the file is not a TZif file;
    /// - [`Error::Tz`] of [`TzError::Memory`] if an allocation fails, in this call or in the
    ///   reader.
    pub fn parse_local<A: Allocator + Copy>(&self, alloc: A) -> Result<TimeZone<A>, Error> {
        zone_of_found(alloc, self.read(LOCAL_TIME_FILE))
    }

    /// The time zone of a string. (POSIX.1-2017, Base Definitions, 8.3)
    ///
    /// `localtime` is the machine's local time. What follows a `:` names a file. Any other string
    /// names a file too, or is a TZ string if no such file can be read. A name that begins with `/`
    /// is the path of the file, and any other name is that of a file in one of the directories.
    ///
    /// # Errors
    ///
    /// - [`Error::Tz`] of [`TzError::TzString`] with `Empty` if the string is empty;
    /// - [`Error::Io`] if the file of `localtime` or of a name after `:` cannot be read;
    /// - [`Error::Tz`] of [`TzError::TzString`], [`TzError::LocalTimeType`] or
    ///   [`TzError::TransitionRule`] if any other string names no file that can be read, and is not
    ///   a TZ string or does not make a rule;
    /// - [`Error::Tz`] with an error of [`TimeZone::from_tz_data`] if the file is not a TZif file;
    /// - [`Error::Tz`] of [`TzError::Memory`] if an allocation fails, in this call or in the
    ///   reader.
    #[inline]
    pub fn parse_posix_tz<A: Allocator + Copy>(
        &self,
        alloc: A,
        tz_string: &str,
    ) -> Result<TimeZone<A>, Error> {
        if tz_string.is_empty() {
            return Err(Error::Tz(TzError::TzString(TzStringError::Empty)));
        }
        if is_local_time(tz_string) {
            return self.parse_local(alloc);
        }
        match after_colon(tz_string) {
            Some(name) => self.parse_name(alloc, name),
            None => self.parse_name_or_text(alloc, tz_string),
        }
    }

    /// The zone of the file with the name.
    fn parse_name<A: Allocator + Copy>(&self, alloc: A, name: &str) -> Result<TimeZone<A>, Error> {
        zone_of_found(alloc, self.find(alloc, name))
    }

    /// The zone with the name. For a text that is no name nothing is read.
    fn zone_of_name<A: Allocator + Copy>(
        &self,
        alloc: A,
        name: &str,
    ) -> Result<TimeZone<A>, Error> {
        if !is_zone_name(name) {
            return Err(Error::Io(not_a_name(name)));
        }
        let found = self.find_in_directories(alloc, name)?;
        match found {
            Some(bytes) => zone_of_bytes(alloc, &bytes),
            None => Err(Error::Io(no_such_zone(name))),
        }
    }

    /// The zone of the file with the name, or that of the TZ string if no such file can be read.
    #[inline]
    fn parse_name_or_text<A: Allocator + Copy>(
        &self,
        alloc: A,
        text: &str,
    ) -> Result<TimeZone<A>, Error> {
        let found = self.find_readable(alloc, text)?;
        match found {
            Some(bytes) => zone_of_bytes(alloc, &bytes),
            None => zone_of_tz_string(alloc, text),
        }
    }
}

#[cfg(feature = "alloc")]
impl<A: Allocator + Copy> TimeZone<A> {
    /// The machine's local time zone: that of the TZif file at `/etc/localtime`, whose bytes the
    /// reader returns for this path.
    ///
    /// With the reader of the machine's files:
    ///
    /// ```text
    /// pub fn local_zone<R: Files>(rt: &R, alloc: Global) -> Result<TimeZone, Error> {
    ///     TimeZone::local(alloc, |path: &str| timezone::read_file(rt, alloc, path))
    /// }
    /// ```
    ///
    /// # Errors
    ///
    /// Those of [`TimeZoneSettings::parse_local`].
    #[cfg(feature = "inner")]
    pub fn local<F: Fn(&str) -> Result<Vec<u8>, ReadFault>>(
        alloc: A,
        reader: F,
    ) -> Result<Self, Error> {
        let settings = TimeZoneSettings::new(DEFAULT_DIRECTORIES, reader);
        settings.parse_local(alloc)
    }

    /// The time zone of a string, with the [usual directories](DEFAULT_DIRECTORIES) and this
    /// function that reads a file. (POSIX.1-2017, Base Definitions, 8.3)
    ///
    /// `localtime` is the machine's local time. What follows a `:` names a file. Any other string
    /// names a file too, or is a TZ string if no such file can be read. A name that begins with `/`
    /// is the path of the file, and any other name is that of a file in one of the directories.
    ///
    /// The zone of a name such as `Europe/Paris`, or of a TZ string such as
    /// `CET-1CEST,M3.5.0,M10.5.0/3`:
    ///
    /// ```text
    /// pub fn zone_of_setting<R: Files>(
    ///     rt: &R,
    ///     alloc: Global,
    ///     setting: &str,
    /// ) -> Result<TimeZone, Error> {
    ///     let reader = |path: &str| timezone::read_file(rt, alloc, path);
    ///     TimeZone::from_posix_tz(alloc, reader, setting)
    /// }
    /// ```
    ///
    /// # Errors
    ///
    /// Those of [`TimeZoneSettings::parse_posix_tz`].
    #[cfg(feature = "inner")]
    pub fn from_posix_tz<F: Fn(&str) -> Result<Vec<u8>, ReadFault>>(
        alloc: A,
        reader: F,
        tz_string: &str,
    ) -> Result<Self, Error> {
        let settings = TimeZoneSettings::new(DEFAULT_DIRECTORIES, reader);
        settings.parse_posix_tz(alloc, tz_string)
    }

    /// The time zone with the name, such as `Europe/Paris`, in the database of the system. (tz
    /// database, Timezone identifiers)
    ///
    /// A name has parts of ASCII letters, digits, `.`, `_`, `+` and `-`, with `/` between them; no
    /// part is `.` or `..`. For a name the reader is asked in each of the [usual
    /// directories](DEFAULT_DIRECTORIES) in turn until it returns bytes or `ReadFault::Memory`, and
    /// for any other text it is not asked. So no path outside of these directories is opened, even
    /// if a user chooses the name; a link in them is followed, wherever it leads. A name is never
    /// read as a TZ string.
    ///
    /// A file that the reader does not return counts as one that is not there, also if it may not
    /// be read, or is longer than the reader's limit.
    ///
    /// # Errors
    ///
    /// - [`Error::Io`] if the text is not a name, as [`is_zone_name`](super::is_zone_name) returns,
    ///   or if it is one and no directory has a file with it; the error's text says which, and has
    ///   the name;
    /// - [`Error::Tz`] with an error of [`TimeZone::from_tz_data`] if the file is not a TZif file;
    /// - [`Error::Tz`] of [`TzError::Memory`] if an allocation fails, in this call or in the
    ///   reader.
    pub fn named<F: Fn(&str) -> Result<Vec<u8>, ReadFault>>(
        alloc: A,
        reader: F,
        name: &str,
    ) -> Result<Self, Error> {
        let settings = TimeZoneSettings::new(DEFAULT_DIRECTORIES, reader);
        settings.zone_of_name(alloc, name)
    }
}

/// How long a path may be that needs no memory: those of the names of the time zone database are
/// shorter.
const USUAL_LEN: usize = 96;

/// Whether the name is a path of its own.
fn is_absolute(name: &str) -> bool {
    matches!(name.as_bytes(), [b'/', ..])
}

/// Writes the path of a name in a directory into the room of usual paths, and returns it, or `None`
/// where the room is too short.
fn usual_path<'p>(
    room: &'p mut ArrayString<USUAL_LEN>,
    directory: &str,
    name: &str,
) -> Option<&'p str> {
    room.clear();
    if room.try_push_str(directory).is_err()
        || room.try_push_str("/").is_err()
        || room.try_push_str(name).is_err()
    {
        return None;
    }
    Some(room.as_str())
}

/// The path of a name in a directory, in memory.
#[cfg(feature = "alloc")]
fn long_path<A: Allocator + Copy>(
    alloc: A,
    directory: &str,
    name: &str,
) -> Result<String<A>, AllocError> {
    let mut path = String::with_capacity(alloc, directory.len() + 1 + name.len())?;
    path.push_str(directory)?;
    path.push_str("/")?;
    path.push_str(name)?;
    Ok(path)
}

#[cfg(feature = "alloc")]
impl<F: Fn(&str) -> Result<Vec<u8>, ReadFault>> TimeZoneSettings<'_, F> {
    /// What the reader returns for the path.
    fn read(&self, path: &str) -> Result<Vec<u8>, ReadFault> {
        (self.reader)(path)
    }

    /// The file at the path, or `None` if it cannot be read. The reader's fault is dropped at once.
    fn read_if_there(&self, path: &str) -> Result<Option<Vec<u8>>, AllocError> {
        match self.read(path) {
            Ok(bytes) => Ok(Some(bytes)),
            Err(ReadFault::Memory(error)) => Err(error),
            Err(ReadFault::Failed(_)) => Ok(None),
        }
    }

    /// The file with the name in the directory, or `None` if it cannot be read.
    fn find_in_directory<A: Allocator + Copy>(
        &self,
        alloc: A,
        room: &mut ArrayString<USUAL_LEN>,
        directory: &str,
        name: &str,
    ) -> Result<Option<Vec<u8>>, AllocError> {
        if let Some(path) = usual_path(room, directory, name) {
            return self.read_if_there(path);
        }
        let path = long_path(alloc, directory, name)?;
        self.read_if_there(path.as_str())
    }

    /// The file with the name in the first of the directories that has it, or `None` where none has
    /// it.
    #[inline]
    fn find_in_directories<A: Allocator + Copy>(
        &self,
        alloc: A,
        name: &str,
    ) -> Result<Option<Vec<u8>>, AllocError> {
        let mut room = ArrayString::new();
        for directory in self.directories {
            let found = self.find_in_directory(alloc, &mut room, directory, name)?;
            if let Some(bytes) = found {
                return Ok(Some(bytes));
            }
        }
        Ok(None)
    }

    /// The file with the name.
    fn find<A: Allocator + Copy>(&self, alloc: A, name: &str) -> Result<Vec<u8>, ReadFault> {
        if is_absolute(name) {
            return self.read(name);
        }
        let found = self.find_in_directories(alloc, name)?;
        match found {
            Some(bytes) => Ok(bytes),
            None => Err(ReadFault::Failed(anyhow!("file was not found"))),
        }
    }

    /// The file with the name, or `None` if it cannot be read. No text is made for an error that
    /// nobody sees.
    #[inline]
    fn find_readable<A: Allocator + Copy>(
        &self,
        alloc: A,
        name: &str,
    ) -> Result<Option<Vec<u8>>, AllocError> {
        if !is_absolute(name) {
            return self.find_in_directories(alloc, name);
        }
        self.read_if_there(name)
    }
}
