//! What tests use of Rattle's standard library, over Rust's, and calls of the proved crates that the
//! crate has otherwise.

use std::fmt::{self, Debug, Display, Write};
use std::ops::Deref;
use tz::datetime::{DateTime, UtcDateTime};
use tz::error::TzError;
use tz::proved::tz::datetime::FoundDateTimeList;
use tz::proved::tz::inner::{Fields, find_fields};
use tz::proved::tz_zone::inner::ZoneData;
use tz::proved::tz_zone::timezone::TimeZoneRef;
use tz::shim::alloc::{AllocError, Allocator, Global};
use tz::shim::rt::{Files, Machine};

pub use tz::shim::Vec;

/// The runtime that a test has.
pub struct HostRuntime;

impl HostRuntime {
    pub fn alloc(&self) -> Global {
        Global
    }

    pub fn process(&self) {}
}

impl Files for HostRuntime {
    type File = <Machine as Files>::File;

    fn open(&self, path: &str) -> Result<Self::File, std::io::Error> {
        Machine.open(path)
    }
}

pub mod test {
    /// Why a test fails.
    pub type Fail = std::boxed::Box<dyn std::error::Error + Send + Sync>;
}

pub mod process {
    /// What ends the process where an assertion fails.
    pub trait Abort {}

    impl Abort for super::HostRuntime {}

    pub fn id(_: ()) -> u32 {
        std::process::id()
    }
}

pub mod env {
    use super::{AllocError, Global, HostRuntime, String};
    use std::io;

    pub struct Directory(std::path::PathBuf);

    impl Directory {
        pub fn join(&self, alloc: Global, name: &str) -> Result<String, AllocError> {
            String::from_str(alloc, &self.0.join(name).to_string_lossy())
        }
    }

    pub fn temp_dir(_: &HostRuntime) -> io::Result<Directory> {
        Ok(Directory(std::env::temp_dir()))
    }
}

pub mod fs {
    use std::io;

    pub fn write<R>(_: &R, path: &str, bytes: &[u8]) -> io::Result<()> {
        std::fs::write(path, bytes)
    }

    pub fn remove_file<R>(_: &R, path: &str) -> io::Result<()> {
        std::fs::remove_file(path)
    }
}

pub mod time {
    use std::io;
    pub use std::time::UNIX_EPOCH;

    /// What has the current time.
    pub trait Clock {}

    impl Clock for super::HostRuntime {}

    pub struct SystemTime;

    impl SystemTime {
        pub fn now(_: &impl Clock) -> io::Result<std::time::SystemTime> {
            Ok(std::time::SystemTime::now())
        }
    }
}

/// A result whose error is of any kind.
pub type Result<T, E = tz::shim::anyhow::Error> = std::result::Result<T, E>;

/// A value, or else an error with a text.
pub trait Context<T> {
    fn context(self, text: &str) -> Result<T>;
}

impl<T> Context<T> for Option<T> {
    fn context(self, text: &str) -> Result<T> {
        Ok(self.ok_or(text)?)
    }
}

/// The error with a text.
macro_rules! anyhow {
    ($($text:tt)*) => {
        tz::shim::anyhow::Error::from(format!($($text)*))
    };
}

/// The text in memory of an allocator.
macro_rules! format_in {
    ($alloc:expr; $($text:tt)*) => {
        $crate::kit::formatted($alloc, format_args!($($text)*))
    };
}

pub(crate) use {anyhow, format_in};

/// The text that arguments of a format make.
pub fn formatted<A: Allocator>(
    alloc: A,
    arguments: fmt::Arguments<'_>,
) -> Result<String<A>, AllocError> {
    let mut text = String::new(alloc);
    text.write_fmt(arguments).map_err(|fmt::Error| AllocError)?;
    Ok(text)
}

/// Text whose growth may fail.
pub struct String<A: Allocator = Global>(tz::shim::String<A>);

impl<A: Allocator> String<A> {
    pub fn new(alloc: A) -> Self {
        let empty = tz::shim::String::with_capacity(alloc, 0);
        String(empty.expect("no room takes no memory"))
    }

    pub fn from_str(alloc: A, text: &str) -> Result<Self, AllocError> {
        let mut made = String(tz::shim::String::with_capacity(alloc, text.len())?);
        made.push_str(text)?;
        Ok(made)
    }

    pub fn push_str(&mut self, text: &str) -> Result<(), AllocError> {
        self.0.push_str(text)
    }

    pub fn push(&mut self, letter: char) -> Result<(), AllocError> {
        self.push_str(letter.encode_utf8(&mut [0; 4]))
    }

    pub fn as_str(&self) -> &str {
        self.0.as_str()
    }
}

impl String {
    pub fn from_utf8(bytes: Vec<u8>) -> Result<Self, test::Fail> {
        Ok(String::from_str(Global, std::str::from_utf8(&bytes)?)?)
    }
}

impl<A: Allocator> Write for String<A> {
    fn write_str(&mut self, text: &str) -> fmt::Result {
        self.push_str(text).map_err(|AllocError| fmt::Error)
    }
}

impl<A: Allocator> Deref for String<A> {
    type Target = str;

    fn deref(&self) -> &str {
        self.as_str()
    }
}

impl<A: Allocator> PartialEq for String<A> {
    fn eq(&self, other: &Self) -> bool {
        **self == **other
    }
}

impl<A: Allocator> Debug for String<A> {
    fn fmt(&self, f: &mut fmt::Formatter<'_>) -> fmt::Result {
        Debug::fmt(&**self, f)
    }
}

impl<A: Allocator> Display for String<A> {
    fn fmt(&self, f: &mut fmt::Formatter<'_>) -> fmt::Result {
        Display::fmt(&**self, f)
    }
}

/// A value in a block of its own.
pub struct Box;

impl Box {
    // It has the name of Rattle's.
    #[allow(clippy::new_ret_no_self)]
    pub fn new<T, A: Allocator>(alloc: A, value: T) -> Result<Vec<T, A>, AllocError> {
        Vec::from_array(alloc, [value])
    }
}

/// What is printed, in memory of an allocator.
pub trait PrintedIn: Display {
    fn to_string_in<A: Allocator>(&self, alloc: A) -> Result<String<A>, AllocError> {
        format_in!(alloc; "{self}")
    }
}

impl<T: Display> PrintedIn for T {}

/// Texts in memory of an allocator.
pub trait TextIn {
    fn repeat_in(&self, alloc: Global, times: usize) -> Result<String, AllocError>;

    fn replace_in(&self, alloc: Global, old: &str, new: &str) -> Result<String, AllocError>;
}

impl TextIn for str {
    fn repeat_in(&self, alloc: Global, times: usize) -> Result<String, AllocError> {
        String::from_str(alloc, &self.repeat(times))
    }

    fn replace_in(&self, alloc: Global, old: &str, new: &str) -> Result<String, AllocError> {
        String::from_str(alloc, &self.replace(old, new))
    }
}

/// Bytes in memory of an allocator.
pub trait BytesIn {
    fn repeat_in(&self, alloc: Global, times: usize) -> Result<Vec<u8>, AllocError>;
}

impl BytesIn for [u8] {
    fn repeat_in(&self, alloc: Global, times: usize) -> Result<Vec<u8>, AllocError> {
        Vec::from_slice(alloc, &self.repeat(times))
    }
}

/// Lists in memory of an allocator.
pub trait VecIn<T, A>: Sized {
    fn from_slice(alloc: A, items: &[T]) -> Result<Self, AllocError>;
}

impl<T: Clone, A: Allocator> VecIn<T, A> for Vec<T, A> {
    fn from_slice(alloc: A, items: &[T]) -> Result<Self, AllocError> {
        let mut made = Vec::with_capacity(alloc, items.len())?;
        made.extend_from_slice(items)?;
        Ok(made)
    }
}

/// Bytes that become more or fewer.
pub trait Resized {
    fn resize(&mut self, len: usize, byte: u8) -> Result<(), AllocError>;

    fn truncate(&mut self, len: usize);
}

impl Resized for Vec<u8> {
    fn resize(&mut self, len: usize, byte: u8) -> Result<(), AllocError> {
        while self.len() < len {
            self.push(byte)?;
        }
        Ok(())
    }

    fn truncate(&mut self, len: usize) {
        let front = Vec::from_slice(Global, &self[..len]);
        *self = front.expect("tests have memory");
    }
}

/// Whether two lists print the same. Derived equality is for allocators that are compared.
pub fn are_equal<A: Allocator + Copy>(
    list: &FoundDateTimeList<A>,
    other: &FoundDateTimeList<A>,
) -> bool {
    format!("{list:?}") == format!("{other:?}")
}

/// What [`DateTime::find`] of the proved crate returns, which has an allocator. With Rust's it is
/// what that of the Rust crate returns.
#[allow(clippy::too_many_arguments)]
pub fn find<A: Allocator + Copy>(
    alloc: A,
    year: i32,
    month: u8,
    month_day: u8,
    hour: u8,
    minute: u8,
    second: u8,
    nanoseconds: u32,
    zone: TimeZoneRef<'_>,
) -> Result<FoundDateTimeList<A>, TzError> {
    let fields = Fields::new(year, month, month_day, hour, minute, second, nanoseconds);
    let found = find_fields(alloc, &fields, &ZoneData::of(&zone));
    let listed = DateTime::find(
        year,
        month,
        month_day,
        hour,
        minute,
        second,
        nanoseconds,
        zone,
    );
    expect_found(&found, listed);
    found
}

/// What [`DateTime::find_local`] of the proved crate returns.
pub fn find_local<A: Allocator + Copy>(
    alloc: A,
    local: UtcDateTime,
    zone: TimeZoneRef<'_>,
) -> Result<FoundDateTimeList<A>, TzError> {
    let found = find(
        alloc,
        local.year(),
        local.month(),
        local.month_day(),
        local.hour(),
        local.minute(),
        local.second(),
        local.nanoseconds(),
        zone,
    );
    expect_found(&found, DateTime::find_local(local, zone));
    found
}

/// The Rust crate finds what the proved one does, where that has memory.
fn expect_found<A: Allocator + Copy>(
    found: &Result<FoundDateTimeList<A>, TzError>,
    listed: Result<tz::datetime::FoundDateTimeList, TzError>,
) {
    match (found, listed) {
        (Ok(found), Ok(listed)) => {
            assert_eq!(listed.unique(), found.unique());
            assert_eq!(listed.earliest(), found.earliest());
            assert_eq!(listed.latest(), found.latest());
            assert_eq!(format!("{listed:?}"), format!("{found:?}"));
        }
        (Err(TzError::Memory(_)), _) => {}
        (Err(error), Err(other)) => assert_eq!(error.to_string(), other.to_string()),
        (_, listed) => panic!("{found:?}, but {listed:?}"),
    }
}
