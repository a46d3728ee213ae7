//! Answers query lines about date times: `tzq -o OFFSET` over the zone with this offset from UTC in
//! seconds, `tzq -f FILE` over that of a TZif file, `tzq -z STRING` over that of a TZ string or of
//! a name. With the feature `zones` it knows the names of the tz database without files.
#![forbid(unsafe_code)]

#[cfg(feature = "zones")]
mod built_in;
// Other programs over the library call what this one does not.
#[allow(dead_code, unused_imports)]
mod proved;
mod shim;
mod streams;

use proved::tz_query::query;
use std::ffi::OsString;
use std::process::ExitCode;
use std::{env, io};
use streams::Stream;
use tz::proved::tz::timezone::read_file;
use tz::shim::alloc::Global;
use tz::shim::rt::Machine;

/// The arguments after the program's name, or none if one of them is not text.
fn arguments() -> Vec<String> {
    let arguments = env::args_os().skip(1).map(OsString::into_string);
    arguments.collect::<Result<_, _>>().unwrap_or_default()
}

/// Answers the lines of the input over the zone that the arguments name, among the machine's files
/// if by a name, and returns the program's status.
fn answer_lines(arguments: &[&str]) -> u8 {
    let reader = |path: &str| read_file(&Machine, Global, path);
    let (mut input, mut out, mut err) = (Stream::input(), Stream::output(), io::stderr());
    #[cfg(feature = "zones")]
    if let Some(status) = built_in::answer(arguments, reader, &mut input, &mut out, &mut err) {
        return status;
    }
    let status = query::tool(Global, arguments, reader, &mut input, &mut out, &mut err);
    #[cfg(feature = "zones")]
    if let (["-z", text], 2) = (arguments, status) {
        built_in::print_nearest(text, reader, &mut err);
    }
    status
}

fn main() -> ExitCode {
    let arguments = arguments();
    let texts: Vec<&str> = arguments.iter().map(String::as_str).collect();
    ExitCode::from(answer_lines(&texts))
}
