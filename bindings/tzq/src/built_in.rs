//! What the program knows of the tz database: zones of which the machine has no file, and names; and
//! what it says of itself.

use crate::proved::tz_query::query::program::{fail, line_of};
use crate::proved::tz_query::query::{self, RunFault};
use std::io::{Read, Write};
use tz::proved::tz::error::{Error, ReadFault};
use tz::proved::tz::timezone::TimeZone;
use tz::shim::Vec as Bytes;
use tz::shim::alloc::Global;
use tz::timezone::is_zone_name;
use tz_zones::{NAMES, VERSION};

/// The program's version.
const RELEASE: &str = env!("CARGO_PKG_VERSION");

/// A function that reads the file at a path.
type Reader = fn(&str) -> Result<Bytes<u8>, ReadFault>;

/// Whether the text is no name of a file of zones that can be read.
fn has_no_file(text: &str, reader: Reader) -> bool {
    // A file is only looked for here: that it is one of a zone is seen when the zone is made of it.
    let finder = |path: &str| reader(path).map(|_| Bytes::new(Global));
    matches!(TimeZone::named(Global, finder, text), Err(Error::Io(_)))
}

/// Answers what only this program knows, and returns its status: lines over a built-in zone of which
/// no file can be read, its usage, its version and the names of zones.
pub fn answer(
    arguments: &[&str],
    reader: Reader,
    input: &mut impl Read,
    out: &mut impl Write,
    err: &mut impl Write,
) -> Option<u8> {
    let text = match arguments {
        ["--help"] => include_str!("usage.txt").replace("{VERSION}", VERSION),
        ["--version"] => format!("tzq {RELEASE}, with version {VERSION} of the tz database\n"),
        ["-l"] => NAMES.join("\n") + "\n",
        ["-z", text] => {
            let zone = tz_zones::named(text).filter(|_| has_no_file(text, reader))?;
            let run = query::run(Global, zone, input, out);
            return Some(run.map_or_else(|fault| fail(err, line_of(fault)), |()| 0));
        }
        _ => return None,
    };
    let written = out.write_all(text.as_bytes());
    Some(written.map_or_else(|_| fail(err, line_of(RunFault::Write)), |()| 0))
}

/// The bytes to insert, remove or replace until one text is the other, whatever the case of letters.
fn distance(text: &str, name: &str) -> usize {
    let mut row: Vec<usize> = (0..=name.len()).collect();
    for byte in text.bytes() {
        let mut corner = row[0];
        row[0] += 1;
        for (place, other) in name.bytes().enumerate() {
            let replaced = corner + usize::from(!byte.eq_ignore_ascii_case(&other));
            corner = row[place + 1];
            row[place + 1] = replaced.min(corner + 1).min(row[place] + 1);
        }
    }
    row[name.len()]
}

/// Says of a text that is no TZ string that no zone has it as its name, and the nearest names, if it
/// has the form of one.
pub fn print_nearest(text: &str, reader: Reader, err: &mut impl Write) {
    if !is_zone_name(text) || text.len() > 64 || !has_no_file(text, reader) {
        return;
    }
    let far = |name: &&&str| {
        let last = name.rsplit('/').next().unwrap_or(name);
        distance(text, name).min(distance(text, last))
    };
    let least = NAMES.iter().map(|name| far(&name)).min();
    let nearest = NAMES.iter().filter(|name| Some(far(name)) == least);
    let nearest = nearest.take(3).copied().collect::<Vec<_>>().join(", ");
    // Nothing is left to say it by if this cannot be written.
    let _ = writeln!(err, "tzq: no zone has this name; near it: {nearest}");
}
