// Tests from crates/tz_samples/src/tz_strings.rt by bindings/erase. Change that file instead.
//! The zones and the rules that TZ strings denote.

use crate::erased::tz_samples::files::without_transitions;
use crate::kit::anyhow;
use crate::kit::format_in;
use tz::proved::tz_base::error::{Error, ReadFault, TzError};
use tz::proved::tz_zone::timezone::{TimeZone, TransitionRule};
use tz::shim::alloc::Global;

/// The zone that the settings read in an ordinary text, where no file can be read.
fn ordinary_zone(alloc: Global, text: &str) -> Result<TimeZone, Error> {
    let no_file = |_: &str| Err(ReadFault::Failed(anyhow!("no file")));
    TimeZone::from_posix_tz(alloc, no_file, text)
}

/// The rule of an ordinary text.
pub fn ordinary_rule(alloc: Global, text: &str) -> Result<Option<TransitionRule>, Error> {
    let zone = ordinary_zone(alloc, text)?;
    Ok(*zone.as_ref().extra_rule())
}

/// The zone of a file of version 3 with one type, UTC, and this footer, where day times are of up
/// to a week.
pub fn extended_zone(alloc: Global, text: &str) -> Result<TimeZone, TzError> {
    let footer = format_in!(alloc; "\n{text}\n")?;
    let bytes = without_transitions(alloc, b'3', footer.as_bytes())?;
    TimeZone::from_tz_data(alloc, &bytes)
}

/// The rule that such a file has in its footer.
pub fn extended_rule(alloc: Global, text: &str) -> Result<Option<TransitionRule>, TzError> {
    let zone = extended_zone(alloc, text)?;
    Ok(*zone.as_ref().extra_rule())
}

/// The zone of `CET-1CEST,M3.5.0,M10.5.0/3`.
pub fn central_europe_zone(alloc: Global) -> Result<TimeZone, Error> {
    ordinary_zone(alloc, "CET-1CEST,M3.5.0,M10.5.0/3")
}
