//! The zones of the machine's files: of the folder TZDIR, or /usr/share/zoneinfo.

use std::io::Write;
use std::path::{Path, PathBuf};
use std::{env, fs};

use tz::{TimeZone, TimeZoneRef};
use tz_zones::{NAMES, VERSION, named};

/// The folder, if the constants are of its files. If it has slim files, or files of another
/// version, a line on standard error says so, or the test fails where `bindings/zones/test` has
/// found the folder's version in the sources.
pub fn folder() -> Option<PathBuf> {
    let folder = env::var_os("TZDIR").unwrap_or_else(|| "/usr/share/zoneinfo".into());
    let folder = PathBuf::from(folder);
    let version = version_of(&folder).unwrap_or_default();
    let reason = match fs::read(folder.join("Europe/Paris")) {
        Err(_) => "it has no zones".to_string(),
        Ok(_) if version != VERSION => format!("its version is {version:?}, not {VERSION}"),
        // The number of transitions in the first block, which is empty in slim files.
        Ok(bytes) if bytes[32..36] == [0; 4] => "its files are slim".to_string(),
        Ok(_) => return Some(folder),
    };
    let is_compared = env::var_os("TZ_ZONES_COMPARED").is_some();
    assert!(!is_compared, "{}: {reason}", folder.display());
    // Not by a macro, whose lines the test harness keeps for tests that fail.
    let line = format!("skipped {}: {reason}\n", folder.display());
    std::io::stderr().write_all(line.as_bytes()).unwrap();
    None
}

/// What +VERSION or the first line of tzdata.zi says.
fn version_of(folder: &Path) -> Option<String> {
    if let Ok(text) = fs::read_to_string(folder.join("+VERSION")) {
        return Some(text.trim().to_string());
    }
    let text = fs::read_to_string(folder.join("tzdata.zi")).ok()?;
    let version = text.lines().next()?.strip_prefix("# version ")?;
    Some(version.to_string())
}

/// The zone of a name's file in the folder TZDIR or /usr/share/zoneinfo, of any version, if there
/// is one.
#[allow(dead_code)]
pub fn zone(name: &str) -> Option<TimeZone> {
    let folder = env::var_os("TZDIR").unwrap_or_else(|| "/usr/share/zoneinfo".into());
    let bytes = fs::read(Path::new(&folder).join(name)).ok()?;
    Some(TimeZone::from_tz_data(&bytes).expect(name))
}

/// Each name with its constant and the zone of its file; none if the folder is skipped.
pub fn zones() -> impl Iterator<Item = (&'static str, TimeZoneRef<'static>, TimeZone)> {
    folder().into_iter().flat_map(|folder| {
        NAMES.iter().map(move |name| {
            let bytes = fs::read(folder.join(name)).expect(name);
            let file = TimeZone::from_tz_data(&bytes).expect(name);
            (*name, named(name).expect(name), file)
        })
    })
}
