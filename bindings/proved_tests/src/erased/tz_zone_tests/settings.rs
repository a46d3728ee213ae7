// Tests from crates/tz_zone_tests/src/settings.rt by bindings/erase. Change that file instead.
//! What the settings ask of the reader, and what they answer.

use crate::erased::tz_samples::faults::{Fault, named_by_settings as named};
use crate::erased::tz_samples::files::UTC_V1;
use crate::erased::tz_samples::refusing::Refusing;
use crate::erased::tz_zone_tests::expect::{expect_eq, expect_eq_at};
use crate::kit::anyhow;
use crate::kit::process::Abort;
use crate::kit::test::Fail;
use crate::kit::{self, BytesIn, String, TextIn, Vec, VecIn, format_in};
use std::cell::Cell;
use tz::proved::tz_base::error::{Error, ReadFault, TzStringError};
use tz::proved::tz_zone::timezone::{DEFAULT_DIRECTORIES, TimeZone, TimeZoneSettings};
use tz::shim::alloc::{AllocError, Allocator, Global};

/// Files in memory, and which of them were asked for: a digit for each, from 1 in their order, or 9
/// for another path.
///
/// The text lists them, separated by `, `: a path, and after a space `UTC` for a file of UTC, `cut`
/// for one that ends too early, `memory` for one that finds no memory, or `none` for no file.
struct Files<'a> {
    alloc: Global,
    text: &'a str,
    asked: Cell<u64>,
}

impl Files<'_> {
    /// Notes what was asked for.
    fn note(&self, digit: u64) {
        self.asked
            .set(self.asked.get().wrapping_mul(10).wrapping_add(digit));
    }

    /// The file at the path.
    fn read(&self, path: &str) -> Result<Vec<u8>, ReadFault> {
        let mut digit = 0u64;
        for file in self.text.split(", ") {
            digit = digit.saturating_add(1);
            let (name, reply) = file.rsplit_once(' ').unwrap_or((file, ""));
            if name == path {
                self.note(digit);
                return match reply {
                    "UTC" => Ok(Vec::from_slice(self.alloc, UTC_V1)?),
                    "cut" => Ok(Vec::from_slice(self.alloc, b"TZ")?),
                    "memory" => Err(ReadFault::Memory(AllocError)),
                    _ => Err(ReadFault::Failed(anyhow!("no file"))),
                };
            }
        }
        self.note(9);
        Err(ReadFault::Failed(anyhow!("no file")))
    }

    /// What settings with these directories answer for a text.
    fn ask(&self, directories: &[&str], text: &str) -> Result<TimeZone, Error> {
        let settings = TimeZoneSettings::new(directories, |path: &str| self.read(path));
        settings.parse_posix_tz(self.alloc, text)
    }

    /// What is answered for a text where the directories are the usual ones.
    fn ask_usual(&self, text: &str) -> Result<TimeZone, Error> {
        TimeZone::from_posix_tz(self.alloc, |path: &str| self.read(path), text)
    }

    /// What is answered for the machine's local time.
    fn ask_local(&self) -> Result<TimeZone, Error> {
        TimeZone::local(self.alloc, |path: &str| self.read(path))
    }
}

/// The files of a text, of which none was asked for.
fn files_of(alloc: Global, text: &str) -> Files<'_> {
    Files {
        alloc,
        text,
        asked: Cell::new(0),
    }
}

/// The offset and the name of a zone of one type, which is standard time, or the text of the
/// refusal.
fn answer_text(alloc: Global, answer: Result<TimeZone, Error>) -> Result<String, AllocError> {
    let zone = match answer {
        Ok(zone) => zone,
        Err(error) => return format_in!(alloc; "{error}"),
    };
    match zone.as_ref().local_time_types() {
        [only] if !only.is_dst() => {
            let name = only.time_zone_designation();
            format_in!(alloc; "{} {name}", only.ut_offset())
        }
        _ => String::from_str(alloc, "another zone"),
    }
}

/// The text is answered so.
fn expect_text(
    rt: &impl Abort,
    alloc: Global,
    text: &str,
    answer: Result<TimeZone, Error>,
    wanted: &str,
) -> Result<(), AllocError> {
    let found = answer_text(alloc, answer)?;
    expect_eq_at(rt, &text, &found.as_str(), &wanted);
    Ok(())
}

/// The directories that are asked.
#[derive(Clone, Copy)]
enum Directories {
    /// `/a`, `/b` and `/c`.
    Three,
    Usual,
}

/// The text is answered so, after these files were asked for.
fn expect_answer(
    rt: &impl Abort,
    files: &Files<'_>,
    directories: Directories,
    text: &str,
    wanted: &str,
    asked: u64,
) -> Result<(), AllocError> {
    let answer = match directories {
        Directories::Three => files.ask(&["/a", "/b", "/c"], text),
        Directories::Usual => files.ask_usual(text),
    };
    expect_text(rt, files.alloc, text, answer, wanted)?;
    expect_eq_at(rt, &text, &files.asked.get(), &asked);
    Ok(())
}

/// The parts of a row: files, a text, what is answered for it, and which files were asked for.
fn parts_of(row: &str) -> Result<(&str, &str, &str, u64), Fail> {
    let (files, rest) = row.split_once(" | ").ok_or("no text in a row")?;
    let (text, rest) = rest.split_once(" | ").ok_or("no answer in a row")?;
    let (answer, asked) = rest.split_once(" | ").ok_or("no digits in a row")?;
    Ok((files, text, answer, asked.parse::<u64>()?))
}

/// The text of each row is answered as the row says.
fn expect_answers(
    rt: &impl Abort,
    alloc: Global,
    directories: Directories,
    rows: &str,
) -> Result<(), Fail> {
    for row in rows.lines() {
        let (files, text, answer, asked) = parts_of(row)?;
        expect_answer(
            rt,
            &files_of(alloc, files),
            directories,
            text,
            answer,
            asked,
        )?;
    }
    Ok(())
}

#[test]
fn directories_are_asked_in_turn() -> Result<(), Fail> {
    let rt = kit::HostRuntime;

    static ROWS: &str = "\
/a/Z/x none, /b/Z/x UTC, /c/Z/x cut | Z/x | 0 UTC | 12
/a/Z/x none, /b/Z/x UTC, /c/Z/x cut | :Z/x | 0 UTC | 12
/a/Z/x memory, /b/Z/x UTC | Z/x | no memory | 1
/a/Z/x memory, /b/Z/x UTC | :Z/x | no memory | 1
/a/Z/x none, /b/Z/x none, /c/Z/x none | :Z/x | file was not found | 123
/a/Z/x none, /b/Z/x cut, /c/Z/x UTC | Z/x | invalid TZ file: unexpected end of data | 12
/a/HST10 cut, /b/HST10 UTC | HST10 | invalid TZ file: unexpected end of data | 1
/a/x none, /b/x none, /c/x memory | :x | no memory | 123
";
    expect_answers(&rt, rt.alloc(), Directories::Three, ROWS)
}

#[test]
fn a_text_is_read_where_no_file_is_found() -> Result<(), Fail> {
    let rt = kit::HostRuntime;

    static ROWS: &str = "\
/a/A0 none, /b/A0 none, /c/A0 none | A0 | 0 A | 123
/a/A0 none, /b/A0 memory, /c/A0 UTC | A0 | no memory | 12
nothing | HST10 | -36000 HST | 999
nothing | \t\r\x0cHST10  | -36000 HST | 999
nothing | EET-2EEST | invalid TZ string: missing DST start and end rules | 999
nothing | EST5EDT,0/0,J365/25 | invalid TZ string: invalid day time hour | 999
nothing |  | invalid TZ string: empty TZ string | 0
";
    expect_answers(&rt, rt.alloc(), Directories::Three, ROWS)?;
    let files = files_of(rt.alloc(), "nothing");
    expect_answer(
        &rt,
        &files,
        Directories::Three,
        " HST10\n",
        "-36000 HST",
        999,
    )?;
    Ok(())
}

/// What the reader returns for a path that is asked alone is passed on.
#[test]
fn an_absolute_path_is_asked_alone() -> Result<(), Fail> {
    let rt = kit::HostRuntime;

    static ROWS: &str = "\
/x UTC | /x | 0 UTC | 1
/x UTC | :/x | 0 UTC | 1
/x none | /x | invalid TZ string: cannot parse integer from empty string | 1
/x none | :/x | no file | 1
/x memory | /x | no memory | 1
/x memory | :/x | no memory | 1
nothing | :/x | no file | 9
nothing | :x | file was not found | 999
nothing | localtime | no file | 9
";
    expect_answers(&rt, rt.alloc(), Directories::Three, ROWS)
}

#[test]
fn local_time_has_its_file() -> Result<(), Fail> {
    let rt = kit::HostRuntime;

    static ROWS: &str = "\
/etc/localtime UTC | localtime | 0 UTC | 1
/etc/localtime UTC | /etc/localtime | 0 UTC | 1
/etc/localtime UTC | :/etc/localtime | 0 UTC | 1
/etc/localtime none | localtime | no file | 1
/etc/localtime memory | localtime | no memory | 1
";
    let alloc = rt.alloc();
    static REFUSED: [(&str, &str); 2] = [
        (
            "/etc/localtime cut",
            "invalid TZ file: unexpected end of data",
        ),
        ("/etc/localtime none", "no file"),
    ];
    expect_answers(&rt, alloc, Directories::Three, ROWS)?;
    for (text, refusal) in &REFUSED {
        let files = files_of(alloc, text);
        expect_text(&rt, alloc, text, files.ask_local(), refusal)?;
        expect_eq_at(&rt, text, &files.asked.get(), &1);
    }
    let files = files_of(alloc, "/etc/localtime UTC");
    expect_text(&rt, alloc, "local", files.ask_local(), "0 UTC")?;
    let settings = TimeZoneSettings::new(DEFAULT_DIRECTORIES, |path: &str| files.read(path));
    expect_text(&rt, alloc, "local", settings.parse_local(alloc), "0 UTC")?;
    expect_eq(&rt, &files.asked.get(), &11);
    Ok(())
}

/// Paths of 96 bytes, which need no memory, and longer ones.
#[test]
fn long_names_are_asked_in_turn() -> Result<(), Fail> {
    let rt = kit::HostRuntime;

    static ROWS: &str = "\
/a/Z/* none, /b/Z/* UTC, /c/Z/* cut | Z/* | 0 UTC | 12
/a/Z/* none, /b/Z/* UTC, /c/Z/* cut | :Z/* | 0 UTC | 12
/a/* UTC | * | 0 UTC | 1
/a/* UTC | /a/* | 0 UTC | 1
/a/* UTC | :* | 0 UTC | 1
";
    let alloc = rt.alloc();
    for length in [91, 92, 1000usize] {
        let letters = "x".repeat_in(alloc, length)?;
        let rows = ROWS.replace_in(alloc, "*", &letters)?;
        expect_answers(&rt, alloc, Directories::Three, &rows)?;
    }
    let spaced = format_in!(alloc; "{}HST10", " ".repeat_in(alloc, 1000)?)?;
    let files = files_of(alloc, "nothing");
    expect_answer(&rt, &files, Directories::Three, &spaced, "-36000 HST", 999)?;
    Ok(())
}

/// Only the bare name is that of the machine's local time, and a colon alone is a name without
/// bytes.
#[test]
fn other_names_are_looked_for() -> Result<(), Fail> {
    let rt = kit::HostRuntime;

    static ROWS: &str = "\
/a/localtime none, /b/localtime none, /c/localtime none, /etc/localtime UTC | :localtime | file was not found | 123
/a/localtime  none, /b/localtime  none, /c/localtime  none, /etc/localtime UTC | localtime  | \
    invalid TZ string: cannot parse integer from empty string | 123
/a/ none, /b/ none, /c/ none | : | file was not found | 123
";
    expect_answers(&rt, rt.alloc(), Directories::Three, ROWS)
}

#[test]
fn without_directories_only_paths_are_asked() -> Result<(), Fail> {
    let rt = kit::HostRuntime;

    static ROWS: [(&str, &str, u64); 3] = [
        ("HST10", "-36000 HST", 0),
        (":x", "file was not found", 0),
        ("/x", "0 UTC", 1),
    ];
    for (text, wanted, asked) in &ROWS {
        let files = files_of(rt.alloc(), "/x UTC");
        expect_text(&rt, rt.alloc(), text, files.ask(&[], text), wanted)?;
        expect_eq_at(&rt, text, &files.asked.get(), asked);
    }
    Ok(())
}

#[test]
fn the_usual_directories_are_asked_in_turn() -> Result<(), Fail> {
    let rt = kit::HostRuntime;

    static ROWS: &str = "\
/usr/share/zoneinfo/Z/x none, /share/zoneinfo/Z/x UTC, /etc/zoneinfo/Z/x memory | Z/x | 0 UTC | 12
/usr/share/zoneinfo/Z/x none, /share/zoneinfo/Z/x UTC, /etc/zoneinfo/Z/x memory | :Z/x | 0 UTC | 12
/usr/share/zoneinfo/Z/x none, /share/zoneinfo/Z/x memory, /etc/zoneinfo/Z/x UTC | Z/x | no memory | 12
/usr/share/zoneinfo/Z/x none, /share/zoneinfo/Z/x memory, /etc/zoneinfo/Z/x UTC | :Z/x | no memory | 12
/usr/share/zoneinfo/A0 none, /share/zoneinfo/A0 none, /etc/zoneinfo/A0 none | A0 | 0 A | 123
";
    expect_answers(&rt, rt.alloc(), Directories::Usual, ROWS)
}

/// Texts whose paths are longer than those that need no memory.
const LONG_TEXT: &str = "CET-1CEST,M3.5.0,M10.5.0/3                                                                                                    ";

const LONG_BAD_TEXT: &str = "EET-2EEST                                                                                                    ";

const LONG_MISSING_FILE: &str = ":Z/yyyyyyyyyyyyyyyyyyyyyyyyyyyyyyyyyyyyyyyyyyyyyyyyyyyyyyyyyyyyyyyyyyyyyyyyyyyyyyyyyyyyyyyyyyyyyyyyyyyy";

/// Calls whose growths are refused in turn.
#[derive(Clone, Copy, Debug)]
enum Call {
    Local,
    Text,
    SecondDirectory,
    LongText,
    LongBadText,
    LongMissingFile,
}

impl Call {
    /// The answer, with the memory of this heap.
    fn answer<A: Allocator + Copy>(self, alloc: Global, heap: A) -> Result<TimeZone<A>, Error> {
        let files = files_of(alloc, "/etc/localtime UTC, /b/Z/x UTC");
        let settings = TimeZoneSettings::new(&["/a", "/b"], |path: &str| files.read(path));
        match self {
            Call::Local => settings.parse_local(heap),
            Call::Text => TimeZone::from_posix_tz(
                heap,
                |path: &str| files.read(path),
                "CET-1CEST,M3.5.0,M10.5.0/3",
            ),
            Call::SecondDirectory => settings.parse_posix_tz(heap, "Z/x"),
            Call::LongText => settings.parse_posix_tz(heap, LONG_TEXT),
            Call::LongBadText => settings.parse_posix_tz(heap, LONG_BAD_TEXT),
            Call::LongMissingFile => settings.parse_posix_tz(heap, LONG_MISSING_FILE),
        }
    }
}

/// Each growth is refused in turn: the answer is an allocation failure or the zone, and the zone
/// once none is refused.
fn expect_zone(rt: &impl Abort, alloc: Global, call: Call) -> Result<(), Fail> {
    let ample = call.answer(alloc, alloc)?;
    let mut refusals = 0u64;
    for left in 0..20u64 {
        let heap = Refusing::new(alloc, left);
        match call.answer(alloc, &heap) {
            Ok(zone) => assert!(zone.as_ref() == ample.as_ref(), "{call:?} after {left}"),
            Err(error) => {
                expect_eq_at(rt, &(call, left), &named(error), &Fault::Memory);
                assert!(heap.refused() > 0, "{call:?} after {left}");
                refusals = refusals.saturating_add(1);
            }
        }
        expect_eq_at(rt, &(call, left), &heap.held(), &0);
    }
    assert!(refusals > 0 && refusals < 20, "{call:?}");
    Ok(())
}

/// Each growth is refused in turn: the answer is an allocation failure or the fault, and the fault
/// once none is refused.
fn expect_refusal(rt: &impl Abort, alloc: Global, call: Call, fault: &Fault) {
    let mut refusals = 0u64;
    for left in 0..20u64 {
        let heap = Refusing::new(alloc, left);
        let found = call.answer(alloc, &heap).err().map(named);
        if found == Some(Fault::Memory) {
            assert!(heap.refused() > 0, "{call:?} after {left}");
            refusals = refusals.saturating_add(1);
        } else {
            expect_eq_at(rt, &(call, left), &found.as_ref(), &Some(fault));
        }
        expect_eq_at(rt, &(call, left), &heap.held(), &0);
    }
    assert!(refusals > 0 && refusals < 20, "{call:?}");
}

#[test]
fn zones_with_each_growth_refused() -> Result<(), Fail> {
    let rt = kit::HostRuntime;

    expect_zone(&rt, rt.alloc(), Call::Local)?;
    expect_zone(&rt, rt.alloc(), Call::Text)?;
    expect_zone(&rt, rt.alloc(), Call::SecondDirectory)?;
    expect_zone(&rt, rt.alloc(), Call::LongText)
}

#[test]
fn refusals_with_each_growth_refused() {
    let rt = kit::HostRuntime;

    let no_rules = Fault::Text(TzStringError::MissingDstStartEndRules);
    expect_refusal(&rt, rt.alloc(), Call::LongBadText, &no_rules);
    expect_refusal(&rt, rt.alloc(), Call::LongMissingFile, &Fault::Io);
}

mod names;
