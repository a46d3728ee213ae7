//! Names of the tz database, with a file on the machine and without one.
//!
//! The program runs in a folder as its root, in which there are the program and the libraries that
//! it loads, and the files that a test puts there.
#![cfg(target_os = "linux")]

mod runner;

use std::io::Write;
use std::path::{Path, PathBuf};
use std::process::{Command, Output, Stdio};
use std::{fs, thread};

use runner::PROGRAM;

/// A file of UTC.
const UTC: &[u8] = b"TZif\0\0\0\0\0\0\0\0\0\0\0\0\0\0\0\0\
    \0\0\0\0\0\0\0\0\0\0\0\0\0\0\0\0\0\0\0\x01\0\0\0\x04\0\0\0\0\0\0UTC\0";

/// A folder that is the root of the program.
struct Root {
    folder: PathBuf,
    /// The words that run a command there.
    entering: &'static [&'static str],
}

impl Root {
    /// The root of a test, or none, with a reason on standard error, if this user can enter none.
    fn of(test: &str) -> Option<Root> {
        let folder = Path::new(env!("CARGO_TARGET_TMPDIR")).join(test);
        let _ = fs::remove_dir_all(&folder);
        let copy = |from: &str, to: &str| {
            let to = folder.join(to.trim_start_matches('/'));
            fs::create_dir_all(to.parent().unwrap()).unwrap();
            fs::copy(from, to).unwrap();
        };
        copy(PROGRAM, "/tzq");
        let libraries = Command::new("ldd").arg(PROGRAM).output();
        let libraries = libraries.map_or_else(|_| Vec::new(), |it| it.stdout);
        let libraries = String::from_utf8(libraries).unwrap();
        for path in libraries
            .split_whitespace()
            .filter(|it| it.starts_with('/'))
        {
            copy(path, path);
        }
        let ways: [&[&str]; 2] = [&["chroot"], &["unshare", "--map-root-user", "chroot"]];
        for entering in ways {
            let root = Root {
                folder: folder.clone(),
                entering,
            };
            if root
                .command(&["-o", "0"])
                .output()
                .is_ok_and(|it| it.status.success())
            {
                return Some(root);
            }
        }
        eprintln!("{test}: not tried, since this user can enter no other root, or run it there");
        None
    }

    /// The program in the root with these arguments, without an input.
    fn command(&self, arguments: &[&str]) -> Command {
        let mut command = Command::new(self.entering[0]);
        command
            .args(&self.entering[1..])
            .arg(&self.folder)
            .arg("/tzq");
        command
            .args(arguments)
            .env_clear()
            .env("PATH", "/usr/sbin:/usr/bin:/sbin:/bin");
        command.stdin(Stdio::null());
        command
    }

    /// What the program does in the root over the zone of the text.
    fn run(&self, text: &str, input: &str) -> Output {
        let mut command = self.command(&["-z", text]);
        command
            .stdin(Stdio::piped())
            .stdout(Stdio::piped())
            .stderr(Stdio::piped());
        let mut child = command.spawn().unwrap();
        let (mut pipe, input) = (child.stdin.take().unwrap(), input.to_owned());
        // A program that ends early leaves some of its input.
        let writer = thread::spawn(move || drop(pipe.write_all(input.as_bytes())));
        let output = child.wait_with_output().unwrap();
        writer.join().unwrap();
        output
    }

    /// Puts a file into the root.
    fn put(&self, path: &str, bytes: &[u8]) {
        let path = self.folder.join(path);
        fs::create_dir_all(path.parent().unwrap()).unwrap();
        fs::write(path, bytes).unwrap();
    }

    /// Fails unless the program in the root over the zone of the text has these texts and status.
    #[track_caller]
    fn expect(&self, text: &str, input: &str, out: &str, err: &str, status: i32) {
        let found = self.run(text, input);
        let texts = [found.stdout, found.stderr].map(|it| String::from_utf8(it).unwrap());
        let wanted = [out, err].map(String::from);
        assert_eq!(
            (texts, found.status.code()),
            (wanted, Some(status)),
            "{text}"
        );
    }
}

const SUMMER: &str = "T 1751328000 0\n";
const IN_UTC: &str = "2025-07-01T00:00:00.000000000Z UTC\n";
const NEW_YORK: &str = "America/New_York";
const CANNOT_READ: &str = "tzq: cannot read file\n";

/// The line of a text that is no TZ string.
fn refused(why: &str) -> String {
    format!("tzq: zone refused: invalid TZ string: {why}\n")
}

/// The line of the names that are nearest, if there are some.
fn near(names: &str) -> String {
    match names {
        "" => String::new(),
        _ if cfg!(not(feature = "zones")) => String::new(),
        _ => format!("tzq: no zone has this name; near it: {names}\n"),
    }
}

#[test]
fn a_file_comes_before_a_built_in_zone() {
    let Some(root) = Root::of("files") else {
        return;
    };
    root.put("usr/share/zoneinfo/Europe/Paris", UTC);
    root.put("etc/zoneinfo/GMT0", UTC);
    root.put("share/zoneinfo/Asia/Tokyo", &UTC[1..]);
    root.expect("Europe/Paris", SUMMER, IN_UTC, "", 0);
    root.expect("GMT0", SUMMER, IN_UTC, "", 0);
    let fault = "tzq: zone refused: invalid TZ file: invalid magic number\n";
    root.expect("Asia/Tokyo", SUMMER, "", fault, 2);
}

#[test]
fn only_names_have_built_in_zones() {
    let Some(root) = Root::of("others") else {
        return;
    };
    root.expect(
        "UTC+3",
        SUMMER,
        "2025-06-30T21:00:00.000000000-03:00 UTC\n",
        "",
        0,
    );
    for text in ["localtime", ":America/New_York", ":UTC"] {
        root.expect(text, SUMMER, "", CANNOT_READ, 1);
    }
    let digits = "cannot parse integer from empty string";
    let others = [
        ("america/new_york", "America/New_York"),
        ("America", "America/Merida"),
        ("/America/New_York", ""),
        ("America/New_York/", ""),
    ];
    for (text, names) in others {
        root.expect(text, SUMMER, "", &(refused(digits) + &near(names)), 2);
    }
    root.expect("", SUMMER, "", &refused("empty TZ string"), 2);
}

#[cfg(feature = "zones")]
mod built_in {
    use super::*;
    use std::fmt::Write;
    use tz::{DateTime, TimeZoneSettings};
    use tz_zones::{NAMES, VERSION, named};

    const IN_NEW_YORK: &str = "2025-06-30T20:00:00.000000000-04:00 EDT\n";

    #[test]
    fn a_name_is_answered_without_files() {
        let Some(root) = Root::of("no files") else {
            return;
        };
        root.expect(NEW_YORK, SUMMER, IN_NEW_YORK, "", 0);
        // A folder cannot be read.
        root.put("usr/share/zoneinfo/America/New_York/file", UTC);
        root.expect(NEW_YORK, SUMMER, IN_NEW_YORK, "", 0);
        root.expect("UTC", SUMMER, IN_UTC, "", 0);
        let lines = "F 2025 3 9 2 30 0 0\nF 2025 13 1 0 0 0 0\nx\n";
        let answers = "F 1\nS 2025-03-09T02:00:00.000000000-05:00 EST \
            2025-03-09T03:00:00.000000000-04:00 EDT\nE InvalidMonth\nE Line\n";
        root.expect("EST5EDT", lines, answers, "", 0);
    }

    #[test]
    fn each_name_has_its_zone() {
        let Some(root) = Root::of("names") else {
            return;
        };
        let instants = [-2_000_000_000, 0, 946_684_800, 1_751_328_000, 9_000_000_000];
        let lines: String = instants
            .map(|unix_time| format!("T {unix_time} 0\n"))
            .concat();
        for name in NAMES {
            let mut answers = String::new();
            for unix_time in instants {
                let shown = DateTime::from_timespec(unix_time, 0, named(name).unwrap()).unwrap();
                let designation = shown.local_time_type().time_zone_designation();
                writeln!(answers, "{shown} {designation}").unwrap();
            }
            root.expect(name, &lines, &answers, "", 0);
        }
    }

    /// So it does not matter which of the two comes first.
    #[test]
    fn a_name_that_is_a_tz_string_means_the_same_zone() {
        let settings = TimeZoneSettings::new(&[], |_| Err("no file".into()));
        let mut both = Vec::new();
        for name in NAMES {
            if let Ok(zone) = settings.parse_posix_tz(name) {
                assert_eq!(Some(zone.as_ref()), named(name));
                both.push(*name);
            }
        }
        assert_eq!(both, ["GMT+0", "GMT-0", "GMT0"]);
    }

    /// What has the form of a name and is none is answered by names that are near it: by letters, by its last part, in any case.
    #[test]
    fn a_name_that_no_zone_has() {
        let Some(root) = Root::of("near") else {
            return;
        };
        let digits = refused("cannot parse integer from empty string");
        for (text, names) in [
            ("Europe/Pariss", "Europe/Paris"),
            ("paris", "Europe/Paris"),
            ("New_York", "America/New_York"),
            ("America/Argentina/Ushuaya", "America/Argentina/Ushuaia"),
            ("US", "Australia/NSW, EST, Etc/UCT"),
        ] {
            root.expect(text, SUMMER, "", &(digits.clone() + &near(names)), 2);
        }
        let rules = refused("missing DST start and end rules");
        root.expect("EET-2EEST", "", "", &(rules + &near("EST5EDT")), 2);
        // Neither of these is a name, and a file of this name is no file of a zone.
        root.expect("New York", "", "", &digits, 2);
        root.expect(&"x".repeat(65), "", "", &digits, 2);
        root.put("usr/share/zoneinfo/Europe/Pariss", b"");
        let cut = "tzq: zone refused: invalid TZ file: unexpected end of data\n";
        root.expect("Europe/Pariss", "", "", cut, 2);
    }

    #[test]
    fn names_and_versions() {
        let run = |option| {
            let output = runner::program().arg(option).output().unwrap();
            assert_eq!((output.stderr, output.status.code()), (Vec::new(), Some(0)));
            String::from_utf8(output.stdout).unwrap()
        };
        assert_eq!(run("-l").lines().collect::<Vec<_>>(), NAMES);
        let release = env!("CARGO_PKG_VERSION");
        let version = format!("tzq {release}, with version {VERSION} of the tz database\n");
        assert_eq!(run("--version"), version);
    }

    /// What the usage shows is what the program prints.
    #[test]
    fn the_example_of_the_usage() {
        let output = runner::program().arg("--help").output().unwrap();
        let usage = String::from_utf8(output.stdout).unwrap();
        let (_, example) = usage.split_once("  $ echo '").unwrap();
        let (line, example) = example.split_once("' | tzq -z Europe/Paris\n").unwrap();
        let wanted: String = example
            .lines()
            .take_while(|line| !line.is_empty())
            .map(|line| format!("{}\n", line.trim()))
            .collect();
        let Some(root) = Root::of("usage") else {
            return;
        };
        root.expect("Europe/Paris", &format!("{line}\n"), &wanted, "", 0);
    }

    #[test]
    fn the_usage_says_that_zones_are_built_in() {
        let output = runner::program().arg("--help").output().unwrap();
        let usage = String::from_utf8(output.stdout).unwrap();
        assert!(usage.starts_with("usage: tzq OPTION VALUE\n"), "{usage}");
        assert!(usage.contains(&format!(
            "built-in zone of version {VERSION} of the tz database"
        )));
        assert_eq!((output.stderr, output.status.code()), (Vec::new(), Some(0)));
        let full = fs::File::options().write(true).open("/dev/full").unwrap();
        let output = runner::program()
            .arg("--help")
            .stdout(full)
            .output()
            .unwrap();
        let err = String::from_utf8(output.stderr).unwrap();
        assert_eq!(
            (&*err, output.status.code()),
            ("tzq: cannot write answers\n", Some(1))
        );
    }

    /// A run over a built-in zone fails as one over any other.
    #[test]
    fn faults_of_a_run() {
        let Some(root) = Root::of("faults") else {
            return;
        };
        let full = fs::File::options().write(true).open("/dev/full").unwrap();
        let mut command = root.command(&["-z", NEW_YORK]);
        command.stdin(fs::File::open(PROGRAM).unwrap()).stdout(full);
        let output = command.output().unwrap();
        let err = String::from_utf8(output.stderr).unwrap();
        assert_eq!(
            (&*err, output.status.code()),
            ("tzq: cannot write answers\n", Some(1))
        );
        let mut command = root.command(&["-z", NEW_YORK]);
        command.stdin(fs::File::open("/").unwrap());
        let output = command.output().unwrap();
        let err = String::from_utf8(output.stderr).unwrap();
        assert_eq!(
            (&*err, output.status.code()),
            ("tzq: cannot read queries\n", Some(1))
        );
        assert!(output.stdout.is_empty());
    }
}

/// As in the proved build.
#[cfg(not(feature = "zones"))]
#[test]
fn a_name_without_a_file_is_read_as_a_tz_string() {
    let Some(root) = Root::of("no files") else {
        return;
    };
    root.expect(
        NEW_YORK,
        SUMMER,
        "",
        &refused("cannot parse integer from empty string"),
        2,
    );
    root.expect(
        "UTC",
        SUMMER,
        "",
        &refused("cannot parse integer from empty string"),
        2,
    );
    root.expect(
        "EST5EDT",
        SUMMER,
        "",
        &refused("missing DST start and end rules"),
        2,
    );
    root.expect(
        "GMT0",
        SUMMER,
        "2025-07-01T00:00:00.000000000Z GMT\n",
        "",
        0,
    );
}
