//! What the check of zones refuses: altered constants, which do not compile, and slim files.

use std::io::Write;
use std::path::{Path, PathBuf};
use std::process::{Command, Output};
use std::{env, fs};

use tz::error::TzError;
use tz::error::timezone::TimeZoneError;
use tz::timezone::{AlternateTime, MonthWeekDay, RuleDay, Transition, TransitionRule};
use tz::{LocalTimeType, TimeZone, TimeZoneRef};
use tz_zones::america::OJINAGA;

/// A file of the package's zones.
const FILE: &str = "src/zones/asia.rs";

/// A copy of this package, in which that file can be altered.
struct Package(PathBuf);

impl Package {
    fn new() -> Package {
        let from = Path::new(env!("CARGO_MANIFEST_DIR"));
        let to = Path::new(env!("CARGO_TARGET_TMPDIR")).join("altered");
        copy_folder(&from.join("src"), &to.join("src"));
        fs::copy(from.join("README.md"), to.join("README.md")).unwrap();
        let tz = from.with_file_name("rust");
        let manifest = format!(
            "[package]\nname = \"tz-zones\"\nedition = \"2024\"\n[workspace]\n\
             [dependencies]\ntz = {{ path = {tz:?}, default-features = false }}\n"
        );
        fs::write(to.join("Cargo.toml"), manifest).unwrap();
        Package(to)
    }

    /// Compiles it with this text of the file.
    fn compile(&self, text: &str) -> Output {
        fs::write(self.0.join(FILE), text).unwrap();
        let mut cargo = Command::new(env::var_os("CARGO").unwrap_or_else(|| "cargo".into()));
        cargo.args(["check", "--offline", "--quiet", "--target-dir", "target"]);
        cargo.current_dir(&self.0).output().unwrap()
    }
}

fn copy_folder(from: &Path, to: &Path) {
    fs::create_dir_all(to).unwrap();
    for entry in fs::read_dir(from).unwrap() {
        let path = entry.unwrap().path();
        let target = to.join(path.file_name().unwrap());
        if path.is_dir() {
            copy_folder(&path, &target);
        } else {
            fs::copy(path, target).unwrap();
        }
    }
}

/// The text of the file up to the table of Tokyo, from it on, and the pairs of the table.
fn tokyo() -> (String, String, Vec<(i64, usize)>) {
    let path = Path::new(env!("CARGO_MANIFEST_DIR")).join(FILE);
    let text = fs::read_to_string(path).unwrap();
    let (start, rest) = text.split_at(text.find("static TOKYO_TABLE: ").unwrap());
    let (_, pairs) = rest.split_once("table([").unwrap();
    let (pairs, _) = pairs.split_once("]);").unwrap();
    let pairs = pairs.split_terminator("),").filter_map(|pair| {
        let (time, index) = pair.trim().strip_prefix('(')?.split_once(", ")?;
        Some((time.parse().ok()?, index.parse().ok()?))
    });
    (start.to_string(), rest.to_string(), pairs.collect())
}

#[test]
fn altered_constants_do_not_compile() {
    let (start, rest, pairs) = tokyo();
    let last = pairs.len() - 1;
    let package = Package::new();
    let same = package.compile(&format!("{start}{rest}"));
    assert!(same.status.success(), "{}", first_lines(&same));

    for (what, place, pair) in [
        ("not after the one before", 1, (pairs[0].0, pairs[1].1)),
        ("to a type that is not there", 0, (pairs[0].0, 99)),
        ("not to the type of the rule", last, (pairs[last].0, 0)),
    ] {
        let [old, new] = [pairs[place], pair].map(|(time, index)| format!("({time}, {index}),"));
        let altered = rest.replacen(&old, &new, 1);
        assert_ne!(altered, rest, "{what}");
        let output = package.compile(&format!("{start}{altered}"));
        let lines = first_lines(&output);
        assert!(!output.status.success(), "a transition {what} compiles");
        assert!(lines.contains("E0080"), "{what}: {lines}");
        assert!(lines.contains("the check refuses"), "{what}: {lines}");
    }
}

/// The first lines of the compiler's first error: there is one for each constant.
fn first_lines(output: &Output) -> String {
    let text = String::from_utf8_lossy(&output.stderr);
    let lines = text.lines().skip_while(|line| !line.starts_with("error"));
    let lines = lines.take(12).map(|line| line.chars().take(120));
    lines.map(|line| line.collect::<String>() + "\n").collect()
}

fn is_refused<T>(zone: Result<T, TzError>) -> bool {
    let Err(error) = zone else { return false };
    matches!(
        error,
        TzError::TimeZone(TimeZoneError::InconsistentExtraRule)
    )
}

/// The end of America/Ojinaga as `zic -b slim` of Debian 12 writes it: at 2022-10-30T08:00:00Z
/// clocks go to CST, and the rule follows, which has CDT until 2022-11-06. But the zone stays on
/// CST until 2023-03-12.
#[test]
fn slim_ojinaga_is_refused() {
    let local = |ut_offset, is_dst, name: &str| {
        LocalTimeType::new(ut_offset, is_dst, Some(name.as_bytes())).unwrap()
    };
    let (cst, cdt) = (local(-21_600, false, "CST"), local(-18_000, true, "CDT"));
    let types = [
        local(-25_200, false, "MST"),
        local(-21_600, true, "MDT"),
        cst,
        cdt,
    ];
    let sunday = |month, week| RuleDay::MonthWeekDay(MonthWeekDay::new(month, week, 0).unwrap());
    let rule = AlternateTime::new(cst, cdt, sunday(3, 2), 7200, sunday(11, 1), 7200).unwrap();
    let rule = Some(TransitionRule::Alternate(rule));
    let slim = [
        Transition::new(1_648_972_800, 1),
        Transition::new(1_667_116_800, 2),
    ];
    assert!(is_refused(TimeZoneRef::new(&slim, &types, &[], &rule)));
    // The constant has one more transition, from which on the rule is the law.
    let [.., october, march] = OJINAGA.transitions() else {
        panic!("OJINAGA has a table")
    };
    assert_eq!(october.unix_leap_time(), slim[1].unix_leap_time());
    let fat = [slim[0], slim[1], Transition::new(march.unix_leap_time(), 3)];
    assert!(TimeZoneRef::new(&fat, &types, &[], &rule).is_ok());
    assert_eq!(OJINAGA.extra_rule(), &rule);
}

/// The same of the file that `zic -b slim` makes of the machine's text, if it has both: where `zic`
/// writes what the zone does in that week, the file is one of the constant's clock.
#[test]
fn slim_ojinaga_of_zic_is_refused_or_right() {
    let text = Path::new("/usr/share/zoneinfo/tzdata.zi");
    let folder = Path::new(env!("CARGO_TARGET_TMPDIR")).join("slim");
    let path = env::var("PATH").unwrap_or_default() + ":/usr/sbin";
    let mut zic = Command::new("zic");
    zic.env("PATH", path)
        .args(["-b", "slim", "-d"])
        .arg(&folder)
        .arg(text);
    match zic.output() {
        Ok(output) if output.status.success() => {
            let bytes = fs::read(folder.join("America/Ojinaga")).unwrap();
            let file = TimeZone::from_tz_data(&bytes);
            let in_week =
                |zone: TimeZoneRef<'_>| *zone.find_local_time_type(1_667_200_000).unwrap();
            let right = |file: &TimeZone| in_week(file.as_ref()) == in_week(OJINAGA);
            assert!(file.as_ref().is_ok_and(right) || is_refused(file));
        }
        _ => std::io::stderr()
            .write_all(b"skipped: no zic, or no tzdata.zi\n")
            .unwrap(),
    }
}
