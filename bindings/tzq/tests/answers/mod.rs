//! What the proved program answered to some thousand lines over three zones, this one answers too,
//! byte for byte. `diff/answers` makes the lines, and the gate of the proofs runs them over both
//! builds of that program.

use super::runner;
use std::fs::{self, File};
use std::path::Path;

/// Compares the answers to the lines of a program's folder over a zone.
#[track_caller]
fn check(name: &str, arguments: [&str; 2]) {
    let folder = Path::new(env!("CARGO_MANIFEST_DIR"))
        .join("../../crates")
        .join(name);
    let files = folder.join("data");
    let found = runner::program()
        .args(arguments)
        .current_dir(if files.is_dir() { &files } else { &folder })
        .stdin(File::open(folder.join("stdin")).unwrap())
        .output()
        .unwrap();
    assert!(found.status.success() && found.stderr.is_empty());
    let expected = fs::read(folder.join("stdout")).unwrap();
    let lines =
        |bytes: &[u8]| -> Vec<Vec<u8>> { bytes.split(|&b| b == b'\n').map(Vec::from).collect() };
    for (number, (found, expected)) in lines(&found.stdout)
        .iter()
        .zip(lines(&expected))
        .enumerate()
    {
        assert_eq!(
            String::from_utf8_lossy(found),
            String::from_utf8_lossy(&expected),
            "line {} of stdout",
            number + 1
        );
    }
    assert!(found.stdout == expected);
}

#[test]
fn answers_over_a_file() {
    check("tzq_file", ["-f", "Paris"]);
}

#[test]
fn answers_over_a_tz_string() {
    check("tzq_string", ["-z", "<+1030>-10:30<+11>-11,M10.1.0,M4.1.0"]);
}

#[test]
fn answers_over_a_file_with_leap_seconds() {
    check("tzq_leap", ["-f", "leap"]);
}
