//! The built program: its arguments, texts, statuses and streams.

mod answers;
mod runner;

use std::ffi::OsStr;
use std::io::Write;
use std::path::PathBuf;
use std::process::{Command, Output, Stdio};
use std::{fs, thread};

/// The program with these arguments.
fn program<S: AsRef<OsStr>>(arguments: &[S]) -> Command {
    let mut program = runner::program();
    program.args(arguments);
    program
}

/// What the program does with these arguments and this input.
fn run<S: AsRef<OsStr>>(arguments: &[S], input: &[u8]) -> Output {
    let mut program = program(arguments);
    program
        .stdin(Stdio::piped())
        .stdout(Stdio::piped())
        .stderr(Stdio::piped());
    let mut child = program.spawn().unwrap();
    let (mut pipe, input) = (child.stdin.take().unwrap(), input.to_vec());
    // A program that ends early leaves some of its input.
    let writer = thread::spawn(move || drop(pipe.write_all(&input)));
    let output = child.wait_with_output().unwrap();
    writer.join().unwrap();
    output
}

/// Fails unless the output is these texts and this status.
#[track_caller]
fn expect(found: &Output, out: &str, err: &str, status: i32) {
    let texts = (
        String::from_utf8_lossy(&found.stdout),
        String::from_utf8_lossy(&found.stderr),
    );
    assert_eq!(
        (&*texts.0, &*texts.1, found.status.code()),
        (out, err, Some(status))
    );
}

/// A file with these bytes, and its path.
fn file(name: &str, bytes: &[u8]) -> PathBuf {
    let path = PathBuf::from(env!("CARGO_TARGET_TMPDIR")).join(name);
    fs::write(&path, bytes).unwrap();
    path
}

/// A TZif file of UTC.
const UTC: &[u8] = b"TZif\0\0\0\0\0\0\0\0\0\0\0\0\0\0\0\0\
    \0\0\0\0\0\0\0\0\0\0\0\0\0\0\0\0\0\0\0\x01\0\0\0\x04\0\0\0\0\0\0UTC\0";

const CENTRAL_EUROPE: [&str; 2] = ["-z", "CET-1CEST,M3.5.0,M10.5.0/3"];

#[test]
fn each_option_names_a_zone() {
    expect(
        &run(&["-o", "-3600"], b"T 0 7\n"),
        "1969-12-31T23:00:00.000000007-01:00 -\n",
        "",
        0,
    );
    expect(
        &run(&["-z", "HST10"], b"T 0 0\n"),
        "1969-12-31T14:00:00.000000000-10:00 HST\n",
        "",
        0,
    );
    let path = file("utc", UTC);
    expect(
        &run(&["-f".as_ref(), path.as_os_str()], b"T 0 0\n"),
        "1970-01-01T00:00:00.000000000Z UTC\n",
        "",
        0,
    );
    expect(
        &run(&["-z".as_ref(), path.as_os_str()], b"T 0 0\n"),
        "1970-01-01T00:00:00.000000000Z UTC\n",
        "",
        0,
    );
}

#[test]
fn each_kind_of_line_is_answered() {
    let lines = b"T 946684800 123456789\nF 2000 3 26 2 30 0 0\nF 2000 10 29 2 30 0 0\n\
        W 1 2000 1 1 0 0 0 0\nF 2000 13 1 0 0 0 0\nT 0 1000000000\nT 0\n\n";
    let answers = "2000-01-01T01:00:00.123456789+01:00 CET\n\
        F 1\nS 2000-03-26T02:00:00.000000000+01:00 CET 2000-03-26T03:00:00.000000000+02:00 CEST\n\
        F 2\nN 2000-10-29T02:30:00.000000000+02:00 CEST\n\
        N 2000-10-29T02:30:00.000000000+01:00 CET\n\
        W 1\nF 1\nN 2000-01-01T00:00:00.000000000+01:00 CET\n\
        E InvalidMonth\nE InvalidNanoseconds\nE Line\nE Line\n";
    expect(&run(&CENTRAL_EUROPE, lines), answers, "", 0);
}

#[test]
fn the_ends_of_an_input() {
    expect(&run(&["-o", "0"], b""), "", "", 0);
    expect(&run(&["-o", "0"], b"\n"), "E Line\n", "", 0);
    expect(
        &run(&["-o", "0"], b"T 0 0"),
        "1970-01-01T00:00:00.000000000Z -\n",
        "",
        0,
    );
    let before = b"T 1 0\n".repeat(100);
    let found = run(&["-o", "0"], &[&before[..], b"T 0 0"].concat());
    let last =
        "1970-01-01T00:00:01.000000000Z -\n".repeat(100) + "1970-01-01T00:00:00.000000000Z -\n";
    expect(&found, &last, "", 0);
}

/// Usual lines are read another way than others, and only where more bytes follow.
#[test]
fn lines_have_one_answer_wherever_they_stand() {
    let lines = [
        "T 0 0",
        "T -1 999999999",
        "T 1234567890 5",
        "T 99999999999 1",
        "T 0012345678 000000001",
        "T -0 -0",
        "T 1234567 12345678",
        "T 9223372036854775807 0",
        "T -9223372036854775808 0",
        "T 9223372036854775808 0",
        "T 67767976233532799 0",
        "T 67767976233532800 0",
        "T 123456789012345678 0",
        "T 1234567890123456789 0",
        "T 12345678901234567890123 0",
        "T 0 1000000000",
        "T 0 4294967296",
        "T  0 0",
        "T 0 0 ",
        "T 0 0x",
        "T 0:0",
        "T / 0",
        "T : 0",
        "T 1234567: 0",
        "F 2000 1 1 0 0 0 0",
        "F 1 1 1 1 1 1 1",
        "F 02000 01 01 00 00 00 000000000",
        "F -1 12 31 23 59 59 1",
        "F 2000 001 1 0 0 0 0",
        "F 2147483647 12 31 23 59 59 0",
        "F 2147483648 1 1 0 0 0 0",
        "F 2000 256 1 0 0 0 0",
        "F 2016 12 31 23 59 60 0",
        "W 0 2000 1 1 0 0 0 0",
        "W 2 2000 1 1 0 0 0 0",
        "W 256 2000 1 1 0 0 0 0",
        "X",
        "",
        " ",
        "T",
        "\u{e9}",
    ];
    for line in lines {
        let alone = run(&["-o", "3600"], format!("{line}\n").as_bytes());
        let followed = run(
            &["-o", "3600"],
            format!("{line}\n{}\n", "x".repeat(60)).as_bytes(),
        );
        let alone = String::from_utf8(alone.stdout).unwrap();
        expect(&followed, &(alone.clone() + "E Line\n"), "", 0);
        assert!(!alone.is_empty(), "{line}");
    }
}

/// Lines of usual numbers, each with any byte in any place, beside the same lines with so many
/// zeros before their first number that they are read the other way.
#[test]
fn zeros_before_a_number_change_no_answer() {
    let usual = [
        "T 1729990245 123456789",
        "T -62135596800 1234",
        "F 2024 10 27 2 30 45 123456789",
        "F -1 2 29 23 59 5 1234567",
    ];
    for line in usual {
        let (mut lines, mut longer) = (Vec::new(), Vec::new());
        for place in 0..line.len() {
            for byte in 0..=u8::MAX {
                let mut line = line.as_bytes().to_vec();
                line[place] = byte;
                line.push(b'\n');
                lines.extend_from_slice(&line);
                let first_digit = if line[2] == b'-' { 3 } else { 2 };
                longer.extend_from_slice(&line[..first_digit]);
                longer.extend_from_slice(&[b'0'; 20]);
                longer.extend_from_slice(&line[first_digit..]);
            }
        }
        let [found, expected] = [lines, longer].map(|mut lines| {
            lines.resize(lines.len() + 60, b'x');
            String::from_utf8(run(&["-o", "3600"], &lines).stdout).unwrap()
        });
        for (found, expected) in found.lines().zip(expected.lines()) {
            assert_eq!(found, expected, "{line}");
        }
        assert_eq!(found.len(), expected.len(), "{line}");
    }
}

#[test]
fn bad_arguments_are_refused_before_input_is_read() {
    let bad: &[&[&str]] = &[
        &[],
        &["-o"],
        &["-f"],
        &["-z"],
        &["-o", "1", "2"],
        &["-x", "1"],
        &["", ""],
        &["-o", ""],
        &["-o", "+1"],
        &["-o", "1 "],
        &["-o", "2147483648"],
        &["-o", "-2147483649"],
        #[cfg(not(feature = "zones"))]
        &["--help"],
        #[cfg(not(feature = "zones"))]
        &["--version"],
        #[cfg(not(feature = "zones"))]
        &["-l"],
        &["--help", "x"],
        &["-l", "x"],
        &["-h"],
        &["-o=1"],
    ];
    for &arguments in bad {
        expect(&run(arguments, b"T 0 0\n"), "", "tzq: bad arguments\n", 1);
    }
}

#[cfg(unix)]
#[test]
fn an_argument_that_is_no_text_is_bad() {
    use std::os::unix::ffi::OsStrExt;
    let bad = OsStr::from_bytes(b"-\xff");
    for option in ["-f", "-z", "-o"] {
        let [option, value] = [option, "0"].map(OsStr::new);
        // In each place, also beside arguments that name a zone.
        for arguments in [
            &[option, bad][..],
            &[bad, option],
            &[option, value, bad],
            &[option, bad, value],
            &[bad, option, value],
        ] {
            expect(&run(arguments, b"T 0 0\n"), "", "tzq: bad arguments\n", 1);
        }
    }
    let help = OsStr::new("--help");
    for arguments in [[help, bad], [bad, help]] {
        expect(&run(&arguments, b""), "", "tzq: bad arguments\n", 1);
    }
}

#[test]
fn a_zone_that_is_refused_has_status_2() {
    let refused = "tzq: zone refused: ";
    let offset = format!("{refused}invalid local time type: invalid UTC offset\n");
    expect(&run(&["-o", "-2147483648"], b"T 0 0\n"), "", &offset, 2);
    let text = format!("{refused}invalid TZ string: missing DST start and end rules\n");
    expect(&run(&["-z", "<EET>-2<EEST>"], b"T 0 0\n"), "", &text, 2);
    let empty = format!("{refused}invalid TZ string: empty TZ string\n");
    expect(&run(&["-z", ""], b"T 0 0\n"), "", &empty, 2);
    let path = file("cut", &UTC[..UTC.len() - 1]);
    let cut = format!("{refused}invalid TZ file: unexpected end of data\n");
    expect(
        &run(&["-f".as_ref(), path.as_os_str()], b"T 0 0\n"),
        "",
        &cut,
        2,
    );
}

#[test]
fn a_file_that_cannot_be_read_has_status_1() {
    let folder = env!("CARGO_TARGET_TMPDIR");
    let none = format!("{folder}/no such file");
    let colon = format!(":{none}");
    for arguments in [
        ["-f", &none],
        ["-f", folder],
        ["-f", ""],
        ["-z", &colon],
        ["-z", ":UTC0"],
    ] {
        expect(
            &run(&arguments, b"T 0 0\n"),
            "",
            "tzq: cannot read file\n",
            1,
        );
    }
}

/// Answers of more bytes than a pipe holds.
#[cfg(unix)]
fn many_lines() -> Vec<u8> {
    b"T 0 0\n".repeat(20_000)
}

#[cfg(unix)]
mod streams {
    use super::*;
    use std::fs::File;
    use std::io::Read;
    use std::process::Child;

    const CANNOT_READ: &str = "tzq: cannot read queries\n";
    const CANNOT_WRITE: &str = "tzq: cannot write answers\n";

    /// The program over a fixed offset, with pipes to it.
    fn started() -> Child {
        let mut program = program(&["-o", "0"]);
        program
            .stdin(Stdio::piped())
            .stdout(Stdio::piped())
            .stderr(Stdio::piped());
        program.spawn().unwrap()
    }

    /// What the program over a fixed offset does with these streams.
    fn with_streams(input: File, out: File) -> Output {
        program(&["-o", "0"])
            .stdin(input)
            .stdout(out)
            .stderr(Stdio::piped())
            .output()
            .unwrap()
    }

    fn null() -> File {
        File::options()
            .read(true)
            .write(true)
            .open("/dev/null")
            .unwrap()
    }

    #[test]
    fn an_input_that_cannot_be_read() {
        let folder = File::open("/").unwrap();
        expect(&with_streams(folder, null()), "", CANNOT_READ, 1);
        let only_written = File::options().write(true).open("/dev/null").unwrap();
        expect(&with_streams(only_written, null()), "", CANNOT_READ, 1);
    }

    #[test]
    fn an_output_that_cannot_be_written() {
        let lines = file("lines", &many_lines());
        let only_read = File::open("/dev/null").unwrap();
        expect(
            &with_streams(File::open(&lines).unwrap(), only_read),
            "",
            CANNOT_WRITE,
            1,
        );
        // Nothing is written where nothing is asked.
        let only_read = File::open("/dev/null").unwrap();
        expect(&with_streams(null(), only_read), "", "", 0);
    }

    #[test]
    fn a_reader_of_the_answers_that_leaves() {
        let mut child = started();
        let mut pipe = child.stdin.take().unwrap();
        drop(child.stdout.take());
        pipe.write_all(&many_lines()).unwrap();
        drop(pipe);
        expect(&child.wait_with_output().unwrap(), "", CANNOT_WRITE, 1);
    }

    /// Before `main` std opens `/dev/null` in the place of a closed stream.
    #[test]
    fn closed_streams_are_those_of_the_null_device() {
        let command = |closed: &str| {
            let mut shell = Command::new("sh");
            shell.args([
                "-c",
                &format!("exec $TZQ_RUNNER \"$0\" -o 0 {closed}"),
                runner::PROGRAM,
            ]);
            shell
        };
        expect(&command("<&-").output().unwrap(), "", "", 0);
        let mut closed = command(">&-");
        expect(
            &closed
                .stdin(File::open(file("line", b"T 0 0\n")).unwrap())
                .output()
                .unwrap(),
            "",
            "",
            0,
        );
    }

    #[cfg(target_os = "linux")]
    mod linux {
        use super::*;
        use std::time::Duration;

        #[test]
        fn a_full_device() {
            let full = || File::options().write(true).open("/dev/full").unwrap();
            let lines = File::open(file("lines of a full device", &many_lines())).unwrap();
            expect(&with_streams(lines, full()), "", CANNOT_WRITE, 1);
            expect(&with_streams(null(), full()), "", "", 0);
            // The status does not depend on whether the error's line can be written.
            let mut program = program(&["-x", "0"]);
            assert_eq!(program.stderr(full()).status().unwrap().code(), Some(1));
        }

        /// Waits until the program waits for a stream.
        fn wait_for_sleep(child: &Child) {
            let stat = format!("/proc/{}/stat", child.id());
            loop {
                let stat = fs::read_to_string(&stat).unwrap();
                match stat.rsplit_once(") ").unwrap().1.chars().next() {
                    Some('S') => return,
                    Some('R' | 'D' | 'T') => thread::sleep(Duration::from_millis(1)),
                    state => panic!("the program is in the state {state:?}"),
                }
            }
        }

        /// Sends a signal, by the `kill` that each shell has in itself.
        fn signal(child: &Child, name: &str) {
            let mut shell = Command::new("sh");
            let kill = format!("kill -{name} {}", child.id());
            assert!(shell.args(["-c", &kill]).status().unwrap().success());
        }

        /// std handles this signal once, and does not ask the system to begin a read anew then.
        #[test]
        fn a_read_that_is_interrupted_has_failed() {
            let mut child = started();
            let pipe = child.stdin.take().unwrap();
            wait_for_sleep(&child);
            signal(&child, "SEGV");
            expect(&child.wait_with_output().unwrap(), "", CANNOT_READ, 1);
            drop(pipe);
        }

        /// A write during which the program is stopped returns with what is written by then.
        #[test]
        fn a_short_write_is_followed_by_the_rest() {
            let mut child = started();
            let mut pipe = child.stdin.take().unwrap();
            pipe.write_all(&many_lines()).unwrap();
            drop(pipe);
            let mut out = child.stdout.take().unwrap();
            let mut found = [0; 1];
            out.read_exact(&mut found).unwrap();
            for _ in 0..3 {
                wait_for_sleep(&child);
                signal(&child, "STOP");
                signal(&child, "CONT");
                thread::sleep(Duration::from_millis(1));
            }
            let mut found = found.to_vec();
            out.read_to_end(&mut found).unwrap();
            assert_eq!(found, b"1970-01-01T00:00:00.000000000Z -\n".repeat(20_000));
            expect(&child.wait_with_output().unwrap(), "", "", 0);
        }
    }
}
