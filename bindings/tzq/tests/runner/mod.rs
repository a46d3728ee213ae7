//! The built program, which may be of another processor than this machine's.

use std::env;
use std::process::Command;

/// Its path.
pub const PROGRAM: &str = env!("CARGO_BIN_EXE_tzq");

/// The program, run by the words of `TZQ_RUNNER` if that is set: by an emulator and its options.
#[allow(dead_code)] // Without built-in zones a test has the path alone.
pub fn program() -> Command {
    let runner = env::var("TZQ_RUNNER").unwrap_or_default();
    let mut words = runner.split_whitespace().chain([PROGRAM]);
    let mut program = Command::new(words.next().unwrap());
    program.args(words);
    program
}
