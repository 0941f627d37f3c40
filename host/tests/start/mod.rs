//! The program, started by a test.

use std::io::Write;
use std::process::{Command, Output, Stdio};

/// Its file.
pub const PROGRAM: &str = env!("CARGO_BIN_EXE_macaroosh");

/// The program, under the emulator where the build was for another processor.
pub fn program() -> Command {
    match std::env::var_os("MACAROOSH_RUNNER") {
        Some(runner) => {
            let mut command = Command::new(runner);
            command.arg(PROGRAM);
            command
        }
        None => Command::new(PROGRAM),
    }
}

/// What it answers to words and an input.
pub fn given(words: &[&str], input: &[u8]) -> Output {
    let mut command = program();
    command.args(words).stdin(Stdio::piped()).stdout(Stdio::piped()).stderr(Stdio::piped());
    let mut child = command.spawn().expect("the program starts");
    // It may stop reading early; a closed pipe is no fault of the test.
    let _ = child.stdin.take().expect("its input").write_all(input);
    child.wait_with_output().expect("the program ends")
}
