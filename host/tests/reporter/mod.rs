//! The proved report program as a process.

use std::io::Write;
use std::path::Path;
use std::process::{Command, Stdio};
use std::thread::sleep;
use std::time::Duration;

/// What it writes for a bundle that comes in pieces.
pub fn reported(pieces: &[&[u8]]) -> String {
    let program = Path::new(env!("CARGO_MANIFEST_DIR")).join("../tools/run-report");
    let mut child = Command::new(program)
        .stdin(Stdio::piped())
        .stdout(Stdio::piped())
        .spawn()
        .expect("the report program starts: run 'tools/report' first");
    let mut input = child.stdin.take().expect("its input");
    for (i, piece) in pieces.iter().enumerate() {
        if i > 0 {
            sleep(Duration::from_millis(100));
        }
        // The program stops reading past its limit; a closed pipe is no fault of the test.
        let _ = input.write_all(piece);
    }
    drop(input);
    let output = child.wait_with_output().expect("the report program ends");
    String::from_utf8(output.stdout).expect("text")
}
