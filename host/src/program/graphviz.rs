//! Images, by Graphviz's program `dot`.

use crate::args::Image;
use std::io::{ErrorKind, Write};
use std::os::unix::process::ExitStatusExt;
use std::process::{Command, Output, Stdio};

/// The image of a text in Graphviz's language, or why there is none.
pub fn image(text: &str, image: Image) -> Result<Vec<u8>, String> {
    let (option, format) = match image {
        Image::Svg => ("--svg", &["-Tsvg"][..]),
        Image::Png => ("--png", &["-Tpng", "-Gdpi=144"][..]),
    };
    let mut dot = Command::new("dot");
    dot.args(format).stdin(Stdio::piped()).stdout(Stdio::piped()).stderr(Stdio::piped());
    let mut child = dot.spawn().map_err(|error| match error.kind() {
        ErrorKind::NotFound => missing(option),
        _ => none(&format!("it does not start: {error}")),
    })?;
    // It reads all before it writes, so neither waits for the other; where it ended early, it says why.
    let given = child.stdin.take().map_or(Ok(()), |mut input| input.write_all(text.as_bytes()));
    let ended = child.wait_with_output().map_err(|error| none(&error.to_string()))?;
    match ended.status.code() {
        Some(0) if ended.stdout.is_empty() => Err(none("it ended as if all were well, and wrote nothing")),
        Some(0) => given.map(|()| ended.stdout).map_err(|error| none(&format!("it did not read all: {error}"))),
        // Under an emulator a program that is not there seems to start, and ends so without a word.
        Some(127) if ended.stderr.is_empty() => Err(missing(option)),
        _ => Err(none(&failure(&ended))),
    }
}

fn missing(option: &str) -> String {
    format!(
        "macaroosh: {option} needs Graphviz's program 'dot', which is not installed \
         (on Debian: apt-get install graphviz)\n"
    )
}

fn none(cause: &str) -> String {
    format!("macaroosh: Graphviz's program 'dot' gave no image: {cause}\n")
}

// How it ended, and what it said.
fn failure(ended: &Output) -> String {
    let how = match ended.status.code() {
        Some(status) => format!("it failed with status {status}"),
        None => format!("it was killed by signal {}", ended.status.signal().unwrap_or(0)),
    };
    let said = String::from_utf8_lossy(&ended.stderr);
    match said.trim_end() {
        "" => format!("{how} and said nothing"),
        said => format!("{how} and said:\n{said}"),
    }
}
