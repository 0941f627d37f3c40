//! Reading inputs up to a limit, writing outputs, and what is wrong with either.

use crate::args::Input;
use crate::names::quoted;
use crate::{output, system};
use macaroosh::MOST_TABLE;
use std::fs::File;
use std::io::{self, Read};
use std::path::Path;

// No bundle, table or drawing comes near it; a larger file is the wrong one.
const LIMIT: u64 = 1 << 20;

/// The bytes of an input, or what is wrong with it; `most` says how long such an input can be.
pub fn read(input: &Input, most: &str) -> Result<Vec<u8>, String> {
    let (name, from) = opened(input)?;
    let bytes = read_some(from).map_err(|error| unread(&name, &error))?;
    if bytes.len() as u64 > LIMIT {
        return Err(format!("macaroosh: {name} is over {LIMIT} bytes; {most}\n"));
    }
    Ok(bytes)
}

/// The same of a table.
pub fn table(input: &Input) -> Result<Vec<u8>, String> {
    read(input, &format!("a table has at most {MOST_TABLE}"))
}

/// An input to be read as it comes, and its name in messages.
pub fn opened(input: &Input) -> Result<(String, File), String> {
    let name = name(input);
    let from = match input {
        Input::Standard => system::stream(0),
        Input::File(path) => File::open(path),
    };
    match from {
        Ok(from) => Ok((name, from)),
        Err(error) => Err(unread(&name, &error)),
    }
}

/// The name of an input in messages.
pub fn name(input: &Input) -> String {
    match input {
        Input::Standard => "standard input".to_string(),
        Input::File(path) => quoted(path),
    }
}

/// That an input can't be read.
pub fn unread(name: &str, error: &io::Error) -> String {
    format!("macaroosh: cannot read {name}: {error}\n")
}

// One byte past the limit shows that there is more.
fn read_some(from: impl Read) -> io::Result<Vec<u8>> {
    let mut bytes = Vec::new();
    from.take(LIMIT + 1).read_to_end(&mut bytes)?;
    Ok(bytes)
}

/// Writes an output to its file or to standard output, or says why it can't be.
pub fn write(path: Option<&Path>, bytes: &[u8]) -> Result<(), String> {
    match path {
        // Also an empty one, so that a closed standard output is told.
        None => output::standard(bytes).map_err(|error| unwritten("standard output", &error)),
        Some(path) => output::named(path, bytes).map_err(|error| unwritten(&quoted(path), &error)),
    }
}

/// Writes a part of what is shown to standard output at once; whether its reader has not seen enough.
pub fn show(text: &str) -> Result<bool, String> {
    output::shown(text.as_bytes()).map_err(|error| unwritten("standard output", &error))
}

/// That an output can't be written.
pub fn unwritten(name: &str, error: &io::Error) -> String {
    format!("macaroosh: cannot write {name}: {error}\n")
}
