//! Names and words of the user in messages: as they are, but for what would act on a terminal.

use std::ffi::OsStr;
use std::fmt::Write;
use std::os::unix::ffi::OsStrExt;
use std::path::Path;

/// A name with its control characters and what is no text as escapes: `\n`, `\x1b`.
pub fn shown(name: &OsStr) -> String {
    let mut rest = name.as_bytes();
    let mut text = String::new();
    while !rest.is_empty() {
        let (known, unknown) = first_text(rest);
        known.chars().for_each(|character| push(&mut text, character));
        unknown.iter().for_each(|byte| push_byte(&mut text, *byte));
        rest = &rest[known.len() + unknown.len()..];
    }
    text
}

/// A path between quotes.
pub fn quoted(path: &Path) -> String {
    format!("'{}'", shown(path.as_os_str()))
}

// The text that bytes begin with, and the byte after it that is none.
fn first_text(bytes: &[u8]) -> (&str, &[u8]) {
    match std::str::from_utf8(bytes) {
        Ok(text) => (text, &[]),
        Err(error) => {
            let (known, rest) = bytes.split_at(error.valid_up_to());
            (std::str::from_utf8(known).unwrap_or(""), &rest[..1])
        }
    }
}

fn push(text: &mut String, character: char) {
    match character {
        '\n' | '\r' | '\t' | '\\' => text.extend(character.escape_default()),
        '\0'..='\x1f' | '\x7f' => push_byte(text, character as u8),
        _ if character.is_control() || turns(character) => text.extend(character.escape_unicode()),
        _ => text.push(character),
    }
}

// Whether a character breaks a line or turns the direction of what is after it.
fn turns(character: char) -> bool {
    matches!(character, '\u{61c}' | '\u{200e}'..='\u{200f}' | '\u{2028}'..='\u{202e}' | '\u{2066}'..='\u{2069}')
}

fn push_byte(text: &mut String, byte: u8) {
    // Writing to a text can't fail.
    let _ = write!(text, "\\x{byte:02x}");
}

#[cfg(test)]
mod tests {
    use super::*;

    #[test]
    fn what_acts_on_a_terminal_is_escaped() {
        let cases: [(&[u8], &str); 6] = [
            (b"plain name.bundle", "plain name.bundle"),
            ("Grüße".as_bytes(), "Grüße"),
            (b"a\nb\tc\rd\\e", "a\\nb\\tc\\rd\\\\e"),
            (b"\x1b[31m\x07\x7f\x00", "\\x1b[31m\\x07\\x7f\\x00"),
            (b"a\xffb\xc3", "a\\xffb\\xc3"),
            ("\u{9b}31m\u{202e}\u{2066}\u{2028}".as_bytes(), "\\u{9b}31m\\u{202e}\\u{2066}\\u{2028}"),
        ];
        for (name, told) in cases {
            assert_eq!(shown(OsStr::from_bytes(name)), told);
        }
    }
}
