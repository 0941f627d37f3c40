//! The words of the command line one by one, where `--option=value` is two of them.

use crate::names::shown;
use std::ffi::{OsStr, OsString};
use std::os::unix::ffi::OsStrExt;

/// What is left of the words.
pub struct Words<I> {
    rest: I,
    // The option of `--option=value`, and its value until it is taken.
    attached: Option<(OsString, OsString)>,
    // Whether `--` was seen.
    options_end: bool,
}

impl<I: Iterator<Item = OsString>> Words<I> {
    /// All of them.
    pub fn of(rest: I) -> Words<I> {
        Words { rest, attached: None, options_end: false }
    }

    /// The next word, or the option of it; an error where the option before it takes no value and has one.
    pub fn next(&mut self) -> Result<Option<OsString>, String> {
        if let Some((option, _)) = self.attached.take() {
            return Err(format!("{} takes no value", shown(&option)));
        }
        let word = match self.rest.next() {
            Some(word) => word,
            None => return Ok(None),
        };
        self.options_end |= word == "--";
        match divided(&word).filter(|_| !self.options_end) {
            Some((option, value)) => {
                self.attached = Some((option.to_owned(), value.to_owned()));
                Ok(Some(option.to_owned()))
            }
            None => Ok(Some(word)),
        }
    }

    /// What follows the option after its `=`, if anything does.
    pub fn attached(&mut self) -> Option<OsString> {
        self.attached.take().map(|(_, value)| value)
    }

    /// The value of an option: after its `=`, or the next word if that is no option.
    pub fn value(&mut self, option: &str, what: &str) -> Result<OsString, String> {
        let missing = format!("{option} needs a {what} after it");
        match self.attached.take() {
            Some((_, value)) if value.is_empty() => return Err(missing),
            Some((_, value)) => return Ok(value),
            None => {}
        }
        match self.rest.next() {
            None => Err(missing),
            Some(word) if word.as_bytes().starts_with(b"-") && word != "-" => {
                Err(format!("{missing}, and '{}' is an option", shown(&word)))
            }
            Some(word) => Ok(word),
        }
    }
}

// The option and the value of `--option=value`; the value need not be text.
fn divided(word: &OsStr) -> Option<(&OsStr, &OsStr)> {
    let bytes = word.as_bytes();
    let at = bytes.iter().position(|&byte| byte == b'=').filter(|_| bytes.starts_with(b"--"))?;
    Some((OsStr::from_bytes(&bytes[..at]), OsStr::from_bytes(&bytes[at + 1..])))
}
