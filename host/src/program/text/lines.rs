//! The lines of a text and their words, without comments.

use super::wrong::Mistake;

/// The bytes as text, or the first that can't be in one.
pub fn checked(bytes: &[u8]) -> Result<&str, Mistake> {
    let valid = std::str::from_utf8(bytes).map_or_else(|error| error.valid_up_to(), str::len);
    let mistake = |at, expected: &str| Err(Mistake { at, expected: expected.to_string() });
    match bytes[..valid].iter().position(|&byte| byte == b'\r') {
        Some(at) => mistake(at, "a line ends with a line feed alone, without a carriage return"),
        None => std::str::from_utf8(bytes).or_else(|_| mistake(valid, "text in UTF-8 was expected")),
    }
}

/// What is left of a text.
#[derive(Debug)]
pub struct Lines<'a> {
    text: &'a str,
    at: usize,
}

impl<'a> Lines<'a> {
    /// The lines from a byte on.
    pub fn of(text: &'a str, at: usize) -> Lines<'a> {
        Lines { text, at }
    }

    /// The next line, also where it has no word; none at the end.
    pub fn any(&mut self) -> Result<Option<Line<'a>>, Mistake> {
        let (text, from) = (self.text, self.at);
        if from == text.len() {
            return Ok(None);
        }
        // As in a log: what has no line feed may have been cut.
        let cut =
            || Mistake { at: text.len(), expected: "a line feed was expected, which ends every line".to_string() };
        let to = from + text[from..].find('\n').ok_or_else(cut)?;
        self.at = to + 1;
        Ok(Some(Line::of(text, from, to)))
    }

    /// The next line that has a word.
    pub fn next_with_words(&mut self) -> Result<Option<Line<'a>>, Mistake> {
        while let Some(line) = self.any()? {
            if !line.ended() {
                return Ok(Some(line));
            }
        }
        Ok(None)
    }

    /// The next line that has a word, where there must be one.
    pub fn required(&mut self, expected: &str) -> Result<Line<'a>, Mistake> {
        let at = self.text.len();
        self.next_with_words()?.ok_or_else(|| Mistake { at, expected: format!("{expected} was expected") })
    }
}

/// What is left of a line: its next word is at `at`, or the line ends there.
#[derive(Debug)]
pub struct Line<'a> {
    text: &'a str,
    at: usize,
    end: usize,
}

impl<'a> Line<'a> {
    // A comment is no part of it.
    fn of(text: &'a str, from: usize, to: usize) -> Line<'a> {
        let end = text[from..to].find('#').map_or(to, |comment| from + comment);
        let mut line = Line { text, at: from, end };
        line.skip(0);
        line
    }

    /// Where it goes on in the text.
    pub fn at(&self) -> usize {
        self.at
    }

    /// Whether it has no more words.
    pub fn ended(&self) -> bool {
        self.at == self.end
    }

    /// Its next word, empty where it has none.
    pub fn word(&self) -> &'a str {
        let rest = &self.text[self.at..self.end];
        &rest[..rest.find(blank).unwrap_or(rest.len())]
    }

    /// Goes past the next word if it is this one.
    pub fn takes(&mut self, word: &str) -> bool {
        let is = self.word() == word;
        if is {
            self.skip(word.len());
        }
        is
    }

    /// Goes past this word, or says that something was expected.
    pub fn expect(&mut self, word: &str, expected: &str) -> Result<(), Mistake> {
        if self.takes(word) {
            Ok(())
        } else {
            Err(self.mistake(&format!("{expected} was expected")))
        }
    }

    /// Goes past this word.
    pub fn keyword(&mut self, word: &str) -> Result<(), Mistake> {
        self.expect(word, &format!("'{word}'"))
    }

    /// Goes past a number in plain decimal, at least so much and at most 255.
    pub fn number(&mut self, least: u8, what: &str) -> Result<u8, Mistake> {
        let word = self.word();
        match word.parse::<u8>() {
            // No sign and no leading zeros.
            Ok(number) if number >= least && number.to_string() == word => {
                self.skip(word.len());
                Ok(number)
            }
            _ => Err(self.mistake(&format!("{what} was expected, {least} to 255"))),
        }
    }

    /// That it has no more words.
    pub fn close(&self) -> Result<(), Mistake> {
        if self.ended() {
            Ok(())
        } else {
            Err(self.mistake("the line's end was expected"))
        }
    }

    /// A mistake at its next word.
    pub fn mistake(&self, expected: &str) -> Mistake {
        Mistake { at: self.at, expected: expected.to_string() }
    }

    // Goes past so many bytes and the blanks after them.
    fn skip(&mut self, length: usize) {
        let rest = &self.text[self.at + length..self.end];
        self.at = self.end - rest.trim_start_matches(blank).len();
    }
}

fn blank(c: char) -> bool {
    c == ' ' || c == '\t'
}
