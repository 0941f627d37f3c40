//! How far a line is as some right line is. The library says which line is wrong; here it is said from which byte on.

// The words of a line, each before a number, and whether the line may end after that.
const WORDS: [(&str, bool); 4] = [("board ", false), (" rule ", true), (" type ", false), (" from ", true)];

// The largest number that a line says.
const MOST: u32 = 254;

/// How far a line is as some right line is.
#[derive(Debug, PartialEq, Eq)]
pub struct Reach {
    /// So many of its bytes some right line begins with, and no right line begins with one more of them.
    pub bytes: usize,
    /// What is wrong with the byte after them, whichever it is.
    pub wrong: String,
}

/// How far a line goes, or the beginning of one; its line feed is not given.
pub fn reach(line: &[u8]) -> Reach {
    let mut scan = Scan { line, at: 0 };
    let mut may_end = false;
    for (word, ends) in WORDS {
        let taken = scan.takes(word);
        if taken < word.len() {
            let wrong = scan.wrong_number().unwrap_or_else(|| without(word, taken, may_end));
            return Reach { bytes: scan.at, wrong };
        }
        if !scan.number() {
            return Reach { bytes: scan.at, wrong: "a number was expected, 0 to 254".to_string() };
        }
        may_end = ends;
    }
    let wrong = scan.wrong_number().unwrap_or_else(|| "the line's end was expected".to_string());
    Reach { bytes: scan.at, wrong }
}

// What was expected where a word is left after so many of its bytes.
fn without(word: &str, taken: usize, may_end: bool) -> String {
    let name = word.trim();
    match (taken, may_end) {
        (0, true) => format!("a blank and '{name}', or the line's end, was expected"),
        (0, false) if word.starts_with(' ') => format!("a blank and '{name}' was expected"),
        _ if taken + 1 == word.len() => format!("a blank was expected after '{name}'"),
        _ => format!("'{name}' was expected"),
    }
}

/// A line, read up to a byte.
struct Scan<'a> {
    line: &'a [u8],
    at: usize,
}

impl Scan<'_> {
    // Goes on so far as the word does: how many bytes of it.
    fn takes(&mut self, word: &str) -> usize {
        let same = word.bytes().zip(&self.line[self.at..]).take_while(|(ours, theirs)| ours == *theirs).count();
        self.at += same;
        same
    }

    // Goes past the digits that a number may have; whether there is one.
    fn number(&mut self) -> bool {
        let first = self.at;
        let mut value = 0;
        while let Some(digit) = self.digit() {
            let more = 10 * value + digit;
            if self.at > first && (value == 0 || more > MOST) {
                break;
            }
            value = more;
            self.at += 1;
        }
        self.at > first
    }

    // Why a digit can't stand after the number before it, if it is one.
    fn wrong_number(&self) -> Option<String> {
        let before = self.line[..self.at].iter().rposition(|byte| !byte.is_ascii_digit())?;
        let number = self.line.get(before + 1..self.at).filter(|number| !number.is_empty())?;
        self.digit().map(|_| match number {
            b"0" => "a number has no leading zeros".to_string(),
            _ => format!("a number is at most {MOST}"),
        })
    }

    fn digit(&self) -> Option<u32> {
        self.line.get(self.at).and_then(|&byte| char::from(byte).to_digit(10))
    }
}

#[cfg(test)]
mod tests {
    use super::reach;

    #[test]
    fn a_right_line_is_reached_to_its_end() {
        for number in 0..=254 {
            let other = 254 - number;
            let short = format!("board {number} rule {other}");
            for line in [format!("{short} type {other} from {number}"), short] {
                for length in 0..=line.len() {
                    assert_eq!(reach(&line.as_bytes()[..length]).bytes, length, "{line}");
                }
            }
        }
    }

    #[test]
    fn the_first_wrong_byte_is_found_and_told() {
        let cases = [
            ("x", 0, "'board' was expected"),
            (" board 0 rule 3", 0, "'board' was expected"),
            ("Board 0 rule 3", 0, "'board' was expected"),
            ("boards 0", 5, "a blank was expected after 'board'"),
            ("board  0", 6, "a number was expected, 0 to 254"),
            ("board -1", 6, "a number was expected, 0 to 254"),
            ("board 00 rule 3", 7, "a number has no leading zeros"),
            ("board 255 rule 3", 8, "a number is at most 254"),
            ("board 1000 rule 3", 9, "a number is at most 254"),
            ("board 300 rule 3", 8, "a number is at most 254"),
            ("board 0rule 3", 7, "a blank and 'rule' was expected"),
            ("board 0  rule 3", 8, "'rule' was expected"),
            ("board 0 by", 8, "'rule' was expected"),
            ("board 0 rule 3,", 14, "a blank and 'type', or the line's end, was expected"),
            ("board 0 rule 3 from 1", 15, "'type' was expected"),
            ("board 0 rule 3 type 0, 1", 21, "a blank and 'from' was expected"),
            ("board 0 rule 3 type 0 from 0 ", 28, "the line's end was expected"),
            ("board 0 rule 3 type 0 from 01", 28, "a number has no leading zeros"),
            ("board 0 rule 3 type 0 from 2540", 30, "a number is at most 254"),
        ];
        for (line, bytes, wrong) in cases {
            let got = reach(line.as_bytes());
            assert_eq!((got.bytes, got.wrong.as_str()), (bytes, wrong), "{line}");
        }
    }
}
