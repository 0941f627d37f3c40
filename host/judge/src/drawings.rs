//! Drawings of a table, read aloud: the text that is written for a table, and a reader that takes bytes one by one for as
//! long as some drawing goes on so. It calls nothing that it judges.

use crate::bench::Draws;
use crate::model::{nothing_done, read_table, refused, written, Coefficients, Edition, Model, Rule, Table};
use macaroosh::calls::Answer;
use macaroosh::Refusal;
use std::ops::RangeInclusive;

/// What a text draws, by its records; only some of it is a table.
#[derive(Clone, Debug)]
pub struct Drawing {
    /// The types byte, which is what `T=` shows.
    pub types_byte: usize,
    /// k.
    pub factor: usize,
    /// Flags and sent mask of each state.
    pub states: Vec<[u8; 2]>,
    /// The rules in order.
    pub rules: Vec<Rule>,
}

impl Drawing {
    /// What the drawing of a table shows.
    pub fn of(table: &Table) -> Drawing {
        let flags = |initial: bool, accepting: bool| u8::from(initial) + 2 * u8::from(accepting);
        Drawing {
            types_byte: table.edition.types_byte(table.types),
            factor: table.factor as usize,
            states: table.states.iter().map(|s| [flags(s.initial, s.accepting), s.sent]).collect(),
            rules: table.rules.clone(),
        }
    }

    /// The edition and the number of types that its types byte tells.
    pub fn edition(&self) -> (Edition, usize) {
        Edition::of(self.types_byte)
    }

    /// The bytes of the records in the order of the text, then the trailer: distances, counts, types byte, k.
    pub fn bytes(&self) -> Vec<u8> {
        let states = self.states.concat();
        let mut rules = Vec::new();
        for rule in &self.rules {
            rules.extend([rule.from as u8, rule.to as u8]);
            for Coefficients { a, b, d, e } in &rule.coefficients {
                rules.extend([*a as u8, *b as u8, *d as u8]);
                if self.edition().0 == Edition::Second {
                    rules.push(*e);
                }
            }
        }
        let distances = [states.len() + rules.len(), rules.len()].map(|distance| (distance as u16).to_le_bytes());
        let numbers = [self.states.len(), self.rules.len(), self.types_byte, self.factor].map(|number| number as u8);
        [&states, &rules, &distances.concat(), &numbers[..]].concat()
    }
}

/// The sentences about drawings, each with its meaning as the default; a broken variant for tests changes one.
pub trait Text {
    /// The text as it is written.
    fn text(&self, drawing: &Drawing) -> String {
        let mut text = format!("digraph t {{\nT={}; k={};\n", drawing.types_byte, drawing.factor);
        for (i, [flags, sent]) in drawing.states.iter().enumerate() {
            text += &format!("s{i} [label=\"{flags} {sent}\"];\n");
        }
        for Rule { from, to, coefficients } in &drawing.rules {
            let groups: Vec<String> = coefficients.iter().map(|group| self.group(drawing.edition().0, group)).collect();
            text += &format!("s{from} -> s{to} [label=\"{}\"];\n", groups.join(", "));
        }
        text + "}\n"
    }

    /// The numbers of one type in a rule's label.
    fn group(&self, edition: Edition, Coefficients { a, b, d, e }: &Coefficients) -> String {
        match edition {
            Edition::First => format!("{a} {b} {d}"),
            Edition::Second => format!("{a} {b} {d} {e}"),
        }
    }

    /// What an e may be as form.
    fn divisors(&self) -> RangeInclusive<i32> {
        BYTE
    }

    /// Whether a byte may be added between two tokens.
    fn blank(&self, byte: u8) -> bool {
        matches!(byte, b' ' | b'\t' | b'\n' | b'\r')
    }

    /// Whether some number in range begins so, in plain decimal. A number that loses digits at its end comes nearer to 0,
    /// so each of its beginnings is in range too, but for the sign alone.
    fn begins_number(&self, text: &str, range: &RangeInclusive<i32>) -> bool {
        let plain = |number: i32| range.contains(&number) && number.to_string() == text;
        text == "-" && *range.start() < 0 || text.parse().map_or(false, plain)
    }

    /// Whether a line that begins with this name may be of a state, after so many lines of states and of rules.
    fn may_be_state(&self, name: usize, states: usize, rules: usize) -> bool {
        name == states && rules == 0
    }

    /// Whether a table has such counts: states, rules, types byte, k.
    fn counts_fit(&self, [states, rules, types_byte, factor]: [usize; 4]) -> bool {
        let types = matches!(types_byte, 1..=4 | 17..=20);
        (1..=16).contains(&states) && (1..=64).contains(&rules) && types && (1..=8).contains(&factor)
    }

    /// A table part, to be drawn or drawn already, or its refusal.
    fn read_part(&self, part: &[u8]) -> Result<Table, Refusal> {
        read_table(part)
    }

    /// The table part that a text draws: 60, then 2, then 4 to 9.
    fn table(&self, text: &[u8]) -> Result<Vec<u8>, Refusal> {
        let mut reader = Reader { form: self, text, at: 0 };
        // Places from 2^24 - 1 on are given as that, since an answer has 24 bits for them.
        let drawing = reader.drawing().map_err(|Stopped| refused(60, reader.at.min((1 << 24) - 1)))?;
        if !self.counts_fit([drawing.states.len(), drawing.rules.len(), drawing.types_byte, drawing.factor]) {
            return Err(refused(2, 0));
        }
        let part = drawing.bytes();
        self.read_part(&part).map(|_| part)
    }
}

impl Text for Model {}

impl<T: Text> Draws for T {
    fn draw(&self, table: &[u8], out: &mut [u8]) -> Answer {
        match self.read_part(table) {
            Ok(table) => written(self.text(&Drawing::of(&table)).as_bytes(), out, 61),
            Err(refusal) => nothing_done(refusal),
        }
    }

    fn undraw(&self, text: &[u8], out: &mut [u8]) -> Answer {
        match self.table(text) {
            Ok(part) => written(&part, out, 61),
            Err(refusal) => nothing_done(refusal),
        }
    }
}

const BYTE: RangeInclusive<i32> = 0..=255;
const COEFFICIENT: RangeInclusive<i32> = -128..=127;

/// No drawing goes on with the byte at the reader's place, or the text ends there.
struct Stopped;

/// A text, and how much of it some drawing begins with.
struct Reader<'a, T: ?Sized> {
    form: &'a T,
    text: &'a [u8],
    at: usize,
}

impl<T: Text + ?Sized> Reader<'_, T> {
    fn drawing(&mut self) -> Result<Drawing, Stopped> {
        self.token("digraph")?;
        self.blank()?;
        self.tokens(&["t", "{", "T", "="])?;
        let types_byte = self.number_token()?;
        self.tokens(&[";", "k", "="])?;
        let factor = self.number_token()?;
        self.token(";")?;
        let mut drawing = Drawing { types_byte, factor, states: Vec::new(), rules: Vec::new() };
        while !self.next_is(b'}') {
            self.line(&mut drawing)?;
        }
        self.token("}")?;
        self.blanks();
        self.end()?;
        Ok(drawing)
    }

    // Only the byte after its first name tells a state's line from a rule's.
    fn line(&mut self, drawing: &mut Drawing) -> Result<(), Stopped> {
        let name = self.name()?;
        let may_be_state = self.form.may_be_state(name, drawing.states.len(), drawing.rules.len());
        if may_be_state && self.next_is(b'[') {
            let state = self.label(|reader| {
                let flags = reader.number(BYTE)?;
                reader.word(" ")?;
                Ok([flags as u8, reader.number(BYTE)? as u8])
            })?;
            drawing.states.push(state);
        } else {
            self.token("->")?;
            let to = self.name()?;
            let coefficients = self.label(|reader| reader.groups(drawing.edition()))?;
            drawing.rules.push(Rule { from: name, to, coefficients });
        }
        Ok(())
    }

    fn name(&mut self) -> Result<usize, Stopped> {
        self.token("s")?;
        self.number(BYTE).map(|number| number as usize)
    }

    // A label, and the end of the line after it.
    fn label<L>(&mut self, inside: impl FnOnce(&mut Self) -> Result<L, Stopped>) -> Result<L, Stopped> {
        self.tokens(&["[", "label", "=", "\""])?;
        let label = inside(self)?;
        self.word("\"")?;
        self.tokens(&["]", ";"])?;
        Ok(label)
    }

    fn groups(&mut self, (edition, types): (Edition, usize)) -> Result<Vec<Coefficients>, Stopped> {
        let mut groups = Vec::new();
        for m in 0..types {
            self.word(if m == 0 { "" } else { ", " })?;
            groups.push(self.group(edition)?);
        }
        Ok(groups)
    }

    fn group(&mut self, edition: Edition) -> Result<Coefficients, Stopped> {
        let a = self.number(COEFFICIENT)?;
        self.word(" ")?;
        let b = self.number(COEFFICIENT)?;
        self.word(" ")?;
        let d = self.number(COEFFICIENT)?;
        let sum = [a, b, d].map(|number| number as i8);
        if edition == Edition::First {
            return Ok(Coefficients::whole(sum));
        }
        self.word(" ")?;
        let e = self.number(self.form.divisors())?;
        Ok(Coefficients::over(e as u8, sum))
    }

    fn number_token(&mut self) -> Result<usize, Stopped> {
        self.blanks();
        self.number(BYTE).map(|number| number as usize)
    }

    fn tokens(&mut self, words: &[&str]) -> Result<(), Stopped> {
        words.iter().try_for_each(|word| self.token(word))
    }

    // A word, or the beginning of a token, after any blanks.
    fn token(&mut self, word: &str) -> Result<(), Stopped> {
        self.blanks();
        self.word(word)
    }

    // As many bytes as some number in range begins with; they are one, unless they are none or a sign.
    fn number(&mut self, range: RangeInclusive<i32>) -> Result<i32, Stopped> {
        let start = self.at;
        let begins = |bytes: &[u8]| std::str::from_utf8(bytes).map_or(false, |t| self.form.begins_number(t, &range));
        while self.at < self.text.len() && begins(&self.text[start..=self.at]) {
            self.at += 1;
        }
        let digits = std::str::from_utf8(&self.text[start..self.at]).unwrap_or("");
        digits.parse().map_err(|_| Stopped)
    }

    fn word(&mut self, word: &str) -> Result<(), Stopped> {
        word.bytes().try_for_each(|byte| self.byte(|other| other == byte))
    }

    fn blanks(&mut self) {
        while self.blank().is_ok() {}
    }

    fn blank(&mut self) -> Result<(), Stopped> {
        let form = self.form;
        self.byte(|byte| form.blank(byte))
    }

    // Whether that byte comes after any blanks.
    fn next_is(&mut self, byte: u8) -> bool {
        self.blanks();
        self.text.get(self.at) == Some(&byte)
    }

    fn byte(&mut self, fits: impl Fn(u8) -> bool) -> Result<(), Stopped> {
        match self.text.get(self.at) {
            Some(&byte) if fits(byte) => {
                self.at += 1;
                Ok(())
            }
            _ => Err(Stopped),
        }
    }

    fn end(&self) -> Result<(), Stopped> {
        if self.at == self.text.len() {
            Ok(())
        } else {
            Err(Stopped)
        }
    }
}
