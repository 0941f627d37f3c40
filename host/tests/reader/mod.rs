//! A small reader of JSON, which takes what is right and nothing else.

use std::collections::BTreeMap;
use std::iter::{self, Peekable};
use std::str::Chars;

/// A value; the program writes no others.
#[derive(Debug, PartialEq)]
pub enum Json {
    Null,
    Truth(bool),
    Number(u64),
    Text(String),
    List(Vec<Json>),
    Object(BTreeMap<String, Json>),
}

impl Json {
    /// The value that a whole text is, with a line feed after it and no blanks.
    pub fn read(text: &str) -> Json {
        let line = text.strip_suffix('\n').expect("a line");
        let mut reader = Reader(line.chars().peekable());
        let value = reader.value();
        assert_eq!(reader.0.next(), None, "{text}");
        value
    }

    /// A value of an object.
    pub fn get(&self, name: &str) -> &Json {
        match self {
            Json::Object(fields) => fields.get(name).unwrap_or_else(|| panic!("no {name} in {self:?}")),
            _ => panic!("no object: {self:?}"),
        }
    }

    /// Whether an object has that name.
    pub fn has(&self, name: &str) -> bool {
        matches!(self, Json::Object(fields) if fields.contains_key(name))
    }

    /// A number of an object.
    pub fn number(&self, name: &str) -> u64 {
        match self.get(name) {
            Json::Number(number) => *number,
            other => panic!("no number: {other:?}"),
        }
    }

    /// The values of a list.
    pub fn list(&self) -> &[Json] {
        match self {
            Json::List(values) => values,
            _ => panic!("no list: {self:?}"),
        }
    }

    /// All numbers in it, in order, each after a blank.
    pub fn flat(&self) -> String {
        match self {
            Json::Number(number) => format!(" {number}"),
            Json::List(values) => values.iter().map(Json::flat).collect(),
            _ => panic!("no numbers: {self:?}"),
        }
    }

    /// The numbers of those names, each after a blank.
    pub fn named(&self, names: &[&str]) -> String {
        names.iter().map(|name| self.get(name).flat()).collect()
    }
}

struct Reader<'a>(Peekable<Chars<'a>>);

impl Reader<'_> {
    fn value(&mut self) -> Json {
        match self.0.peek() {
            Some('{') => {
                let mut fields = BTreeMap::new();
                self.items('}', |reader| {
                    let name = reader.text();
                    assert_eq!(reader.0.next(), Some(':'));
                    assert_eq!(fields.insert(name, reader.value()), None, "a name is there once");
                });
                Json::Object(fields)
            }
            Some('[') => {
                let mut values = Vec::new();
                self.items(']', |reader| values.push(reader.value()));
                Json::List(values)
            }
            Some('"') => Json::Text(self.text()),
            Some('n') => self.word("null", Json::Null),
            Some('t') => self.word("true", Json::Truth(true)),
            Some('f') => self.word("false", Json::Truth(false)),
            _ => self.number(),
        }
    }

    // The value that a word stands for.
    fn word(&mut self, word: &str, value: Json) -> Json {
        assert_eq!(self.0.by_ref().take(word.len()).collect::<String>(), word);
        value
    }

    fn items(&mut self, last: char, mut item: impl FnMut(&mut Self)) {
        self.0.next();
        if self.0.next_if_eq(&last).is_some() {
            return;
        }
        loop {
            item(self);
            match self.0.next() {
                Some(',') => {}
                end => {
                    assert_eq!(end, Some(last));
                    return;
                }
            }
        }
    }

    fn number(&mut self) -> Json {
        let digits: String = iter::from_fn(|| self.0.next_if(char::is_ascii_digit)).collect();
        assert!(digits == "0" || !digits.starts_with('0'), "{digits}");
        Json::Number(digits.parse().expect("a number"))
    }

    fn text(&mut self) -> String {
        assert_eq!(self.0.next(), Some('"'));
        let mut text = String::new();
        loop {
            match self.0.next().expect("a closed text") {
                '"' => return text,
                '\\' => text.push(match self.0.next().expect("what is escaped") {
                    'u' => {
                        let digits: String = self.0.by_ref().take(4).collect();
                        u32::from_str_radix(&digits, 16).ok().and_then(char::from_u32).expect("a character")
                    }
                    c => {
                        assert!(c == '"' || c == '\\', "{c}");
                        c
                    }
                }),
                c => {
                    assert!(c >= ' ', "{c:?}");
                    text.push(c);
                }
            }
        }
    }
}
