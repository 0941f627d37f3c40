//! Why a text gives no bundle.

use crate::marks;
use macaroosh::calls::Answer;

/// Why a text gives no bundle.
#[derive(Debug)]
pub enum Wrong {
    /// A mistake in it.
    Mistake(Mistake),
    /// The library refuses it, which is told to people so.
    Refused(Answer, String),
}

impl From<Mistake> for Wrong {
    fn from(mistake: Mistake) -> Wrong {
        Wrong::Mistake(mistake)
    }
}

/// A mistake: a byte of the text, and what was expected there.
#[derive(Debug)]
pub struct Mistake {
    /// The byte, or the length where the text ends too early.
    pub at: usize,
    /// What was expected, as a sentence.
    pub expected: String,
}

impl Mistake {
    /// The mistake in words with a mark in its line, or for programs its line and column.
    pub fn told(&self, text: &[u8], plain: bool) -> String {
        if plain {
            let (line, column) = marks::place(text, self.at);
            return format!("mistake {line} {column}\n");
        }
        format!("{}: {}\n{}", marks::told(text, self.at), self.expected, marks::shown(text, self.at))
    }
}
