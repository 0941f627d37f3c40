//! What `check` has to say: whether the library accepts a list, and what that means.

use super::why::outside;
use super::{show, words, WORD};
use crate::json;
use crate::replies::{Question, Reply};
use crate::show::{counted, result, Style};
use crate::trace;
use macaroosh::calls::{self, Answer, Step};
use macaroosh::parts::Parts;

/// What is said of a list that is checked.
pub struct Checked<'a> {
    /// The library's answer.
    pub answer: Answer,
    /// The bundle, where it is not refused by itself.
    pub parts: Option<Parts<'a>>,
    /// The words of the configuration at the place of the refusal.
    pub words: Option<Vec<u64>>,
    /// The step that leads outside.
    pub step: Option<Step>,
}

/// The check of a list, which is given as its file, for the question's bundle.
pub fn reply(asked: &Question, file: &[u8]) -> Reply {
    let question = Question { list: Some(file), ..*asked };
    let checked = Checked::of(&question, file);
    let output = match (question.style, &checked.parts) {
        (Style::Json, _) => json::check(&question, &checked),
        (Style::Plain, _) => checked.lines(),
        (Style::People, Some(parts)) if checked.answer.refusal == 0 => told(parts, checked.answer),
        (Style::People, _) => String::new(),
    };
    question.reply(output, checked.answer.refused())
}

// The library's answer. Bytes that make no whole number of words are no list, whatever the others are.
fn asked(question: &Question, file: &[u8]) -> Answer {
    let check = |list: &[u64]| calls::check_list(question.bundle, question.standing, list);
    match file.len() % WORD {
        0 => check(&words(file)),
        // An empty list is refused for the bundle, or else for its start.
        _ => match check(&[]) {
            answer if answer.refusal < 70 => answer,
            _ => Answer { refusal: 70, place: 0, count: 0 },
        },
    }
}

impl<'a> Checked<'a> {
    fn of(question: &Question<'a>, file: &[u8]) -> Checked<'a> {
        let answer = asked(question, file);
        let read = answer.refusal == 0 || answer.refusal >= 70;
        let parts = Parts::of(question.bundle, question.standing).filter(|_| read);
        let (list, place) = (words(file), answer.place as usize);
        let one = match answer {
            Answer { refusal: 70, place: 0, .. } | Answer { refusal: 0 | 72, .. } => None,
            _ => parts.as_ref().and_then(|parts| list.chunks_exact(parts.words()).nth(place)),
        };
        let step = parts.as_ref().filter(|_| answer.refusal == 73).and_then(|parts| outside(parts, &list, place));
        Checked { answer, words: one.map(<[u64]>::to_vec), step: step.map(|(step, _)| step), parts }
    }

    // For programs: the answer, the words of the configuration at fault, and the step that leads outside.
    fn lines(&self) -> String {
        let words = self.words.as_ref().map_or(String::new(), |words| format!("words{}\n", show::line(words)));
        let step = self.step.map_or(String::new(), |Step { board, rule, kind, source }| {
            format!("step {board} {rule} {kind} {source}\n")
        });
        result(self.answer) + &words + &step
    }
}

// For people, of a list that is accepted.
fn told(parts: &Parts, answer: Answer) -> String {
    let listed = counted(answer.count as usize, "configuration");
    format!(
        "{}accepted: {listed}, the start among them; each possible step leads from one of them to another, and no board \
         is accepting\n\
         no schedule of any length, in any form, with or without stops, puts a board in an accepting state from there\n",
        trace::opening(parts)
    )
}
