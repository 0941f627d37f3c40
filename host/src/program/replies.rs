//! What each command has to say about a bundle; `trace` and `search` have files of their own, logs and lists have folders.

use crate::show::{self, Style};
use crate::{all, json, list, log, text, why};
use macaroosh::calls::{Answer, Receipts};
use macaroosh::parts::Parts;
use macaroosh::terms::refusals;
use macaroosh::{Form, Refusal, MOST_WORDS};
use std::path::Path;

/// A bundle and the table beside it.
pub struct Question<'a> {
    /// The bundle.
    pub bundle: &'a [u8],
    /// The standing table.
    pub standing: &'a [u8],
    /// The log that a replay is asked of.
    pub log: Option<&'a [u8]>,
    /// The list that a check is asked of, as its file.
    pub list: Option<&'a [u8]>,
    /// Whom the answer is for.
    pub style: Style,
    /// Whether the lines of a run have its receipts and sends too, which people and JSON are always told.
    pub receipts: bool,
}

/// The answer to it.
pub struct Reply {
    /// For standard output or the file of `-o`; of a refused input nothing is written where it is empty.
    pub output: Vec<u8>,
    /// For standard error, once the output is written.
    pub told: Option<String>,
    /// Whether the input was refused.
    pub refused: bool,
    /// A bundle for the file of `-o`, also where a step of it is refused; the output is for standard output then.
    pub kept: Option<Vec<u8>>,
}

impl Reply {
    /// An output that is no answer for people by itself: they and programs are told on standard error.
    pub fn of(output: Vec<u8>, answer: Answer, told: String, plain: bool) -> Reply {
        let told = Some(if plain { show::result(answer) } else { told });
        Reply { output, told, refused: answer.refused().is_some(), kept: None }
    }
}

impl Question<'_> {
    /// Text, and a refusal, which is told to people in words.
    pub fn reply(&self, output: String, refusal: Option<Refusal>) -> Reply {
        let told = refusal.filter(|_| self.style == Style::People).map(|refusal| self.told(refusal));
        Reply { output: output.into_bytes(), told, refused: refusal.is_some(), kept: None }
    }

    /// The figures behind a refusal, in lines.
    pub fn why(&self, refusal: Refusal) -> Vec<String> {
        match (self.log, self.list) {
            (Some(log), _) => log::why::of_replay(self.bundle, self.standing, log, refusal),
            (None, Some(list)) => list::why::of_check(self.bundle, self.standing, list, refusal),
            (None, None) => why::of_bundle(self.bundle, self.standing, refusal),
        }
    }

    /// The refusal in words, and its figures.
    pub fn told(&self, refusal: Refusal) -> String {
        told(refusal, self.why(refusal))
    }
}

/// A refusal in words, and the lines that explain it.
pub fn told(refusal: Refusal, lines: Vec<String>) -> String {
    [vec![refusals::told(refusal)], lines].concat().join("\n") + "\n"
}

/// The same reply with a bundle to keep, if there is one and a path for it, which people are told.
pub fn kept(reply: Reply, question: &Question, bundle: Option<&[u8]>, path: Option<&Path>) -> Reply {
    let kept = bundle.filter(|_| path.is_some());
    let wrote = kept.filter(|_| question.style == Style::People).and_then(|bundle| {
        let parts = Parts::of(bundle, question.standing)?;
        Some(text::wrote(bundle, "a bundle", parts.form, parts.length(), path))
    });
    let told: Vec<String> = [reply.told, wrote].into_iter().flatten().collect();
    let told = (!told.is_empty()).then(|| told.concat());
    Reply { told, kept: kept.map(<[u8]>::to_vec), ..reply }
}

/// The configuration that the schedule leaves.
pub fn run(question: &Question) -> Reply {
    let mut words = [0; MOST_WORDS];
    let answer = macaroosh::calls::run(question.bundle, question.standing, &mut words);
    shown(question, answer, &words)
}

/// The same where the bundle was run already, and has left these words.
pub fn shown(question: &Question, answer: Answer, words: &[u64]) -> Reply {
    let parts = Parts::of(question.bundle, question.standing).filter(|_| answer.left_a_configuration());
    let had = match &parts {
        Some(_) => macaroosh::calls::receipts(question.bundle, question.standing, &mut [0; MOST_WORDS]),
        None => Receipts { refusal: answer.refusal, place: answer.place, receipts: 0, sends: 0 },
    };
    let output = match (question.style, &parts) {
        (Style::Json, _) => json::run(question, answer, had, parts.as_ref().map(|parts| (parts, words))),
        (Style::Plain, _) => {
            let lines = parts.as_ref().map_or(String::new(), |parts| show::lines(&parts.picture(words)));
            let receipts = if question.receipts { show::receipts_line(had) } else { String::new() };
            show::result(answer) + &lines + &receipts
        }
        (Style::People, Some(parts)) => show::configuration(parts, &parts.picture(words), answer.count, had),
        (Style::People, None) => String::new(),
    };
    question.reply(output, answer.refused())
}

/// The bytes in the form asked for, or else in the other form, which go to `path`, and what was written.
pub fn translate(question: &Question, to: Option<Form>, path: Option<&Path>) -> Reply {
    let Question { bundle, standing, .. } = *question;
    let mut output = vec![0; bundle.len()];
    let answer = match to {
        Some(form) => macaroosh::calls::translate_to(bundle, standing, u64::from(form.number()), &mut output),
        None => macaroosh::calls::translate(bundle, standing, &mut output),
    };
    output.truncate(answer.count as usize);
    let told = match answer.refused() {
        _ if question.style != Style::People => show::result(answer),
        Some(refusal) => question.told(refusal),
        None => {
            let form = output.last().and_then(|&number| Form::of(u64::from(number))).map_or("unknown", Form::name);
            format!("wrote {} in {form} form{}\n", show::counted(output.len(), "byte"), show::to(path))
        }
    };
    Reply { output, told: Some(told), refused: answer.refused().is_some(), kept: None }
}

/// The first possible step.
pub fn first(question: &Question) -> Reply {
    let first = macaroosh::calls::first_step(question.bundle, question.standing);
    let parts = Parts::of(question.bundle, question.standing).filter(|_| first.is_ok());
    let output = match (question.style, first, &parts) {
        (Style::Json, ..) => json::first(question, parts.as_ref(), first),
        (Style::Plain, ..) => show::first_lines(first),
        (Style::People, Ok(step), Some(parts)) => show::first(parts, step),
        (Style::People, ..) => String::new(),
    };
    question.reply(output, first.err())
}

/// All possible steps, or why they can't be tried; what is refused is so as by `first`.
pub fn all(question: &Question) -> Result<Reply, String> {
    let parts = match macaroosh::calls::first_step(question.bundle, question.standing) {
        Ok(_) => Parts::of(question.bundle, question.standing),
        Err(_) => None,
    };
    let parts = match parts {
        Some(parts) => parts,
        None => return Ok(first(question)),
    };
    let steps = all::possible(&parts, question.standing)?;
    let output = match question.style {
        Style::Json => json::all(question, &parts, &steps),
        Style::Plain => show::all_lines(&steps),
        Style::People => show::all(&parts, &steps),
    };
    Ok(question.reply(output, None))
}
