//! Answers as JSON: one object on one line, with the numbers of `--plain`.

use crate::list::check::Checked;
use crate::replies::Question;
use crate::search::{Ended, Limits};
use crate::trace::Move;
use macaroosh::calls::{Answer, Receipts, Step};
use macaroosh::parts::{Parts, Picture};
use macaroosh::{Form, Refusal};
use std::fmt::{self, Display, Formatter, Write};

/// A value.
pub enum Json {
    /// What there is none of.
    Null,
    /// Whether something is so.
    Truth(bool),
    /// A whole number.
    Number(u64),
    /// A text, which is escaped as it is written.
    Text(String),
    /// Values in order.
    List(Vec<Json>),
    /// Values by name, in order.
    Object(Fields),
}

type Fields = Vec<(&'static str, Json)>;

impl Display for Json {
    fn fmt(&self, to: &mut Formatter) -> fmt::Result {
        match self {
            Json::Null => to.write_str("null"),
            Json::Truth(truth) => write!(to, "{truth}"),
            Json::Number(number) => write!(to, "{number}"),
            Json::Text(text) => quoted(text, to),
            Json::List(values) => {
                to.write_char('[')?;
                for (i, value) in values.iter().enumerate() {
                    write!(to, "{}{value}", comma(i))?;
                }
                to.write_char(']')
            }
            Json::Object(fields) => {
                to.write_char('{')?;
                for (i, (name, value)) in fields.iter().enumerate() {
                    to.write_str(comma(i))?;
                    quoted(name, to)?;
                    write!(to, ":{value}")?;
                }
                to.write_char('}')
            }
        }
    }
}

fn comma(i: usize) -> &'static str {
    if i == 0 {
        ""
    } else {
        ","
    }
}

fn quoted(text: &str, to: &mut Formatter) -> fmt::Result {
    to.write_char('"')?;
    for c in text.chars() {
        match c {
            '"' | '\\' => write!(to, "\\{c}")?,
            c if c < ' ' => write!(to, "\\u{:04x}", u32::from(c))?,
            c => to.write_char(c)?,
        }
    }
    to.write_char('"')
}

/// A run: the answer, its receipts and sends, and what is left, if something is.
pub fn run(question: &Question, answer: Answer, had: Receipts, left: Option<(&Parts, &[u64])>) -> String {
    let mut fields = head(question, answer.refused());
    fields.push(("accepted", number(answer.count)));
    fields.push(("receipts", number(had.receipts)));
    fields.push(("sends", number(had.sends)));
    if let Some((parts, words)) = left {
        let picture = parts.picture(words);
        fields.extend(setting(parts));
        fields.push(("states", list(&picture.states, |&state| Json::Number(state))));
        fields.push(("received", list(&picture.received, |types| received(types))));
        fields.push(("sent", sent(&picture)));
        fields.push(("stopped", stopped(&picture)));
        if parts.form == Form::Message {
            fields.extend(senders(parts, words));
        }
    }
    line(fields)
}

/// The first possible step, or none.
pub fn first(question: &Question, parts: Option<&Parts>, step: Result<Option<Step>, Refusal>) -> String {
    let mut fields = head(question, step.err());
    fields.extend(parts.map_or(Vec::new(), setting));
    fields.push(("step", step.ok().flatten().map_or(Json::Null, |step| Json::Object(record(step)))));
    line(fields)
}

/// All possible steps.
pub fn all(question: &Question, parts: &Parts, steps: &[Step]) -> String {
    let mut fields = head(question, None);
    fields.extend(setting(parts));
    fields.push(("steps", list(steps, |&step| Json::Object(record(step)))));
    line(fields)
}

/// A trace: the answer, and the steps that are shown, if some were looked at.
pub fn trace(question: &Question, answer: Answer, shown: Option<(&Parts, &[Move])>) -> String {
    let mut fields = head(question, answer.refused());
    fields.push(("accepted", number(answer.count)));
    if let Some((parts, moves)) = shown {
        fields.extend(setting(parts));
        fields.push(("starts", list(parts.starts, |&state| number(state))));
        fields.push(("steps", list(moves, |made| step(parts, made))));
    }
    line(fields)
}

/// A search: how it ended, in a word, and what was found. Where more steps than a bundle holds follow each other, nothing but their
/// records is told.
pub fn search(question: &Question, limits: Limits, ended: Option<&Ended>, refusal: Option<Refusal>) -> String {
    let mut fields = head(question, refusal);
    let outcome = ended.map(|ended| Json::Text(ended.outcome().to_string()));
    fields.push(("outcome", outcome.unwrap_or(Json::Null)));
    fields.push(("tried", number(ended.map_or(0, |ended| ended.tried))));
    fields.push(("depth", number(limits.depth)));
    fields.push(("budget", number(limits.budget)));
    if let Some(ended) = ended {
        fields.extend(setting(&ended.parts));
        fields.push(("steps", ended.steps.as_ref().map_or(Json::Null, |steps| found(ended, steps))));
    }
    line(fields)
}

fn found(ended: &Ended, steps: &[Step]) -> Json {
    match ended.moves() {
        Some((parts, moves)) => list(&moves, |made| step(&parts, made)),
        None => Json::List(ended.numbered(steps).map(|(i, step)| Json::Object(numbered(i, step))).collect()),
    }
}

/// A list: how many configurations are accepted, or the words of the one at fault, and the step that leads outside.
pub fn check(question: &Question, checked: &Checked) -> String {
    let mut fields = head(question, checked.answer.refused());
    fields.push(("configurations", number(checked.answer.count)));
    fields.extend(checked.parts.as_ref().map_or(Vec::new(), setting));
    if checked.answer.refusal >= 70 {
        let words = checked.words.as_ref().map(|words| list(words, |&word| Json::Number(word)));
        fields.push(("words", words.unwrap_or(Json::Null)));
        fields.push(("step", checked.step.map_or(Json::Null, |step| Json::Object(record(step)))));
    }
    line(fields)
}

// Refusal and place; of a refusal its reason and the lines that explain it.
fn head(question: &Question, refusal: Option<Refusal>) -> Fields {
    let Refusal { number: refused, place } = refusal.unwrap_or(Refusal { number: 0, place: 0 });
    let mut fields = vec![("refusal", number(refused)), ("place", number(place))];
    if let Some(refusal) = refusal {
        let lines = question.why(refusal);
        fields.push(("reason", Json::Text(refusal.reason().to_string())));
        fields.push(("why", Json::List(lines.into_iter().map(Json::Text).collect())));
    }
    fields
}

fn setting(parts: &Parts) -> Fields {
    let [n, t, f] = [parts.n, parts.t, parts.f].map(|count| Json::Number(count as u64));
    vec![("form", Json::Text(parts.form.name().to_string())), ("n", n), ("t", t), ("f", f)]
}

// By type: the correct and the faulty count, or in plain form the one count.
fn received(types: &[Vec<u32>]) -> Json {
    list(types, |counts| list(counts, |&count| number(count)))
}

fn sent(picture: &Picture) -> Json {
    list(&picture.sent, |&count| number(count))
}

// The boards that are stopped.
fn stopped(picture: &Picture) -> Json {
    list(&picture.stopped_boards(), |&board| Json::Number(board as u64))
}

// In message form: from whom each board has each type, and who has sent it.
fn senders(parts: &Parts, words: &[u64]) -> Fields {
    let set = |word: u64| Json::List((0..64).filter(|q| word >> q & 1 == 1).map(Json::Number).collect());
    let types = 0..parts.types;
    let of_board = |p: usize| Json::List(types.clone().map(|m| set(words[parts.received(p, m).start])).collect());
    let heard_from = Json::List((0..parts.correct()).map(of_board).collect());
    let sent_by = Json::List(types.clone().map(|m| set(words[parts.sent(m)])).collect());
    vec![("received_from", heard_from), ("sent_by", sent_by)]
}

fn record(step: Step) -> Fields {
    let [board, rule, kind, source] = step.record().map(number);
    vec![("board", board), ("rule", rule), ("type", kind), ("source", source)]
}

fn numbered(number: usize, step: Step) -> Fields {
    [vec![("step", Json::Number(number as u64))], record(step)].into_iter().flatten().collect()
}

fn step(parts: &Parts, made: &Move) -> Json {
    let board = usize::from(made.step.board);
    let (from, to) = made.ends(parts);
    let mut fields = numbered(made.number, made.step);
    fields.push(("translated", number(made.other.source)));
    fields.push(("from", number(from)));
    fields.push(("sends", parts.sends(from, to).map_or(Json::Null, |kind| Json::Number(kind as u64))));
    fields.push(("state", Json::Number(made.after.states[board])));
    fields.push(("received", received(&made.after.received[board])));
    fields.push(("sent", sent(&made.after)));
    fields.push(("stopped", stopped(&made.after)));
    fields.push(("swaps_with_previous", Json::Truth(made.swaps)));
    Json::Object(fields)
}

fn number(number: impl Into<u64>) -> Json {
    Json::Number(number.into())
}

fn list<T>(items: &[T], value: impl Fn(&T) -> Json) -> Json {
    Json::List(items.iter().map(value).collect())
}

fn line(fields: Fields) -> String {
    format!("{}\n", Json::Object(fields))
}

#[cfg(test)]
mod tests {
    use super::Json;

    #[test]
    fn texts_are_escaped() {
        let text = Json::Text("a \"b\" \\ \n\u{1} n ≤ 64".to_string());
        assert_eq!(text.to_string(), r#""a \"b\" \\ \u000a\u0001 n ≤ 64""#);
    }
}
