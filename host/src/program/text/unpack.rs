//! What `unpack` has to say: the text of a bundle that reading does not refuse.

use super::{wrote, TAGS};
use crate::replies::{self, Question, Reply};
use crate::show::Style;
use crate::why;
use macaroosh::calls::{draw, run, Answer, Step};
use macaroosh::parts::Parts;
use macaroosh::{Form, MOST_DRAWING, MOST_WORDS};
use std::path::Path;

/// The text, which goes to `path`, or the refusal.
pub fn reply(question: &Question, path: Option<&Path>) -> Reply {
    let Question { bundle, standing, style, .. } = *question;
    let plain = style == Style::Plain;
    let answer = run(bundle, standing, &mut [0; MOST_WORDS]);
    match Parts::of(bundle, standing) {
        Some(parts) if answer.left_a_configuration() => {
            let text = text(&parts);
            let told = wrote(&text, "the text of a bundle", parts.form, parts.length(), path);
            let answer = Answer { refusal: 0, place: 0, count: text.len() as u32 };
            Reply::of(text, answer, told, plain)
        }
        _ => {
            let words = |refusal| replies::told(refusal, why::of_bundle(bundle, standing, refusal));
            let told = answer.refused().map_or(String::new(), words);
            Reply::of(Vec::new(), answer, told, plain)
        }
    }
}

fn text(parts: &Parts) -> Vec<u8> {
    let mut text = drawing(parts.front);
    let numbers = format!("n {} t {} f {} form {}\n", parts.n, parts.t, parts.f, parts.form.name());
    text.extend(numbers.bytes());
    let starts: String = parts.starts.iter().map(|state| format!(" {state}")).collect();
    text.extend(format!("start{starts}\n").bytes());
    text.extend(parts.steps().flat_map(|step| line(parts.form, step).into_bytes()));
    text
}

// Nothing for no table.
fn drawing(front: &[u8]) -> Vec<u8> {
    let mut drawing = vec![0; MOST_DRAWING];
    let answer = draw(front, &mut drawing);
    drawing.truncate(answer.count as usize);
    drawing
}

/// The line of a step.
pub fn line(form: Form, step: Step) -> String {
    let Step { board, rule, kind, source } = step;
    let message = if step.silent() { String::new() } else { format!(" type {kind}{}", from(form, source)) };
    format!("board {board} rule {rule}{message}\n")
}

fn from(form: Form, source: u8) -> String {
    match (form, TAGS.get(usize::from(source))) {
        (Form::Plain, _) if source == 0 => String::new(),
        (Form::Counting, Some(tag)) => format!(" from {tag}"),
        _ => format!(" from {source}"),
    }
}
