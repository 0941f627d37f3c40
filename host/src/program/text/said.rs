//! What a text says, line by line, whether or not reading would refuse it.

use super::drawing;
use super::lines::{Line, Lines};
use super::wrong::{Mistake, Wrong};
use super::TAGS;
use macaroosh::calls::Step;
use macaroosh::Form;

const MOST_STEPS: usize = 4_096;

/// What a text says.
#[derive(Debug)]
pub struct Said {
    /// The table part that is drawn in front, or nothing.
    pub front: Vec<u8>,
    /// n, t and f.
    pub sizes: [u8; 3],
    /// The form.
    pub form: Form,
    /// The start states.
    pub starts: Vec<u8>,
    /// The steps.
    pub steps: Vec<Step>,
    /// Where the text says so.
    pub places: Places,
}

/// Bytes of the text that a refusal may name.
#[derive(Debug)]
pub struct Places {
    /// The line of n, t, f and form.
    pub sizes: usize,
    /// The line of the starts.
    pub start: usize,
    /// Each start.
    pub starts: Vec<usize>,
}

impl Said {
    /// What the text says, or its first mistake.
    pub fn by(text: &str) -> Result<Said, Wrong> {
        let (front, mut lines, mut line) = front(text)?;
        let at_sizes = line.at();
        let (sizes, form) = numbers(&mut line, if front.is_empty() { OPENING } else { "'n'" })?;
        let mut line = lines.required("'start'")?;
        let at_start = line.at();
        let (at_starts, starts) = starts(&mut line)?.into_iter().unzip();
        let steps = steps(&mut lines, form)?;
        let places = Places { sizes: at_sizes, start: at_start, starts: at_starts };
        Ok(Said { front, sizes, form, starts, steps, places })
    }
}

const OPENING: &str = "'digraph' or 'n'";

// The table in front, the lines after it, and the first of them that has a word.
fn front(text: &str) -> Result<(Vec<u8>, Lines<'_>, Line<'_>), Wrong> {
    let mut lines = Lines::of(text, 0);
    let line = lines.required(OPENING)?;
    if !line.word().starts_with("digraph") {
        return Ok((Vec::new(), lines, line));
    }
    let (table, end) = drawing::table(text, line.at())?;
    let mut lines = Lines::of(text, end);
    if let Some(rest) = lines.any()? {
        rest.close()?;
    }
    let line = lines.required("'n'")?;
    Ok((table, lines, line))
}

fn numbers(line: &mut Line, opening: &str) -> Result<([u8; 3], Form), Mistake> {
    line.expect("n", opening)?;
    let n = line.number(0, "the number n")?;
    line.keyword("t")?;
    let t = line.number(0, "the number t")?;
    line.keyword("f")?;
    let f = line.number(0, "the number f")?;
    line.keyword("form")?;
    let form = Form::ALL.into_iter().find(|form| line.takes(form.name()));
    let form = form.ok_or_else(|| line.mistake("a form was expected: message, counting or plain"))?;
    line.close()?;
    Ok(([n, t, f], form))
}

// The start states, each with its place. More than 255 would be more than any n.
fn starts(line: &mut Line) -> Result<Vec<(usize, u8)>, Mistake> {
    line.keyword("start")?;
    let mut starts = Vec::new();
    while !line.ended() {
        if starts.len() == 255 {
            return Err(line.mistake("the line's end was expected: at most 255 boards start"));
        }
        starts.push((line.at(), line.number(0, "a start state's number")?));
    }
    Ok(starts)
}

fn steps(lines: &mut Lines, form: Form) -> Result<Vec<Step>, Mistake> {
    let mut steps = Vec::new();
    while let Some(mut line) = lines.next_with_words()? {
        if steps.len() == MOST_STEPS {
            return Err(line.mistake("the text's end was expected: a schedule has at most 4,096 steps"));
        }
        steps.push(step(&mut line, form)?);
    }
    Ok(steps)
}

fn step(line: &mut Line, form: Form) -> Result<Step, Mistake> {
    line.keyword("board")?;
    let board = line.number(0, "a board's number")?;
    line.keyword("rule")?;
    let rule = line.number(0, "a rule's number")?;
    if line.ended() {
        return Ok(Step { board, rule, kind: 255, source: 255 });
    }
    line.expect("type", "'type' or the line's end")?;
    let kind = line.number(0, "a type's number")?;
    let source = source(line, form)?;
    line.close()?;
    Ok(Step { board, rule, kind, source })
}

fn source(line: &mut Line, form: Form) -> Result<u8, Mistake> {
    match form {
        Form::Plain if line.ended() => Ok(0),
        Form::Plain => {
            line.expect("from", "'from' or the line's end")?;
            line.number(0, "a source's number")
        }
        Form::Message => {
            line.keyword("from")?;
            line.number(0, "a sender's number")
        }
        Form::Counting => {
            line.keyword("from")?;
            tag(line)
        }
    }
}

// 0 and 1 have their words alone, so that senders in a service log's lines are not taken for tags.
fn tag(line: &mut Line) -> Result<u8, Mistake> {
    match (0..).zip(TAGS).find(|(_, tag)| line.takes(tag)) {
        Some((source, _)) => Ok(source),
        None => line.number(2, "'correct', 'faulty' or another source"),
    }
}
