//! Answers as people read them, and as programs do.

use crate::names::shown;
use macaroosh::calls::{Answer, First, Receipts, Step};
use macaroosh::parts::{Parts, Picture};
use macaroosh::{Form, Refusal};
use std::path::Path;

/// Whom an answer is for.
#[derive(Clone, Copy, Debug, PartialEq, Eq)]
pub enum Style {
    /// People, who read words.
    People,
    /// Programs: numbers in lines.
    Plain,
    /// Programs: one JSON object.
    Json,
}

/// The report program's first line.
pub fn result(answer: Answer) -> String {
    format!("result {} {} {}\n", answer.refusal, answer.place, answer.count)
}

/// The report program's other lines.
pub fn lines(picture: &Picture) -> String {
    let boards: String = (0..picture.states.len()).map(|p| board_line(picture, p)).collect();
    boards + &sent_line(picture) + &stopped_line(picture)
}

/// The report's line of one board.
pub fn board_line(picture: &Picture, p: usize) -> String {
    let counts: String = picture.received[p].iter().flatten().map(|count| format!(" {count}")).collect();
    format!("p {p} {}{counts}\n", picture.states[p])
}

/// The report's line of what was sent.
pub fn sent_line(picture: &Picture) -> String {
    let counts: String = picture.sent.iter().map(|count| format!(" {count}")).collect();
    format!("sent{counts}\n")
}

/// The report's line of the stopped boards.
pub fn stopped_line(picture: &Picture) -> String {
    format!("stopped {}\n", picture.stopped)
}

/// The line of receipts and sends, which the report has not.
pub fn receipts_line(had: Receipts) -> String {
    format!("receipts {} {}\n", had.receipts, had.sends)
}

/// The first step for programs: `result R P`, then `step B R T S` or `none`.
pub fn first_lines(first: First) -> String {
    match first {
        Ok(Some(Step { board, rule, kind, source })) => format!("result 0 0\nstep {board} {rule} {kind} {source}\n"),
        Ok(None) => "result 0 0\nnone\n".to_string(),
        Err(Refusal { number, place }) => format!("result {number} {place}\nnone\n"),
    }
}

/// The first step for people.
pub fn first(parts: &Parts, step: Option<Step>) -> String {
    let after = counted(parts.length(), "step");
    match step {
        None => format!("after {after} the run is quiet: no board can do anything but wait\n"),
        Some(step) => {
            let (from, to) = parts.ends(step.rule).unwrap_or((0, 0));
            let Step { board, rule, .. } = step;
            let (message, bytes) = (heard(parts, step), bytes(step));
            format!(
                "after {after} the first possible step is: board {board}, rule {rule} ({from} -> {to}), {message}\n\
                 as bytes: {bytes}\n"
            )
        }
    }
}

/// All possible steps for programs: as the first step, with a line for each.
pub fn all_lines(steps: &[Step]) -> String {
    let line = |step: &Step| step.record().iter().fold("step".to_string(), |line, number| format!("{line} {number}"));
    let lines: String = steps.iter().map(|step| line(step) + "\n").collect();
    format!("result 0 0\n{}", if lines.is_empty() { "none\n" } else { &lines })
}

/// All possible steps for people, in the order of the first-step question.
pub fn all(parts: &Parts, steps: &[Step]) -> String {
    if steps.is_empty() {
        return first(parts, None);
    }
    let (after, possible) = (counted(parts.length(), "step"), counted(steps.len(), "possible step"));
    format!("{}\nafter {after}: {possible}, waits aside\n\n{}", setting(parts), rows(parts, steps))
}

/// A row for each step by its record alone.
pub fn rows(parts: &Parts, steps: &[Step]) -> String {
    let mut rows = vec![["board", "rule", "from -> to", "receives", "as bytes"].map(str::to_string).to_vec()];
    for &step in steps {
        let (from, to) = parts.ends(step.rule).unwrap_or((0, 0));
        let ends = format!("{from:>4} -> {}", state(parts, u64::from(to)));
        rows.push(vec![step.board.to_string(), step.rule.to_string(), ends, heard(parts, step), bytes(step)]);
    }
    aligned(&rows, &[2, 3, 4])
}

/// The message of a step as its form has it.
pub fn heard(parts: &Parts, step: Step) -> String {
    let Step { kind, source, .. } = step;
    match (parts.form, source) {
        _ if step.silent() => message(parts, step),
        (Form::Message, _) => message(parts, step),
        (Form::Counting, 0) => format!("type {kind} from a correct board"),
        (Form::Counting, _) => format!("type {kind} from a faulty board"),
        (Form::Plain, _) => format!("a message of type {kind}"),
    }
}

/// A step as it lies in a bundle.
pub fn bytes(step: Step) -> String {
    step.record().map(|byte| format!("{byte:02X}")).join(" ")
}

/// The message of a step whose source is a sender.
pub fn message(parts: &Parts, step: Step) -> String {
    if step.silent() {
        "no message".to_string()
    } else {
        format!("type {} from {}", step.kind, sender(parts, step.source))
    }
}

/// A sender by its number.
pub fn sender(parts: &Parts, source: u8) -> String {
    format!("{} {source}", if usize::from(source) < parts.correct() { "board" } else { "faulty" })
}

/// The message of a record, whatever its numbers.
pub fn message_of(step: Step) -> String {
    match step {
        _ if step.silent() => "no message".to_string(),
        Step { kind, source, .. } => format!("type {kind}, source {source}"),
    }
}

/// The form and the boards of a bundle in one line.
pub fn setting(parts: &Parts) -> String {
    let form = parts.form.name();
    let correct = parts.correct();
    let boards = match (correct, parts.f) {
        (1, 0) => "board 0 is correct".to_string(),
        (_, 0) => format!("boards 0 to {} are correct", correct - 1),
        (1, 1) => "board 0 is correct, 1 is faulty".to_string(),
        (_, 1) => format!("boards 0 to {} are correct, {correct} is faulty", correct - 1),
        (1, _) => format!("board 0 is correct, 1 to {} are faulty", parts.n - 1),
        (_, _) => format!("boards 0 to {} are correct, {correct} to {} are faulty", correct - 1, parts.n - 1),
    };
    format!("{form} form, n = {}, t = {}, f = {}: {boards}", parts.n, parts.t, parts.f)
}

/// How many receipts and sends there were, and how many no run of these boards exceeds.
fn receipts(parts: &Parts, had: Receipts) -> String {
    let of = |count: u32, most: usize, thing: &str| {
        let (count, many) = (grouped(count.into()), grouped(most as u64));
        format!("{count} of at most {many} {thing}{}", if most == 1 { "" } else { "s" })
    };
    let receipts = of(had.receipts, parts.most_receipts(), "receipt");
    let sends = of(had.sends, parts.most_sends(), "send");
    format!("{receipts}, {sends}")
}

/// The configuration after so many steps, and how many of those are receipts and sends.
pub fn configuration(parts: &Parts, picture: &Picture, steps: u32, had: Receipts) -> String {
    let mut head = vec!["board".to_string(), "state".to_string()];
    head.extend((0..parts.types).map(|m| format!("has type {m}")));
    let mut rows = vec![head];
    for (p, &in_state) in picture.states.iter().enumerate() {
        let stopped = if picture.is_stopped(p) { ", stopped" } else { "" };
        let mut row = vec![p.to_string(), state(parts, in_state) + stopped];
        row.extend(picture.received[p].iter().map(|counts| sum(counts)));
        rows.push(row);
    }
    let mut sent = vec!["sent".to_string(), String::new()];
    sent.extend(picture.sent.iter().map(u32::to_string));
    rows.push(sent);
    let after = counted(steps as usize, "step");
    format!(
        "{}\nafter {after}: what each board has ({}), and what was sent\n{}\n\n{}",
        setting(parts),
        counts_of(parts),
        receipts(parts, had),
        aligned(&rows, &[1])
    )
}

/// A state, and whether it is accepting.
pub fn state(parts: &Parts, number: u64) -> String {
    format!("{number}{}", if parts.accepting(number) { " accepting" } else { "" })
}

/// Whose messages `sum` counts.
pub fn counts_of(parts: &Parts) -> &'static str {
    match parts.form {
        Form::Message | Form::Counting => "from correct + faulty boards",
        Form::Plain => "from correct and faulty boards together",
    }
}

/// A board's counts of one type.
pub fn sum(counts: &[u32]) -> String {
    counts.iter().map(u32::to_string).collect::<Vec<String>>().join("+")
}

/// Where an output went, if it is a file.
pub fn to(path: Option<&Path>) -> String {
    path.map_or(String::new(), |path| format!(" to {}", shown(path.as_os_str())))
}

/// A number of things: `1 step`, `5 steps`.
pub fn counted(number: usize, thing: &str) -> String {
    format!("{number} {thing}{}", if number == 1 { "" } else { "s" })
}

/// A large number as people read it: `100,000,000`.
pub fn grouped(number: u64) -> String {
    let digits = number.to_string();
    let groups: Vec<&str> =
        digits.as_bytes().rchunks(3).rev().map(|group| std::str::from_utf8(group).unwrap_or("")).collect();
    groups.join(",")
}

/// Numbers in a row: `2`, `2 and 3`, `2, 3 and 5`.
pub fn listed(numbers: &[usize]) -> String {
    let words: Vec<String> = numbers.iter().map(usize::to_string).collect();
    match words.split_last() {
        Some((last, before)) if !before.is_empty() => format!("{} and {last}", before.join(", ")),
        _ => words.concat(),
    }
}

/// Rows of cells as columns, to the right but for those named.
pub fn aligned(rows: &[Vec<String>], to_the_left: &[usize]) -> String {
    let columns = Columns::of(rows, to_the_left);
    rows.iter().map(|row| columns.line(row)).collect()
}

/// How wide columns are, and which of them are to the left.
pub struct Columns {
    widths: Vec<usize>,
    to_the_left: Vec<usize>,
}

impl Columns {
    /// As wide as these rows ask for.
    pub fn of(rows: &[Vec<String>], to_the_left: &[usize]) -> Columns {
        let columns = rows.iter().map(Vec::len).max().unwrap_or(0);
        let wide =
            |c: usize| rows.iter().filter_map(|row| row.get(c)).map(|cell| cell.chars().count()).max().unwrap_or(0);
        Columns { widths: (0..columns).map(wide).collect(), to_the_left: to_the_left.to_vec() }
    }

    /// A row as a line.
    pub fn line(&self, row: &[String]) -> String {
        let mut line = String::new();
        for (c, cell) in row.iter().enumerate() {
            let width = self.widths.get(c).copied().unwrap_or(0);
            line += if c == 0 { "" } else { "  " };
            line += &if self.to_the_left.contains(&c) { format!("{cell:<width$}") } else { format!("{cell:>width$}") };
        }
        format!("{}\n", line.trim_end())
    }
}
