//! Each step of a schedule, by the library alone: the bundle with its first i steps is run for each i, and the senders of a
//! counting or plain schedule come from its translation to message form, the tags of a message schedule from that to counting. Whether
//! two neighbours can be exchanged is a run in which the second stands in the place of the first.

use crate::json;
use crate::part::Part;
use crate::replies::{Question, Reply};
use crate::show::{self, Style};
use macaroosh::calls::{run, translate_to, Answer, Step};
use macaroosh::parts::{Parts, Picture};
use macaroosh::{Form, MOST_WORDS};

/// A part of the trace of a bundle, up to a step that is refused.
pub fn reply(question: &Question, part: Part) -> Reply {
    shown(question, run(question.bundle, question.standing, &mut [0; MOST_WORDS]), part)
}

/// The same where the bundle was run already.
pub fn shown(question: &Question, answer: Answer, part: Part) -> Reply {
    let parts = Parts::of(question.bundle, question.standing).filter(|_| answer.left_a_configuration());
    let moves = parts.as_ref().map_or(Vec::new(), |parts| moves(parts, question.standing, answer.count as usize, part));
    let output = match (question.style, &parts) {
        (Style::Json, _) => json::trace(question, answer, parts.as_ref().map(|parts| (parts, &moves[..]))),
        (Style::Plain, Some(parts)) => show::result(answer) + &lines(parts, &moves),
        (Style::Plain, None) => show::result(answer),
        (Style::People, Some(parts)) => table(parts, &moves, part),
        (Style::People, None) => String::new(),
    };
    question.reply(output, answer.refused())
}

/// An accepted step, which may be a stop.
pub struct Move {
    /// Which step it is, from 0.
    pub number: usize,
    /// Its record.
    pub step: Step,
    /// The same step translated.
    pub other: Step,
    /// What the configuration comes to after it.
    pub after: Picture,
    /// Whether it and the step before it can be exchanged: they are of different boards, and both are accepted from the configuration
    /// before them.
    pub swaps: bool,
}

impl Move {
    /// The states before and after it, which are the same for a stop.
    pub fn ends(&self, parts: &Parts) -> (u8, u8) {
        let own = self.after.states[usize::from(self.step.board)] as u8;
        parts.ends(self.step.rule).unwrap_or((own, own))
    }
}

/// The accepted steps of a bundle, as far as they are asked for.
pub fn moves(parts: &Parts, standing: &[u8], accepted: usize, part: Part) -> Vec<Move> {
    let others = translated(parts, standing, accepted);
    let mut words = [0; MOST_WORDS];
    let mut after = |steps: usize| {
        run(&parts.first(steps), standing, &mut words);
        parts.picture(&words)
    };
    let shown = parts.steps().zip(others).enumerate().filter(|&(number, (step, _))| part.has(number, step));
    let made = |(number, (step, other))| {
        let (after, swaps) = (after(number + 1), swaps(parts, standing, number, step));
        Move { number, step, other, after, swaps }
    };
    shown.map(made).collect()
}

/// The last step of a schedule that runs and has left these words.
pub fn last(parts: &Parts, standing: &[u8], words: &[u64]) -> Option<Move> {
    let other = translated(parts, standing, parts.length()).pop()?;
    let (number, step) = parts.steps().enumerate().last()?;
    Some(Move { number, step, other, after: parts.picture(words), swaps: swaps(parts, standing, number, step) })
}

// Whether an accepted step can be exchanged with the one before it. That is accepted where it stands, so the step is asked there.
fn swaps(parts: &Parts, standing: &[u8], number: usize, step: Step) -> bool {
    let asked = |(place, before): (usize, Step)| {
        let accepted = || run(&parts.first_and(place, step), standing, &mut [0; MOST_WORDS]).refusal == 0;
        before.board != step.board && accepted()
    };
    parts.steps().enumerate().take(number).last().map_or(false, asked)
}

// The accepted steps translated.
fn translated(parts: &Parts, standing: &[u8], accepted: usize) -> Vec<Step> {
    let accepted_part = parts.first(accepted);
    let mut translated = vec![0; accepted_part.len()];
    let to = if parts.form == Form::Message { Form::Counting } else { Form::Message };
    translate_to(&accepted_part, standing, u64::from(to.number()), &mut translated);
    Parts::of(&translated, standing).map_or(Vec::new(), |other| other.steps().collect())
}

// For people: a line for the starts, then a row for each step.
fn table(parts: &Parts, moves: &[Move], part: Part) -> String {
    let only = match part.told() {
        Some(told) if moves.is_empty() => format!("{told}: there are none\n"),
        Some(told) => told + "\n",
        None => String::new(),
    };
    let text = opening(parts) + &only;
    if moves.is_empty() {
        return text;
    }
    text + &rows(parts, moves)
}

/// A row for each step, and what they show.
pub fn rows(parts: &Parts, moves: &[Move]) -> String {
    let signs = signs(moves);
    let any = signs.contains(&true);
    let rows = std::iter::once((head(parts), false)).chain(moves.iter().map(|m| row(parts, m)).zip(signs));
    let rows: Vec<Vec<String>> = rows.map(|(row, sign)| if any { signed(row, sign) } else { row }).collect();
    legend(parts, any) + &show::aligned(&rows, &left(parts))
}

// Which rows have the sign: the one above must be that of the step before, which need not be shown.
fn signs(moves: &[Move]) -> Vec<bool> {
    (0..moves.len()).map(|i| i > 0 && moves[i].swaps && moves[i - 1].number + 1 == moves[i].number).collect()
}

/// What is so before any step.
pub fn opening(parts: &Parts) -> String {
    let starts: String = parts.starts.iter().map(|state| format!(" {state}")).collect();
    format!("{}\nboards start in states{starts}\n", show::setting(parts))
}

/// What the rows show, with the sign or without it.
pub fn legend(parts: &Parts, signs: bool) -> String {
    let chosen = if parts.form == Form::Message { "" } else { "senders are those that the translation chooses\n" };
    let counts = show::counts_of(parts);
    let sign = if signs { SIGN_MEANS } else { "" };
    format!("after each step: what its board has ({counts}), and what was sent\n{chosen}{sign}\n")
}

const SIGN_MEANS: &str =
    "^ this line and the one above it can be exchanged: the configuration after both is the same\n";

/// A row with the sign after its number, or with a place for it.
pub fn signed(mut row: Vec<String>, sign: bool) -> Vec<String> {
    row[0] += if sign { " ^" } else { "  " };
    row
}

// The columns that every trace has.
fn words(parts: &Parts) -> Vec<&'static str> {
    let mut words = vec!["step", "board", "rule", "from -> to", "receives", "sends"];
    if parts.form == Form::Counting {
        words.insert(5, "tag");
    }
    words
}

/// The columns' names.
pub fn head(parts: &Parts) -> Vec<String> {
    let mut head: Vec<String> = words(parts).into_iter().map(str::to_string).collect();
    for first in ["has ", "sent "] {
        head.extend((0..parts.types).map(|m| format!("{}type {m}", if m == 0 { first } else { "" })));
    }
    head
}

/// The columns of words, which are to the left.
pub fn left(parts: &Parts) -> Vec<usize> {
    (3..words(parts).len()).collect()
}

/// The row of a step.
pub fn row(parts: &Parts, m: &Move) -> Vec<String> {
    let Step { board, rule, .. } = m.step;
    let (from, to) = m.ends(parts);
    let mut cells = vec![m.number.to_string(), board.to_string(), rule.to_string()];
    if m.step.stops() {
        cells.extend([format!("{from:>4} loses power"), String::new()]);
    } else {
        cells.push(format!("{from:>4} -> {}", show::state(parts, u64::from(to))));
        cells.push(show::message(parts, if parts.form == Form::Message { m.step } else { m.other }));
    }
    if parts.form == Form::Counting {
        cells.push(match m.step.source {
            0 => "0 correct".to_string(),
            1 => "1 faulty".to_string(),
            _ => String::new(),
        });
    }
    cells.push(parts.sends(from, to).map_or(String::new(), |kind| format!("type {kind}")));
    cells.extend(m.after.received[usize::from(board)].iter().map(|counts| show::sum(counts)));
    cells.extend(m.after.sent.iter().map(u32::to_string));
    cells
}

// For programs: the line of the starts, then those of each step.
fn lines(parts: &Parts, moves: &[Move]) -> String {
    start_line(parts) + &moves.iter().map(lines_of).collect::<String>()
}

/// For programs: `start` and the start states.
pub fn start_line(parts: &Parts) -> String {
    let starts: String = parts.starts.iter().map(|state| format!(" {state}")).collect();
    format!("start{starts}\n")
}

/// For programs: a step's number, record and translated source, and the report's lines of its board, of what was sent and of the
/// stopped boards.
pub fn lines_of(made: &Move) -> String {
    let Move { number, step, other, after, .. } = made;
    let step_line = format!("{} {}\n", step_line(*number, *step), other.source);
    let board = show::board_line(after, usize::from(step.board));
    [step_line, board, show::sent_line(after), show::stopped_line(after)].concat()
}

/// The beginning of such a line: number and record.
pub fn step_line(number: usize, step: Step) -> String {
    let Step { board, rule, kind, source } = step;
    format!("step {number} {board} {rule} {kind} {source}")
}
