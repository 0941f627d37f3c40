//! Why something is refused, in figures, for people. The library has decided; here the bytes that it refused and the words that
//! it left are read aloud.

use crate::kinds::{self, Kind};
use crate::show::{counted, listed, message_of, sender};
use macaroosh::calls::{run, Step};
use macaroosh::parts::{distance, front, Parts};
use macaroosh::terms::rules::{Edition, Layout, Threshold};
use macaroosh::{Form, Refusal, MOST_WORDS};

/// The lines below the refusal of a bundle.
pub fn of_bundle(bundle: &[u8], standing: &[u8], refusal: Refusal) -> Vec<String> {
    // From 20 on the bundle was read, so it is one.
    let other = if refusal.number < 20 { kinds::instead(bundle, Kind::Bundle) } else { None };
    if let Some(other) = other {
        return vec![format!("this is {other}")];
    }
    match refusal.number {
        1..=9 => of_table_in_use(bundle, standing, refusal),
        11..=14 => of_schedule(bundle, standing, refusal),
        20..=27 => of_step(bundle, standing, refusal),
        35 => {
            let form = Form::of_bundle(bundle).map_or("another", Form::name);
            vec![format!("it is in {form} form; translate --to counting writes it in counting form")]
        }
        _ => Vec::new(),
    }
}

/// The lines below the refusal of a table.
pub fn of_table(table: &[u8], refusal: Refusal) -> Vec<String> {
    // From 30 on the table was read, so it is one.
    let other = if refusal.number < 30 { kinds::instead(table, Kind::Table) } else { None };
    match other {
        Some(other) => vec![format!("this is {other}")],
        None => table_figures(table, refusal),
    }
}

/// The line below the refusal of a drawing, where it is something else.
pub fn of_drawing(text: &[u8]) -> Option<String> {
    kinds::instead(text, Kind::Drawing).map(|other| format!("this is {other}"))
}

// Which table it is, and its figures.
fn of_table_in_use(bundle: &[u8], standing: &[u8], refusal: Refusal) -> Vec<String> {
    match front(bundle) {
        Some(front) if !front.is_empty() => {
            let own = format!("that is the bundle's own table, its first {}", counted(front.len(), "byte"));
            [vec![own], table_figures(front, refusal)].concat()
        }
        _ => {
            let beside = "that is the standing table, since the bundle has none of its own".to_string();
            let figures = match kinds::instead(standing, Kind::Table) {
                Some(other) => vec![format!("its file is {other}")],
                None => table_figures(standing, refusal),
            };
            [vec![beside], figures].concat()
        }
    }
}

// The counts of a table's trailer; or its distances, and what they would have to be; or a rule's divisors, or its edition.
fn table_figures(table: &[u8], refusal: Refusal) -> Vec<String> {
    let (before, trailer) = table.split_at(table.len().saturating_sub(8));
    let (states, rules, layout, factor) = match *trailer {
        [_, _, _, _, states, rules, types_byte, factor] => {
            (usize::from(states), usize::from(rules), Layout::of(types_byte), factor)
        }
        _ => return Vec::new(),
    };
    let counts = [counted(states, "state"), counted(rules, "rule"), counted(layout.types, "type")].join(", ");
    let edition = if layout.edition == Edition::Second { " (second edition)" } else { "" };
    let long = layout.rule_size();
    match refusal.number {
        2 => vec![format!("its trailer says {counts}{edition}, k = {factor}")],
        3 => vec![
            format!(
                "its trailer says that states begin {} bytes before it and rules {}, and {} are before it",
                distance(trailer, 0),
                distance(trailer, 2),
                before.len()
            ),
            format!(
                "{} of 2 bytes and {} of {long} make that {all}, {} and {all}",
                counted(states, "state"),
                counted(rules, "rule"),
                rules * long,
                all = 2 * states + rules * long
            ),
        ],
        32 => divisors(layout, &before[2 * states..], refusal.place as usize),
        33 => vec![format!("its types byte is {}: {}", layout.edition.types_byte(layout.types), counted_in(layout))],
        _ => Vec::new(),
    }
}

// Each divisor of a rule that is not 1.
fn divisors(layout: Layout, rules: &[u8], rule: usize) -> Vec<String> {
    let record = rules.chunks_exact(layout.rule_size()).nth(rule).unwrap_or(&[]);
    let others = layout.thresholds(record).enumerate().filter(|(_, threshold)| threshold.e != 1);
    others.map(|(m, threshold)| format!("rule {rule} has e = {} for type {m}", threshold.e)).collect()
}

fn counted_in(layout: Layout) -> String {
    format!("{} in the {} edition", counted(layout.types, "type"), layout.edition.name())
}

// The figures of a schedule's trailer, or of a start.
fn of_schedule(bundle: &[u8], standing: &[u8], refusal: Refusal) -> Vec<String> {
    let (before, trailer) = bundle.split_at(bundle.len().saturating_sub(8));
    let [n, t, f, form] = match trailer {
        [_, _, _, _, numbers @ ..] if numbers.len() == 4 => [0, 1, 2, 3].map(|i| usize::from(numbers[i])),
        _ => return Vec::new(),
    };
    let (steps, starts) = (distance(trailer, 0), distance(trailer, 2));
    match refusal.number {
        11 => {
            vec![format!("its trailer says that starts begin {starts} bytes before it, and {} are there", before.len())]
        }
        12 => {
            let front = front(bundle).unwrap_or(&[]);
            let factor = if front.is_empty() { standing } else { front }.last().copied().unwrap_or(0);
            vec![format!("n = {n}, t = {t}, f = {f}, k = {factor}, form {form}")]
        }
        13 => vec![
            format!("its trailer says that steps begin {steps} bytes before it and starts {starts}"),
            distances_asked_for(steps, starts, n.saturating_sub(f)),
        ],
        _ => {
            let start = before.get(before.len().saturating_sub(starts) + refusal.place as usize);
            start.map(|state| format!("it starts in state {state}")).into_iter().collect()
        }
    }
}

// What the trailer would have to say: with its first distance where that can be one, or with its second.
fn distances_asked_for(steps: usize, starts: usize, correct: usize) -> String {
    let can_be = |steps: &usize| steps % 4 == 0 && *steps <= 16_384;
    let either = [Some(steps), starts.checked_sub(correct)].into_iter().flatten().filter(can_be);
    let pairs: Vec<String> =
        either.map(|steps| format!("{steps} and {} ({})", steps + correct, counted(steps / 4, "step"))).collect();
    let with = counted(correct, "start");
    match &pairs[..] {
        [] => format!("with {with} no number of steps fits either of them"),
        pairs => format!("with {with} it would have to say {}", pairs.join(" or ")),
    }
}

// The record of the step, and what was so before it.
fn of_step(bundle: &[u8], standing: &[u8], refusal: Refusal) -> Vec<String> {
    let mut words = [0; MOST_WORDS];
    run(bundle, standing, &mut words);
    let parts = Parts::of(bundle, standing);
    let step = parts.as_ref().and_then(|parts| parts.steps().nth(refusal.place as usize));
    match (parts, step) {
        (Some(parts), Some(step)) => {
            let Step { board, rule, .. } = step;
            let stop = if step.stops() { " (a stop)" } else { "" };
            let record = format!("that step is board {board}, rule {rule}{stop}, {}", message_of(step));
            let before = Before { parts, words: &words, step, place: refusal.place as usize };
            [vec![record], before.figures(refusal.number)].concat()
        }
        _ => Vec::new(),
    }
}

/// What was so before a refused step.
struct Before<'a> {
    parts: Parts<'a>,
    words: &'a [u64],
    step: Step,
    place: usize,
}

impl Before<'_> {
    fn figures(&self, number: u8) -> Vec<String> {
        let (parts, Step { board, rule, .. }) = (&self.parts, self.step);
        match number {
            20 => vec![format!("n - f is {}", parts.correct())],
            21 => vec![format!("the table has {}", counted(parts.rules(), "rule"))],
            22 => {
                let (state, from) = (self.words[usize::from(board)], parts.ends(rule).map_or(0, |(from, _)| from));
                vec![format!("board {board} is in state {state}, rule {rule} leaves state {from}")]
            }
            23 if self.step.stops() => vec!["a stop has neither type nor source, which are both 255 then".to_string()],
            23 => {
                let (types, sources) = (counted(parts.types, "type"), counted(parts.sources(), "source"));
                vec![format!("the table has {types}, {} form has {sources}", parts.form.name())]
            }
            24 => vec![self.not_in_transit()],
            26 => vec![self.stopped()],
            27 => {
                let (t, f) = (parts.t, parts.f);
                let stopped = parts.picture(self.words).stopped_boards().len();
                vec![format!("t = {t}, f = {f}, and {} stopped already", boards_are(stopped))]
            }
            _ => self.unmet(),
        }
    }

    // Each threshold that is not met: what the rule asks for, and what the board has after the receipt.
    fn unmet(&self) -> Vec<String> {
        let (parts, Step { board, rule, kind, .. }) = (&self.parts, self.step);
        let received = &parts.picture(self.words).received[usize::from(board)];
        let types = parts.thresholds(rule).zip(received).enumerate();
        types
            .filter_map(|(m, (threshold, counts))| {
                let heard_now = !self.step.silent() && m == usize::from(kind);
                let has = counts.iter().sum::<u32>() + u32::from(heard_now);
                let asked = threshold.asked(parts.n, parts.t);
                let this = if heard_now { ", this one included" } else { "" };
                (i64::from(has) < asked).then(|| {
                    let formula = formula(threshold);
                    format!("rule {rule} asks for {asked} of type {m} ({formula}), board {board} has {has}{this}")
                })
            })
            .collect()
    }

    // Whether it was not sent yet, or heard already, and in which steps.
    fn not_in_transit(&self) -> String {
        let (parts, Step { board, kind, source, .. }) = (&self.parts, self.step);
        let (p, m) = (usize::from(board), usize::from(kind));
        let sent = self.words[parts.sent(m)];
        let heard = self.heard();
        let steps = format!("in {} {}", if heard.len() == 1 { "step" } else { "steps" }, listed(&heard));
        let all = |count: usize, whose: &str| match count {
            1 => format!("board {p} has heard the one message of type {m} {whose} already, {steps}"),
            _ => format!("board {p} has heard the {count} messages of type {m} {whose} already, {steps}"),
        };
        match (parts.form, source) {
            (Form::Message, _) if heard.is_empty() => format!("board {source} has not sent type {m} by then"),
            (Form::Message, _) => {
                format!("board {p} has heard type {m} from {} already, {steps}", sender(parts, source))
            }
            (Form::Counting, 0) if sent == 0 => format!("no correct board has sent type {m} by then"),
            (Form::Counting, 0) => all(heard.len(), "that correct boards have sent by then"),
            (Form::Counting, _) if parts.f == 0 => "no board is faulty".to_string(),
            (Form::Counting, _) => all(heard.len(), "that faulty boards can send"),
            (Form::Plain, _) if heard.is_empty() => {
                format!("no correct board has sent type {m} by then, and no board is faulty")
            }
            (Form::Plain, _) => {
                let whose = format!("that there can be by then ({sent} sent, {} from faulty boards)", parts.f);
                all(heard.len(), &whose)
            }
        }
    }

    // In which step its board has stopped.
    fn stopped(&self) -> String {
        let board = self.step.board;
        let stops = |step: Step| step.board == board && step.stops();
        let step = self.parts.steps().position(stops).unwrap_or(0);
        format!("board {board} has lost power in step {step}")
    }

    // The steps before it in which its board heard such a message.
    fn heard(&self) -> Vec<usize> {
        let Step { board, kind, source, .. } = self.step;
        let same = |step: &Step| (step.board, step.kind, step.source) == (board, kind, source);
        let before = self.parts.steps().take(self.place).enumerate();
        before.filter(|(_, step)| same(step)).map(|(i, _)| i).collect()
    }
}

// How many boards: `no board is`, `1 board is`, `2 boards are`.
fn boards_are(count: usize) -> String {
    match count {
        0 => "no board is".to_string(),
        1 => "1 board is".to_string(),
        _ => format!("{count} boards are"),
    }
}

// A threshold as it is written by hand: `n - t`, `2·t + 1`, `(n + t + 1)/2 rounded up`.
fn formula(threshold: Threshold) -> String {
    let rounded = if threshold.e == 1 { "" } else { " rounded up" };
    threshold.divided(sum(threshold.sum)) + rounded
}

fn sum([a, b, d]: [i8; 3]) -> String {
    let mut text = String::new();
    for (number, letter) in [(a, "n"), (b, "t"), (d, "")] {
        let size = i32::from(number).abs();
        let term = match (size, letter) {
            (0, _) => continue,
            (1, "n" | "t") => letter.to_string(),
            (_, "") => size.to_string(),
            _ => format!("{size}·{letter}"),
        };
        let sign = match (text.is_empty(), number < 0) {
            (true, true) => "-",
            (true, false) => "",
            (false, true) => " - ",
            (false, false) => " + ",
        };
        text += &format!("{sign}{term}");
    }
    if text.is_empty() {
        text += "0";
    }
    text
}
