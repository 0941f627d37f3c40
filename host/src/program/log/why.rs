//! Why a replay is refused, in figures, for people.

use super::line;
use super::lines;
use crate::kinds::{self, Kind};
use crate::show::counted;
use crate::{marks, why};
use macaroosh::parts::Parts;
use macaroosh::{Form, Refusal};

// The program counts from 0 as the outline does, an editor does not.
const EDITOR: &str = "as an editor counts from 1";

/// The lines below the refusal of a replay; the bundle is the one that was made, where a step of it is refused.
pub fn of_replay(bundle: &[u8], standing: &[u8], log: &[u8], refusal: Refusal) -> Vec<String> {
    let place = refusal.place as usize;
    match refusal.number {
        20..=27 => {
            let step = format!("step {place} is line {} of the log, {EDITOR}", place + 1);
            [why::of_bundle(bundle, standing, refusal), vec![step]].concat()
        }
        50 => of_line(log, place),
        51 => {
            let came = counted(lines(log) + usize::from(!log.ends_with(b"\n")), "line");
            vec![format!("{came} came in; the first too many is line {}, {EDITOR}", place + 1)]
        }
        52 => of_given(bundle, standing),
        _ => why::of_bundle(bundle, standing, refusal),
    }
}

// Where the line stops being one and why; then the line, and a mark under that byte.
fn of_line(log: &[u8], place: usize) -> Vec<String> {
    let lines = log.split(|&byte| byte == b'\n');
    let from = lines.clone().take(place).map(|line| line.len() + 1).sum::<usize>();
    let reach = line::reach(lines.clone().nth(place).unwrap_or(&[]));
    let at = log.len().min(from + reach.bytes);
    let wrong = match log[at..] {
        [] => "the log ends here without a line feed, and every line ends with one",
        [b'\r', b'\n', ..] => "the line ends with a carriage return and a line feed; lines end with a line feed alone",
        [b'\r', ..] => "there is a carriage return; lines end with a line feed alone",
        [b'\n', ..] if reach.bytes == 0 => "the line is empty",
        _ => &reach.wrong,
    };
    let (line, column) = marks::place(log, at);
    let other = kinds::instead(log, Kind::Log).map_or(String::new(), |other| format!("this is {other}\n"));
    let told = format!("line {line}, column {column}, {EDITOR}: {wrong}\n{}{other}", marks::shown(log, at));
    told.lines().map(str::to_string).collect()
}

// Which of the two it is, or both.
fn of_given(bundle: &[u8], standing: &[u8]) -> Vec<String> {
    let told = |parts: Parts| {
        let form = (parts.form != Form::Message).then(|| format!("is in {} form", parts.form.name()));
        let steps = (parts.length() > 0).then(|| format!("has {}", counted(parts.length(), "step")));
        let both: Vec<String> = [form, steps].into_iter().flatten().collect();
        format!("it {}", both.join(" and "))
    };
    Parts::of(bundle, standing).map(told).into_iter().collect()
}
