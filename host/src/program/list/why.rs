//! Why a list is refused, for people: the configuration at fault, and what is wrong with it. The library has decided.

use super::{show, steps, words, WORD};
use crate::kinds;
use crate::show::{bytes, counted, heard};
use crate::why;
use macaroosh::calls::Step;
use macaroosh::parts::Parts;
use macaroosh::{Form, Refusal, MOST_LISTED, MOST_LISTED_BOARDS};

/// The lines below the refusal of a list, which is given as its file.
pub fn of_check(bundle: &[u8], standing: &[u8], file: &[u8], refusal: Refusal) -> Vec<String> {
    let parts = match Parts::of(bundle, standing) {
        Some(parts) if refusal.number >= 70 => parts,
        _ => return why::of_bundle(bundle, standing, refusal),
    };
    let (list, place) = (words(file), refusal.place as usize);
    if (refusal.number, refusal.place) == (70, 0) {
        return of_sizes(&parts, file);
    }
    if refusal.number == 72 {
        return [vec!["the start is:".to_string()], show::rows(&parts, &steps::start(&parts))].concat();
    }
    let all: Vec<&[u64]> = list.chunks_exact(parts.words()).collect();
    let here = match all.get(place) {
        Some(here) => here,
        None => return Vec::new(),
    };
    let shown = [vec![format!("configuration {place}, counted from 0, is:")], show::rows(&parts, here)].concat();
    let figures = match refusal.number {
        70 => of_order(&parts, place, all[place - 1], here),
        71 => (0..here.len()).filter_map(|at| of_range(&parts, at, here[at])).collect(),
        73 => of_step(&parts, here, outside(&parts, &list, place)),
        _ => steps::accepting(&parts, here).iter().map(|board| of_state(*board, here[*board])).collect(),
    };
    [shown, figures].concat()
}

/// The first step that leads from a listed configuration to one that is not listed, and that one.
pub fn outside(parts: &Parts, list: &[u64], place: usize) -> Option<(Step, Vec<u64>)> {
    let all: Vec<&[u64]> = list.chunks_exact(parts.words()).collect();
    steps::taken(parts, all.get(place)?).find(|(_, there)| all.binary_search(&&there[..]).is_err())
}

// What is wrong with the bundle, or with the list's length.
fn of_sizes(parts: &Parts, file: &[u8]) -> Vec<String> {
    if parts.form != Form::Counting {
        let form = parts.form.name();
        return vec![format!("the bundle is in {form} form; translate --to counting writes it in counting form")];
    }
    if parts.length() > 0 {
        return vec![format!("the bundle has {}", counted(parts.length(), "step"))];
    }
    if parts.correct() > MOST_LISTED_BOARDS {
        return vec![format!("n - f is {}, and there are lists for at most {MOST_LISTED_BOARDS}", parts.correct())];
    }
    let length = match file.len() % WORD {
        0 => {
            let (have, wide) = (counted(file.len() / WORD, "word"), parts.words());
            format!("the list has {have}, a configuration has {wide}, and there are at most {MOST_LISTED}")
        }
        _ => format!("the list has {}, and a word has {WORD}", counted(file.len(), "byte")),
    };
    let other = kinds::instead_of_list(file).map(|other| format!("this is {other}"));
    [vec![length], other.into_iter().collect()].concat()
}

// Why a configuration does not come after the one before it.
fn of_order(parts: &Parts, place: usize, before: &[u64], here: &[u64]) -> Vec<String> {
    let other = format!("configuration {}", place - 1);
    let lower = (0..here.len()).find(|&at| here[at] != before[at]);
    vec![match lower {
        None => format!("it is the same as {other}"),
        Some(at) => {
            let (what, old, new) = (show::word(parts, at), before[at], here[at]);
            format!("it does not come after {other}: word {at}, {what}, is {old} there and {new} here")
        }
    }]
}

// What is wrong with a word, if it is out of range.
fn of_range(parts: &Parts, at: usize, word: u64) -> Option<String> {
    let received = (parts.correct()..parts.sent(0)).contains(&at);
    let (most, bound) = match at {
        _ if at < parts.correct() => {
            (parts.states() as u64 - 1, format!("the table has {}", counted(parts.states(), "state")))
        }
        _ if received && (at - parts.correct()) % 2 == 1 => (parts.f as u64, format!("f is {}", parts.f)),
        _ if at < parts.stopped() => (parts.correct() as u64, format!("n - f is {}", parts.correct())),
        _ => (0, "nobody is stopped in a list".to_string()),
    };
    (word > most).then(|| format!("word {at}, {}, is {word}, and {bound}", show::word(parts, at)))
}

// The step that leads outside, and where.
fn of_step(parts: &Parts, here: &[u64], outside: Option<(Step, Vec<u64>)>) -> Vec<String> {
    let (step, there) = match outside {
        Some(led) => led,
        None => return Vec::new(),
    };
    let (from, to) = parts.ends(step.rule).unwrap_or((0, 0));
    let (heard, record) = (heard(parts, step), bytes(step));
    let Step { board, rule, .. } = step;
    let taken = format!("board {board} can take rule {rule} ({from} -> {to}), {heard}; as bytes: {record}");
    let changed = |at: &usize| there[*at] != here[*at];
    let changes = (0..here.len()).filter(changed);
    let changes = changes.map(|at| format!("{} becomes {}", show::word(parts, at), there[at]));
    [vec![taken, "that leads to a configuration that is not listed:".to_string()], changes.collect()].concat()
}

fn of_state(board: usize, state: u64) -> String {
    format!("board {board} is in state {state}, which is accepting")
}
