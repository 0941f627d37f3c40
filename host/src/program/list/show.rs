//! A listed configuration as people read it, whatever its words are.

use crate::show::{aligned, state};
use macaroosh::parts::Parts;

/// A row for each board, and one for what was sent.
pub fn rows(parts: &Parts, words: &[u64]) -> Vec<String> {
    let mut head = vec!["board".to_string(), "state".to_string()];
    head.extend((0..parts.types).map(|m| format!("has type {m}")));
    let mut rows = vec![head];
    for board in 0..parts.correct() {
        let mut row = vec![board.to_string(), state_of(parts, words[board])];
        row.extend((0..parts.types).map(|m| sum(&words[parts.received(board, m)])));
        rows.push(row);
    }
    let mut sent = vec!["sent".to_string(), String::new()];
    sent.extend((0..parts.types).map(|m| words[parts.sent(m)].to_string()));
    rows.push(sent);
    aligned(&rows, &[1]).lines().map(str::to_string).collect()
}

// What is no state of the table is not accepting.
fn state_of(parts: &Parts, number: u64) -> String {
    if number < parts.states() as u64 {
        state(parts, number)
    } else {
        number.to_string()
    }
}

fn sum(counts: &[u64]) -> String {
    counts.iter().map(u64::to_string).collect::<Vec<String>>().join("+")
}

/// What a word of a configuration is.
pub fn word(parts: &Parts, at: usize) -> String {
    let (correct, types) = (parts.correct(), parts.types);
    let cells = (0..correct).flat_map(|board| (0..types).map(move |m| (board, m)));
    let mut cells = cells.filter(|&(board, m)| parts.received(board, m).contains(&at));
    match cells.next() {
        _ if at < correct => format!("the state of board {at}"),
        Some((board, m)) => {
            let whose = if parts.received(board, m).start == at { "correct" } else { "faulty" };
            format!("what board {board} has of type {m} from {whose} boards")
        }
        None if at < parts.stopped() => format!("what was sent of type {}", at - parts.sent(0)),
        None => "the set of stopped boards".to_string(),
    }
}

/// Words in a line, each after a blank.
pub fn line(words: &[u64]) -> String {
    words.iter().map(|word| format!(" {word}")).collect()
}
