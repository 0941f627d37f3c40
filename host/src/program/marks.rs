//! A byte of a text for people: its line and column, and that line with a mark below the byte.

/// Its line and column, both from 1; each byte has a column.
pub fn place(text: &[u8], at: usize) -> (usize, usize) {
    let line = 1 + text[..at].iter().filter(|&&byte| byte == b'\n').count();
    (line, 1 + at - first_of_line(text, at))
}

/// The same in words, and whether the text ends there.
pub fn told(text: &[u8], at: usize) -> String {
    let (line, column) = place(text, at);
    let ends = if at == text.len() { ", where the text ends" } else { "" };
    format!("line {line}, column {column}{ends}")
}

/// The line, and a mark under the byte; of a long line only what is near the mark.
pub fn shown(text: &[u8], at: usize) -> String {
    const NEAR: usize = 60;
    let first = first_of_line(text, at);
    let from = first.max(at.saturating_sub(NEAR));
    let line = text[from..].split(|&byte| byte == b'\n').next().unwrap_or(&[]);
    let near: String = line.iter().take(2 * NEAR).map(|&byte| visible(byte)).collect();
    let (before, after) = (if from > first { "..." } else { "" }, if line.len() > 2 * NEAR { "..." } else { "" });
    let mark = " ".repeat(before.len() + at - from);
    format!("{}\n{mark}^\n", format!("{before}{near}{after}").trim_end())
}

fn first_of_line(text: &[u8], at: usize) -> usize {
    text[..at].iter().rposition(|&byte| byte == b'\n').map_or(0, |feed| feed + 1)
}

// One character for each byte, so that the mark is under its byte.
fn visible(byte: u8) -> char {
    match byte {
        b' '..=b'~' => char::from(byte),
        b'\t' | b'\r' => ' ',
        _ => '?',
    }
}
