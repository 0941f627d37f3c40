//! The drawing in front of a text, which the proved `undraw` reads.

use super::wrong::Wrong;
use crate::draw;
use macaroosh::calls::undraw;
use macaroosh::MOST_TABLE;

/// The table of the drawing that begins at a byte of the text, and the byte after its closing brace, which is the first.
pub fn table(text: &str, from: usize) -> Result<(Vec<u8>, usize), Wrong> {
    let end = text[from..].find('}').map_or(text.len(), |brace| from + brace + 1);
    let shifted = blanked(text, from);
    let mut table = vec![0; MOST_TABLE];
    let answer = undraw(&shifted[..end], &mut table);
    table.truncate(answer.count as usize);
    match answer.refused() {
        Some(refusal) => Err(Wrong::Refused(answer, draw::refused(&shifted, refusal))),
        None => Ok((table, end)),
    }
}

// The text with blanks for the comments before a byte, so that a byte of the drawing is at the same place in both.
fn blanked(text: &str, from: usize) -> Vec<u8> {
    let before = text[..from].bytes().map(|byte| if byte == b'\n' { byte } else { b' ' });
    before.chain(text[from..].bytes()).collect()
}
