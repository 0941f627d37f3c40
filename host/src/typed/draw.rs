//! Tables as drawings, and back.

use crate::library::calls;
use crate::terms::refusals::Refusal;
use crate::terms::sizes::{MOST_DRAWING, MOST_TABLE};
use crate::typed::owned;

/// The drawing of a table part, in Graphviz's DOT language.
pub fn draw(table: &[u8]) -> Result<String, Refusal> {
    let drawing = owned(MOST_DRAWING, |out| draw_into(table, out))?;
    // A drawing has ASCII alone.
    Ok(drawing.into_iter().map(char::from).collect())
}

/// The same to lent bytes, of which `MOST_DRAWING` are enough: how many were written. A refusal leaves them as they were.
pub fn draw_into(table: &[u8], out: &mut [u8]) -> Result<usize, Refusal> {
    calls::draw(table, out).result()
}

/// The table part that a text draws. A text that is no drawing is refused (60) at the byte with which no drawing goes on.
pub fn undraw(text: impl AsRef<[u8]>) -> Result<Vec<u8>, Refusal> {
    owned(MOST_TABLE, |out| undraw_into(text, out))
}

/// The same to lent bytes, of which `MOST_TABLE` are enough: how many were written. A refusal leaves them as they were.
pub fn undraw_into(text: impl AsRef<[u8]>, out: &mut [u8]) -> Result<usize, Refusal> {
    calls::undraw(text.as_ref(), out).result()
}
