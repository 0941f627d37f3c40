//! A file that is something else than what was asked for, by the library's own answers.

use macaroosh::calls::{draw, replay, run, undraw};
use macaroosh::parts::front;
use macaroosh::{ECHO, MOST_BYTES, MOST_DRAWING, MOST_TABLE, MOST_WORDS};

/// What an input can be.
#[derive(Clone, Copy, PartialEq, Eq)]
pub enum Kind {
    /// A schedule, with a table in front or beside it.
    Bundle,
    /// A table alone.
    Table,
    /// A table as text.
    Drawing,
    /// Lines for a bundle's steps.
    Log,
}

// One board in state 1, and no steps: any log can be replayed over it.
const EMPTY: [u8; 9] = [1, 0, 0, 1, 0, 1, 0, 0, 0];

/// What refused bytes are, where the library reads them as something else than was wanted.
pub fn instead(bytes: &[u8], wanted: Kind) -> Option<&'static str> {
    known(bytes, Some(wanted))
}

/// The same in place of a list, which any words may be.
pub fn instead_of_list(bytes: &[u8]) -> Option<&'static str> {
    known(bytes, None)
}

fn known(bytes: &[u8], wanted: Option<Kind>) -> Option<&'static str> {
    let kinds = [Kind::Table, Kind::Bundle, Kind::Drawing, Kind::Log];
    let is = kinds.into_iter().find(|&kind| Some(kind) != wanted && read(bytes, kind))?;
    Some(match (is, wanted) {
        (Kind::Table, Some(Kind::Bundle)) => "a table; a bundle is a table and then a schedule; see draw",
        (Kind::Table, _) => "a table; see draw",
        (Kind::Bundle, Some(Kind::Table)) if front(bytes).map_or(false, |front| !front.is_empty()) => {
            "a bundle; draw --of draws the table of one"
        }
        (Kind::Bundle, Some(Kind::Table)) => "a bundle, and without a table of its own",
        (Kind::Bundle, _) => "a bundle; see run",
        (Kind::Drawing, _) => "a drawing; see undraw",
        (Kind::Log, _) => "a log; see replay",
    })
}

// A bundle or a log is read where steps are looked at, whatever becomes of them. No lines say nothing.
fn read(bytes: &[u8], kind: Kind) -> bool {
    match kind {
        Kind::Bundle => run(bytes, &ECHO, &mut [0; MOST_WORDS]).left_a_configuration(),
        Kind::Table => draw(bytes, &mut [0; MOST_DRAWING]).refusal == 0,
        Kind::Drawing => undraw(bytes, &mut [0; MOST_TABLE]).refusal == 0,
        Kind::Log if bytes.is_empty() => false,
        Kind::Log => replay(&EMPTY, &ECHO, bytes, &mut [0; MOST_BYTES], &mut [0; MOST_WORDS]).left_a_configuration(),
    }
}
