//! A bundle as text. The table's drawing, if it has one of its own; then a line each:
//!
//! ```text
//! n 4 t 1 f 1 form message        # or counting, or plain
//! start 1 1 1                     # a state for each correct board
//! board 0 rule 3                  # no message
//! board 2 rule 3 type 0 from 0    # a sender; in counting form correct or faulty; in plain form no 'from'
//! board 1 rule 254                # it loses power and stops
//! ```
//!
//! Where a form has no such words for a source, its number stands, so that every record can be written.

mod drawing;
mod lines;
pub mod pack;
mod said;
pub mod unpack;
mod wrong;

use crate::show;
use macaroosh::{Form, MOST_DRAWING};
use std::path::Path;

/// The most bytes that a text has as it is written: a drawing, a line of n, t, f and form, 64 starts, 4,096 steps.
pub const MOST_TEXT: usize = MOST_DRAWING
    + "n 64 t 63 f 63 form counting\n".len()
    + "start\n".len()
    + 64 * " 15".len()
    + 4_096 * "board 255 rule 255 type 255 from correct\n".len();

// The words for sources 0 and 1 in counting form.
const TAGS: [&str; 2] = ["correct", "faulty"];

/// That a bundle or its text was written.
pub fn wrote(output: &[u8], thing: &str, form: Form, steps: usize, path: Option<&Path>) -> String {
    let (bytes, to, steps) = (show::counted(output.len(), "byte"), show::to(path), show::counted(steps, "step"));
    format!("wrote {bytes}{to}: {thing} in {} form with {steps}\n", form.name())
}
