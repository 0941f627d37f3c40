//! The calls for people who write Rust: results in place of numbers, forms and messages as types, memory owned or lent.

use crate::terms::refusals::Refusal;

mod configuration;
mod draw;
mod editions;
mod list;
mod replay;
mod run;
mod search;
mod step;
mod translate;

pub use configuration::Configuration;
pub use draw::{draw, draw_into, undraw, undraw_into};
pub use editions::{to_first, to_first_into, to_second, to_second_into};
pub use list::check_list;
pub use replay::{replay, replay_into, Replayed};
pub use run::{run, run_into, Refused, Run};
pub use search::{search, search_into, Outcome, Searched};
pub use step::{first_step, Message, Sender, Step};
pub use translate::{translate, translate_into};

// What a call writes to so many bytes.
fn owned(room: usize, write: impl FnOnce(&mut [u8]) -> Result<usize, Refusal>) -> Result<Vec<u8>, Refusal> {
    let mut out = vec![0; room];
    let written = write(&mut out)?;
    out.truncate(written);
    Ok(out)
}
