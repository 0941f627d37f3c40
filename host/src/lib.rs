//! The agreement bench for Rust: the proved library's calls. Each asks about a bundle (a table, then a schedule) beside a standing
//! table, or what can follow it, about such a bundle and a service log or a list of configurations, or about a table, its drawing and
//! its edition, and answers a `Result`: a [`Refusal`] has the outline's number, its place and the reason.
//!
//! A call that gives back bytes or a configuration allocates them; beside it one of the same name and `_into` writes to memory
//! that is lent to it, and allocates nothing. [`calls`] has the exact numbers of the C header, [`parts`] what a bundle's bytes say.
//!
#![doc = concat!("```\n", include_str!("../examples/calls.rs"), "```")]
#![deny(unsafe_code)]
#![warn(missing_docs)]

mod library;
pub mod terms;
mod typed;

pub use library::{calls, parts};
pub use terms::echo::ECHO;
pub use terms::form::Form;
pub use terms::refusals::Refusal;
pub use terms::rules::STOP;
pub use terms::sizes::{MOST_BYTES, MOST_DEPTH, MOST_DRAWING, MOST_STEPS, MOST_TABLE, MOST_WORDS};
pub use terms::sizes::{MOST_LISTED, MOST_LISTED_BOARDS, MOST_LISTED_WORDS, MOST_RECEIPTS};
pub use typed::{check_list, draw, draw_into, first_step, replay, replay_into, run, run_into, search, search_into};
pub use typed::{to_first, to_first_into, to_second, to_second_into};
pub use typed::{translate, translate_into, undraw, undraw_into};
pub use typed::{Configuration, Message, Outcome, Refused, Replayed, Run, Searched, Sender, Step};
