//! What `replay` has to say of a whole log: what it leaves, as `run` or `trace` shows it, and the bundle that it makes.

use super::Replayed;
use crate::part::Part;
use crate::replies::{self, Question, Reply};
use crate::trace;
use std::path::Path;

/// The replay of a log over the question's bundle, with a row for each line or without; the bundle that it makes goes to `path`.
pub fn reply(asked: &Question, log: &[u8], rows: bool, path: Option<&Path>) -> Reply {
    let Replayed { answer, words, bundle } = Replayed::of(asked.bundle, asked.standing, log);
    let question = Question { bundle: bundle.as_deref().unwrap_or(asked.bundle), log: Some(log), ..*asked };
    let reply = match rows {
        true => trace::shown(&question, answer, Part::default()),
        false => replies::shown(&question, answer, &words),
    };
    replies::kept(reply, &question, bundle.as_deref(), path)
}
