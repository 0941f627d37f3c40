//! What `pack` has to say: the bundle of a text, where reading does not refuse it.

use super::lines::checked;
use super::said::Said;
use super::wrong::Wrong;
use super::wrote;
use crate::marks;
use crate::replies::{self, Reply};
use crate::{show, why};
use macaroosh::calls::{run, Answer};
use macaroosh::terms::refusals;
use macaroosh::{Refusal, MOST_WORDS};
use std::path::Path;

/// The bundle of a text, which goes to `path`, or why there is none.
pub fn reply(text: &[u8], standing: &[u8], path: Option<&Path>, plain: bool) -> Reply {
    match packed(text, standing) {
        Ok((said, bundle)) => {
            let answer = Answer { refusal: 0, place: 0, count: bundle.len() as u32 };
            let told = wrote(&bundle, "a bundle", said.form, said.steps.len(), path);
            Reply::of(bundle, answer, told, plain)
        }
        Err(Wrong::Refused(answer, told)) => Reply::of(Vec::new(), answer, told, plain),
        Err(Wrong::Mistake(mistake)) => {
            Reply { output: Vec::new(), told: Some(mistake.told(text, plain)), refused: true, kept: None }
        }
    }
}

// A refused step is no matter here: what was written may be run.
fn packed(text: &[u8], standing: &[u8]) -> Result<(Said, Vec<u8>), Wrong> {
    let said = Said::by(checked(text)?)?;
    let bundle = bundle(&said);
    let answer = run(&bundle, standing, &mut [0; MOST_WORDS]);
    match answer.refused() {
        Some(refusal) if !answer.left_a_configuration() => {
            let lines = why::of_bundle(&bundle, standing, refusal);
            Err(Wrong::Refused(answer, refused(text, &said, refusal, lines)))
        }
        _ => Ok((said, bundle)),
    }
}

// The distances are those of its parts: at most 255 starts and 4,096 steps.
fn bundle(said: &Said) -> Vec<u8> {
    let steps: Vec<u8> = said.steps.iter().flat_map(|step| step.record()).collect();
    let distances = [steps.len(), steps.len() + said.starts.len()].map(|distance| (distance as u16).to_le_bytes());
    [&said.front[..], &said.starts, &steps, &distances.concat(), &said.sizes, &[said.form.number()]].concat()
}

// The refusal in words, and the line that it is about, if that is one of the text; else its figures.
fn refused(text: &[u8], said: &Said, refusal: Refusal, figures: Vec<String>) -> String {
    let reason = refusals::told(refusal);
    let at = match refusal.number {
        12 => said.places.sizes,
        13 => said.places.start,
        14 => said.places.starts.get(refusal.place as usize).map_or(said.places.start, |&at| at),
        _ => return replies::told(refusal, figures),
    };
    let why = if refusal.number == 13 { starts_for_boards(said) } else { String::new() };
    format!("{reason}\n{}:{why}\n{}", marks::told(text, at), marks::shown(text, at))
}

// The distances are always right, so that 13 is about the number of starts alone.
fn starts_for_boards(said: &Said) -> String {
    let [n, _, f] = said.sizes;
    format!(" {} for n - f = {} boards", show::counted(said.starts.len(), "start"), n.saturating_sub(f))
}
