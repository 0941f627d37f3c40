//! Every possible step after a schedule, by the library alone: each one that is listed was run as one step more. What a refusal
//! says of more than its own step spares a run: 26 of a board, 22 of a rule with any message, 24 of a message with any rule, 25 of a
//! type from any sender.

use macaroosh::calls::{run, Step};
use macaroosh::parts::Parts;
use macaroosh::{MOST_STEPS, MOST_WORDS};

/// The steps in the order of the first-step question, after a schedule that runs; or why one more can't be tried.
pub fn possible(parts: &Parts, standing: &[u8]) -> Result<Vec<Step>, String> {
    if parts.length() >= MOST_STEPS {
        return Err(format!(
            "macaroosh: --all runs each step as one more, and this schedule has {MOST_STEPS}, the most that there can be; \
             first without --all names the first\n"
        ));
    }
    Ok((0..parts.correct()).flat_map(|board| of_board(parts, standing, board as u8)).collect())
}

// The possible steps of one board.
fn of_board(parts: &Parts, standing: &[u8], board: u8) -> Vec<Step> {
    let mut words = [0; MOST_WORDS];
    let mut refusal = |step: Step| run(&parts.with(&[step]), standing, &mut words).refusal;
    let silent = |rule: u8| Step { board, rule, kind: 255, source: 255 };
    let rules: Vec<u8> = (0..parts.rules() as u8).filter(|&rule| ![22, 26].contains(&refusal(silent(rule)))).collect();
    let mut messages = messages(parts);
    if let Some(&rule) = rules.first() {
        messages.retain(|&(kind, source)| refusal(Step { board, rule, kind, source }) != 24);
    }
    let mut steps = Vec::new();
    for rule in rules {
        let waits = parts.ends(rule).map_or(false, |(from, to)| from == to);
        steps.extend(Some(silent(rule)).filter(|&step| !waits && refusal(step) == 0));
        for only in 0..parts.types as u8 {
            let of_type = messages.iter().filter(|(kind, _)| *kind == only);
            let heard = of_type.map(|&(kind, source)| Step { board, rule, kind, source });
            steps.extend(heard.take_while(|&step| refusal(step) == 0));
        }
    }
    steps
}

// Types and sources in order.
fn messages(parts: &Parts) -> Vec<(u8, u8)> {
    let sources = 0..parts.sources() as u8;
    (0..parts.types as u8).flat_map(|kind| sources.clone().map(move |source| (kind, source))).collect()
}
