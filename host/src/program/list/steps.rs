//! Steps from any configuration in counting form, reached or not, by the outline's "One step". The library has read the bundle and found
//! the words in range; what it says of a list is what counts.

use macaroosh::calls::Step;
use macaroosh::parts::Parts;

/// What the boards' starts are before any step.
pub fn start(parts: &Parts) -> Vec<u64> {
    let states = parts.starts.iter().map(|&state| u64::from(state));
    states.chain(std::iter::repeat(0)).take(parts.words()).collect()
}

/// The boards in accepting states.
pub fn accepting(parts: &Parts, words: &[u64]) -> Vec<usize> {
    (0..parts.correct()).filter(|&board| parts.accepting(words[board])).collect()
}

/// Every accepted step but stops, in the order of the first-step question, and where it leads; a wait leads nowhere else.
pub fn taken<'a>(parts: &'a Parts, words: &'a [u64]) -> impl Iterator<Item = (Step, Vec<u64>)> + 'a {
    let boards = 0..parts.correct() as u8;
    let rules = boards.flat_map(move |board| (0..parts.rules() as u8).map(move |rule| (board, rule)));
    let left = rules.filter_map(move |(board, rule)| {
        let ends = parts.ends(rule)?;
        (u64::from(ends.0) == words[usize::from(board)]).then_some((board, rule, ends))
    });
    left.flat_map(move |(board, rule, ends)| {
        let silent = Step { board, rule, kind: 255, source: 255 };
        let heard = (0..parts.types as u8).flat_map(move |kind| [0, 1].map(|source| Step { kind, source, ..silent }));
        let steps = std::iter::once(silent).chain(heard);
        steps.filter(move |&step| accepted(parts, words, step)).map(move |step| (step, after(parts, words, step, ends)))
    })
}

// Whether a step by a rule that leaves its board's state is accepted: its message is in transit, and each threshold is met with it.
fn accepted(parts: &Parts, words: &[u64], step: Step) -> bool {
    let (board, kind) = (usize::from(step.board), usize::from(step.kind));
    let in_transit = || {
        let received = &words[parts.received(board, kind)];
        match step.source {
            0 => received[0] < words[parts.sent(kind)],
            _ => received[1] < parts.f as u64,
        }
    };
    if !step.silent() && !in_transit() {
        return false;
    }
    parts.thresholds(step.rule).enumerate().all(|(m, threshold)| {
        let count = words[parts.received(board, m)].iter().sum::<u64>() + u64::from(!step.silent() && m == kind);
        count as i64 >= threshold.asked(parts.n, parts.t)
    })
}

// The words after an accepted step between those states.
fn after(parts: &Parts, words: &[u64], step: Step, (from, to): (u8, u8)) -> Vec<u64> {
    let mut words = words.to_vec();
    words[usize::from(step.board)] = u64::from(to);
    if !step.silent() {
        let received = parts.received(usize::from(step.board), usize::from(step.kind));
        words[received.start + usize::from(step.source)] += 1;
    }
    if let Some(kind) = parts.sends(from, to) {
        words[parts.sent(kind)] += 1;
    }
    words
}
