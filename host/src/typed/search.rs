//! Searches a few steps deep.

use crate::library::calls::{self, Answer, NONE, SPENT};
use crate::terms::form::Form;
use crate::terms::refusals::Refusal;
use crate::terms::sizes::MOST_DEPTH;
use crate::typed::step::Step;

/// What a search has come to.
#[derive(Clone, Debug, PartialEq, Eq)]
pub struct Searched<S = Vec<Step>> {
    /// How it ended.
    pub outcome: Outcome<S>,
    /// How many steps were tried, accepted or refused.
    pub tried: u64,
}

/// How a search has ended.
#[derive(Clone, Debug, PartialEq, Eq)]
pub enum Outcome<S = Vec<Step>> {
    /// These steps more, or so many, put a board in an accepting state; none where one is in it already. They are the first such
    /// schedule in the order of the search, and need not be the shortest.
    Found(S),
    /// There is no such schedule, in any form.
    None,
    /// As many as the budget were tried, and one more was due; there may be such a schedule.
    Spent,
}

/// Searches for the first schedule of at most `depth` steps more that puts some board in an accepting state, after the schedule of a
/// bundle in counting form (35): depth first, in the order of `first_step`. At each configuration all rules are tried for each
/// board, without a message, waits left out, and then with each type from a correct and from a faulty board. A depth over
/// `MOST_DEPTH` is refused (34).
pub fn search(bundle: &[u8], standing: &[u8], depth: u64, budget: u64) -> Result<Searched, Refusal> {
    let mut out = [0; 4 * MOST_DEPTH as usize];
    let Searched { outcome, tried } = search_into(bundle, standing, depth, budget, &mut out)?;
    let step = |record: &[u8]| Step::of([record[0], record[1], record[2], record[3]], Form::Counting);
    let steps =
        |count: usize| out.chunks_exact(4).take(count).map(|record| step(record).expect("a step that is found"));
    let outcome = match outcome {
        Outcome::Found(count) => Outcome::Found(steps(count).collect()),
        Outcome::None => Outcome::None,
        Outcome::Spent => Outcome::Spent,
    };
    Ok(Searched { outcome, tried })
}

/// The same with lent bytes, of which 4 for each step of the depth are enough: they get the records of the steps found, which are so
/// many, and stay as they were otherwise.
pub fn search_into(
    bundle: &[u8],
    standing: &[u8],
    depth: u64,
    budget: u64,
    out: &mut [u8],
) -> Result<Searched<usize>, Refusal> {
    let mut tried = 0;
    let outcome = match calls::search(bundle, standing, depth, budget, out, &mut tried) {
        Answer { refusal: 0, count: NONE, .. } => Outcome::None,
        Answer { refusal: 0, count: SPENT, .. } => Outcome::Spent,
        answer => Outcome::Found(answer.result()?),
    };
    Ok(Searched { outcome, tried })
}
