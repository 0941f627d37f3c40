//! Running a bundle.

use crate::library::calls::{self, Receipts};
use crate::library::parts::Parts;
use crate::terms::refusals::Refusal;
use crate::typed::configuration::Configuration;
use std::error::Error;
use std::fmt::{self, Display, Formatter};

/// Steps that were accepted, and what they left.
#[derive(Clone, Debug, PartialEq, Eq)]
pub struct Run {
    /// How many steps were accepted.
    pub steps: usize,
    /// How many of these receive a message: at most (n - f)·T·n, whatever the schedule, and so at most `MOST_RECEIPTS`.
    pub receipts: usize,
    /// How many of these send a new type: at most (n - f)·T.
    pub sends: usize,
    /// The configuration after them.
    pub configuration: Configuration,
}

impl Run {
    // The run of a bundle whose steps were looked at, by what that has answered and the words that it has left.
    pub(super) fn of(bundle: &[u8], standing: &[u8], answer: Receipts, words: &[u64]) -> Option<Run> {
        let Receipts { refusal, place, receipts, sends } = answer;
        // The steps before a refused one, or all.
        let steps = if refusal == 0 { Parts::of(bundle, standing)?.length() } else { place as usize };
        let configuration = Configuration::of(bundle, standing, words)?;
        Some(Run { steps, receipts: receipts as usize, sends: sends as usize, configuration })
    }
}

/// A run that is refused, or a replay.
#[derive(Clone, Debug, PartialEq, Eq)]
pub struct Refused<B = Run> {
    /// Why, and where.
    pub refusal: Refusal,
    /// The run of the steps before the refused one, and of a replay the bundle besides; `None` where no step was looked at, since
    /// the bundle or the log itself is refused.
    pub before: Option<B>,
}

impl<B> Display for Refused<B> {
    fn fmt(&self, to: &mut Formatter) -> fmt::Result {
        self.refusal.fmt(to)
    }
}

impl<B: fmt::Debug> Error for Refused<B> {}

/// So that `?` gives the refusal alone where no more is asked for.
impl<B> From<Refused<B>> for Refusal {
    fn from(refused: Refused<B>) -> Refusal {
        refused.refusal
    }
}

/// Runs a bundle beside a standing table. Where a step is refused, the error has the run of the steps before it.
pub fn run(bundle: &[u8], standing: &[u8]) -> Result<Run, Refused> {
    // What has no parts is refused before its words are looked at.
    let mut words = vec![0; Parts::of(bundle, standing).map_or(0, |parts| parts.words())];
    let answer = calls::receipts(bundle, standing, &mut words);
    let left = || Run::of(bundle, standing, answer, &words).expect("a bundle that was read has its words");
    match answer.refused() {
        None => Ok(left()),
        Some(refusal) => Err(Refused { refusal, before: answer.left_a_configuration().then(left) }),
    }
}

/// The same with lent words, of which `MOST_WORDS` are enough: how many steps were accepted. The words then hold the
/// configuration (`Configuration::of` reads them), where a step is refused that before it; any other refusal leaves them as they
/// were.
pub fn run_into(bundle: &[u8], standing: &[u8], words: &mut [u64]) -> Result<usize, Refusal> {
    calls::run(bundle, standing, words).result()
}
