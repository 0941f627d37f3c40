//! Service logs: their lines as the steps of a bundle.

use crate::library::calls;
use crate::library::parts::Parts;
use crate::terms::refusals::Refusal;
use crate::terms::sizes::MOST_STEPS;
use crate::typed::run::{Refused, Run};

/// The bundle that a log has made, and its run.
#[derive(Clone, Debug, PartialEq, Eq)]
pub struct Replayed {
    /// The bundle in message form, with a step for each line.
    pub bundle: Vec<u8>,
    /// Its run; where a step is refused, that of the steps before it.
    pub run: Run,
}

/// Replays a log over a bundle without steps, in message form (52): its lines become the steps of that bundle, which is then run.
/// A line is `board P rule R` or `board P rule R type M from Q`, with single blanks, numbers from 0 to 254 in plain decimal without
/// leading zeros, and a line feed at its end. Another line is refused (50), and so are more than 4,096 (51). Where a step is
/// refused, the error has the whole bundle, and the run of the steps before that one.
pub fn replay(bundle: &[u8], standing: &[u8], log: impl AsRef<[u8]>) -> Result<Replayed, Refused<Replayed>> {
    let log = log.as_ref();
    // Each line ends with its line feed; a log of another shape, or of more lines, is refused before lent memory is looked at.
    let lines = log.iter().filter(|&&byte| byte == b'\n').count().min(MOST_STEPS);
    let mut out = vec![0; bundle.len() + 4 * lines];
    let mut words = vec![0; Parts::of(bundle, standing).map_or(0, |parts| parts.words())];
    let answer = calls::replay(bundle, standing, log, &mut out, &mut words);
    let mut left = || {
        // The bundle that was made is run once more, since a replay does not count its receipts.
        let run = calls::receipts(&out, standing, &mut words);
        let run = Run::of(&out, standing, run, &words).expect("a bundle that was read has its words");
        Replayed { run, bundle: out.clone() }
    };
    match answer.refused() {
        None => Ok(left()),
        Some(refusal) => Err(Refused { refusal, before: answer.left_a_configuration().then(left) }),
    }
}

/// The same with lent bytes, of which four for each line more than the bundle has are enough (`MOST_BYTES` always are), and lent
/// words, of which `MOST_WORDS` are enough: how many steps were accepted. Then they are all, so that the bundle that was made is
/// longer by four bytes for each. Where a step is refused, the bytes hold the whole bundle and the words the configuration before
/// that step; any other refusal leaves both as they were.
pub fn replay_into(
    bundle: &[u8],
    standing: &[u8],
    log: impl AsRef<[u8]>,
    out: &mut [u8],
    words: &mut [u64],
) -> Result<usize, Refusal> {
    calls::replay(bundle, standing, log.as_ref(), out, words).result()
}
