//! Service logs. A line is one of
//!
//! ```text
//! board 0 rule 3
//! board 2 rule 3 type 0 from 0
//! ```
//!
//! and becomes a step of a bundle in message form, by rule 254 a stop. The library reads them; here they are shown, followed and written.

pub mod follow;
mod line;
pub mod replay;
pub mod say;
pub mod why;

use macaroosh::calls::Answer;
use macaroosh::{MOST_STEPS, MOST_WORDS};

/// The most bytes that a log has.
pub const MOST_LOG: usize = MOST_STEPS * "board 254 rule 254 type 254 from 254\n".len();

/// What a replay answers, and what it leaves.
struct Replayed {
    answer: Answer,
    words: Vec<u64>,
    // The bundle that was made; none where something else than a step is refused.
    bundle: Option<Vec<u8>>,
}

impl Replayed {
    // The replay of a log over a bundle without steps.
    fn of(bundle: &[u8], standing: &[u8], log: &[u8]) -> Replayed {
        let (mut out, mut words) = (vec![0; bundle.len() + 4 * MOST_STEPS], vec![0; MOST_WORDS]);
        let answer = macaroosh::calls::replay(bundle, standing, log, &mut out, &mut words);
        // Where steps were looked at, each line has its line feed.
        out.truncate(bundle.len() + 4 * lines(log));
        Replayed { answer, words, bundle: answer.left_a_configuration().then_some(out) }
    }
}

// How many lines are ended.
fn lines(log: &[u8]) -> usize {
    log.iter().filter(|&&byte| byte == b'\n').count()
}
