//! Lists of configurations, one after the other as a run leaves them in counting form: little-endian words of 64 bits. The library
//! checks them; here they are made, and what it has said is shown.

pub mod check;
pub mod make;
mod show;
mod steps;
pub mod why;

use macaroosh::{MOST_LISTED, MOST_LISTED_WORDS};

/// The most bytes that a list has.
pub const MOST_LIST: usize = MOST_LISTED * MOST_LISTED_WORDS * WORD;

// The bytes of a word.
const WORD: usize = 8;

// The words of a file, as far as they are whole.
fn words(bytes: &[u8]) -> Vec<u64> {
    let word = |bytes: &[u8]| bytes.iter().rev().fold(0, |word, &byte| word << 8 | u64::from(byte));
    bytes.chunks_exact(WORD).map(word).collect()
}
