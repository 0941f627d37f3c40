//! The judge: the outline read aloud, the same by hand and fast, the comparison of two benches, and the makers of what they are
//! compared on. None of it calls the library, but for `Library`, which stands for that.
#![forbid(unsafe_code)]
#![warn(missing_docs)]

mod bench;
pub mod compare;
pub mod dice;
pub mod drawings;
pub mod editions;
pub mod fast;
mod library;
pub mod lists;
pub mod logs;
pub mod makers;
pub mod model;
pub mod receipts;
pub mod searches;

pub use bench::{Bench, Checks, Counts, Draws, Limits, Moves, Replays, Searches};
pub use library::Library;
