//! The most of everything, for whoever lends memory.

/// The most words that a configuration has: 64 states, 64 · 4 pairs of counts, 4 sent counts, the set of stopped boards.
pub const MOST_WORDS: usize = 64 + 64 * 4 * 2 + 4 + 1;

/// The most bytes that a table part has: 16 states, 64 rules of 18 bytes in the second edition, a trailer.
pub const MOST_TABLE: usize = 16 * 2 + 64 * 18 + 8;

/// The most steps that a schedule has.
pub const MOST_STEPS: usize = 4_096;

/// The most messages that correct boards receive in all, so that a log needs no more lines with one: 64 boards hear 4 types of 64
/// boards, each once. A schedule is too short to have so many.
pub const MOST_RECEIPTS: usize = 64 * 4 * 64;

/// The most steps that a search goes deep.
pub const MOST_DEPTH: u64 = 8;

/// The most correct boards of a bundle whose configurations can be listed.
pub const MOST_LISTED_BOARDS: usize = 6;

/// The most configurations that a list has.
pub const MOST_LISTED: usize = 512;

/// The most words that a listed configuration has: 6 states, 6 · 4 pairs of counts, 4 sent counts, the set of stopped boards.
pub const MOST_LISTED_WORDS: usize = MOST_LISTED_BOARDS + MOST_LISTED_BOARDS * 4 * 2 + 4 + 1;

/// The most bytes that a bundle has: a table, 64 starts, 4,096 steps, a trailer.
pub const MOST_BYTES: usize = MOST_TABLE + 64 + MOST_STEPS * 4 + 8;

/// The most bytes that a drawing has as it is written: two lines of 12 and 11 bytes, ten states of 19 and six of 20 (one is
/// initial and has a shorter mask), 64 rules of 93 in the second edition, and the last line.
pub const MOST_DRAWING: usize = 12 + 11 + 10 * 19 + 6 * 20 - 1 + 64 * 93 + 2;
