//! The proved library's calls with lent memory and the exact numbers of the C header: for whoever compares every number. The
//! calls at the crate's root say the same in types. All are inlined, so that a measured call costs the same from any package.

use crate::library::ffi;
use crate::terms::refusals::Refusal;

pub use crate::library::answer::{Answer, First, Receipts, Step, NONE, SPENT};

/// Runs a bundle beside a standing table; the configuration is left in the lent words, of which `MOST_WORDS` are enough.
#[inline]
pub fn run(bundle: &[u8], standing: &[u8], words: &mut [u64]) -> Answer {
    unpacked(ffi::run(bundle, standing, words))
}

/// Runs a bundle in the same way, with the same words left, and counts the accepted steps that receive a message and those that send
/// a new type; those are never more than (n - f)·T·n and (n - f)·T.
#[inline]
pub fn receipts(bundle: &[u8], standing: &[u8], words: &mut [u64]) -> Receipts {
    let Answer { refusal, place, count } = unpacked(ffi::receipts(bundle, standing, words));
    Receipts { refusal, place, receipts: count & 0xFFFF, sends: count >> 16 }
}

/// Writes the bundle in the other form, message and plain to counting and counting to message; as many bytes as the bundle
/// has are enough.
#[inline]
pub fn translate(bundle: &[u8], standing: &[u8], out: &mut [u8]) -> Answer {
    unpacked(ffi::translate(bundle, standing, out))
}

/// Writes the bundle in the form of that number, 0 message, 1 counting, 2 plain; as many bytes as the bundle has are enough.
/// Its own form and any other number are refused.
#[inline]
pub fn translate_to(bundle: &[u8], standing: &[u8], form: u64, out: &mut [u8]) -> Answer {
    unpacked(ffi::translate_to(bundle, standing, form, out))
}

/// The first possible step after the whole schedule, or none where no step but waits and stops is accepted. A wait has no message,
/// and its rule has from = to.
#[inline]
pub fn first_step(bundle: &[u8], standing: &[u8]) -> First {
    let packed = ffi::first_step(bundle, standing);
    let [number, low, high, given, board, rule, kind, source] = packed.to_le_bytes();
    if number != 0 {
        return Err(Refusal { number, place: u32::from(u16::from_le_bytes([low, high])) });
    }
    Ok(if given & 1 == 1 { Some(Step { board, rule, kind, source }) } else { None })
}

/// Writes a table part as a drawing in Graphviz's DOT language; `MOST_DRAWING` bytes are enough.
#[inline]
pub fn draw(table: &[u8], out: &mut [u8]) -> Answer {
    unpacked(ffi::draw(table, out))
}

/// Writes the table part that a text draws; `MOST_TABLE` bytes are enough.
#[inline]
pub fn undraw(text: &[u8], out: &mut [u8]) -> Answer {
    unpacked(ffi::undraw(text, out))
}

/// Writes the bundle that the lines of a log make of one without steps, in message form, and runs it: four bytes a line more than
/// the bundle has, and `MOST_WORDS` words, are enough.
#[inline]
pub fn replay(bundle: &[u8], standing: &[u8], log: &[u8], out: &mut [u8], words: &mut [u64]) -> Answer {
    unpacked(ffi::replay(bundle, standing, log, out, words))
}

/// Searches for the first schedule of at most `depth` steps more, after the schedule of a bundle in counting form, that puts a board
/// in an accepting state, and writes its steps' records, of which none is a stop; 4 bytes for each step of the depth are enough. The
/// count of the answer is its length, or `NONE`, or `SPENT` where one more try was due after as many as the budget; `tried` is set to
/// the number tried, which is 0 with any refusal.
#[inline]
pub fn search(bundle: &[u8], standing: &[u8], depth: u64, budget: u64, out: &mut [u8], tried: &mut u64) -> Answer {
    unpacked(ffi::search(bundle, standing, depth, budget, out, tried))
}

/// Checks a list of configurations, one after the other as a run leaves them in counting form, sorted strictly upward by words, the
/// first being the most significant. It is accepted where the start of the bundle, which has no steps, is listed, every possible step
/// but a stop leads from a listed configuration to a listed one, and no listed board is in an accepting state; the count of the answer
/// is how many there are, and 0 with any refusal.
#[inline]
pub fn check_list(bundle: &[u8], standing: &[u8], list: &[u64]) -> Answer {
    unpacked(ffi::check_list(bundle, standing, list))
}

/// Writes a first-edition table part in the second edition, with e = 1 for every rule and type; `MOST_TABLE` bytes are enough.
#[inline]
pub fn to_second(table: &[u8], out: &mut [u8]) -> Answer {
    unpacked(ffi::to_second(table, out))
}

/// Writes a second-edition table part whose every e is 1 in the first edition; as many bytes as the table has are enough.
#[inline]
pub fn to_first(table: &[u8], out: &mut [u8]) -> Answer {
    unpacked(ffi::to_first(table, out))
}

// The refusal in bits 0 to 7, the place in bits 8 to 31, the count in bits 32 to 63.
#[inline]
fn unpacked(packed: u64) -> Answer {
    Answer { refusal: packed as u8, place: packed as u32 >> 8, count: (packed >> 32) as u32 }
}
