//! Whoever is judged, or judges.

use crate::model::Edition;
use macaroosh::calls::{Answer, First, Receipts};

/// Whoever answers the three questions about a bundle: the library, the model, or a broken variant of it.
pub trait Bench {
    /// Runs a bundle beside a standing table and leaves the configuration in the lent words.
    fn run(&self, bundle: &[u8], standing: &[u8], words: &mut [u64]) -> Answer;

    /// Writes the bundle in the other form to the lent bytes: message and plain to counting, counting to message.
    fn translate(&self, bundle: &[u8], standing: &[u8], out: &mut [u8]) -> Answer;

    /// Writes the bundle in the form of that number to the lent bytes.
    fn translate_to(&self, bundle: &[u8], standing: &[u8], form: u64, out: &mut [u8]) -> Answer;

    /// The first possible step after the whole schedule; a wait is none.
    fn first_step(&self, bundle: &[u8], standing: &[u8]) -> First;
}

/// Whoever counts receipts and sends: the library, the model, or a broken variant of it.
pub trait Counts {
    /// Runs a bundle as a bench does, and counts the accepted steps that receive a message and those that send a new type.
    fn receipts(&self, bundle: &[u8], standing: &[u8], words: &mut [u64]) -> Receipts;
}

/// Whoever writes tables as drawings and reads those: the library, the model, or a broken variant of it.
pub trait Draws {
    /// Writes the drawing of a table part to the lent bytes.
    fn draw(&self, table: &[u8], out: &mut [u8]) -> Answer;

    /// Writes the table that a text draws to the lent bytes.
    fn undraw(&self, text: &[u8], out: &mut [u8]) -> Answer;
}

/// Whoever replays logs: the library, the model, the fast version, or a broken variant of the model.
pub trait Replays {
    /// Writes the bundle that a log's lines make of one without steps to the lent bytes, and runs it in the lent words.
    fn replay(&self, bundle: &[u8], standing: &[u8], log: &[u8], out: &mut [u8], words: &mut [u64]) -> Answer;
}

/// How far a search goes.
#[derive(Clone, Copy, Debug)]
pub struct Limits {
    /// How many steps more there may be.
    pub depth: u64,
    /// How many are tried at most.
    pub budget: u64,
}

/// Whoever searches a few steps deep: the library, the model, the fast version, or a broken variant of the model.
pub trait Searches {
    /// Writes the first schedule of no more steps than there may be that puts a board in an accepting state to the lent bytes, and
    /// the number tried to the lent word; the count is the schedule's length, or `NONE`, or `SPENT`.
    fn search(&self, bundle: &[u8], standing: &[u8], limits: Limits, out: &mut [u8], tried: &mut u64) -> Answer;
}

/// Whoever checks lists of configurations: the library, the model, the fast version, or a broken variant of the model.
pub trait Checks {
    /// Whether the listed configurations, one after the other, show that no schedule of the bundle's table, n, t, f and starts
    /// reaches an accepting state; the count is how many there are.
    fn check_list(&self, bundle: &[u8], standing: &[u8], list: &[u64]) -> Answer;
}

/// Whoever moves tables to the other edition: the library, the model, or a broken variant of it.
pub trait Moves {
    /// Writes a table part in that edition to the lent bytes.
    fn to_edition(&self, to: Edition, table: &[u8], out: &mut [u8]) -> Answer;
}
