//! A configuration: the states of the correct boards, what they have received, what was sent, and which boards are stopped.

use crate::library::parts::{Parts, Picture};
use crate::terms::form::Form;

/// What a run leaves. Boards and types count from 0; a board or a type that the bundle does not have answers `None`.
#[derive(Clone, Debug, PartialEq, Eq)]
pub struct Configuration {
    form: Form,
    // Boxed, so that errors which carry a configuration are small.
    picture: Box<Picture>,
    words: Vec<u64>,
}

impl Configuration {
    /// What the words say that a run of this bundle has left; `None` where the bytes have no parts of a bundle, or the words are
    /// too few for it.
    pub fn of(bundle: &[u8], standing: &[u8], words: &[u64]) -> Option<Configuration> {
        let parts = Parts::of(bundle, standing)?;
        let words = words.get(..parts.words())?.to_vec();
        Some(Configuration { form: parts.form, picture: Box::new(parts.picture(&words)), words })
    }

    /// The form of the bundle.
    pub fn form(&self) -> Form {
        self.form
    }

    /// How many boards are correct; only these have a state.
    pub fn boards(&self) -> usize {
        self.picture.states.len()
    }

    /// How many types of message the table has.
    pub fn types(&self) -> usize {
        self.picture.sent.len()
    }

    /// The state of a correct board.
    pub fn state(&self, board: u8) -> Option<u8> {
        self.picture.states.get(usize::from(board)).and_then(|&state| u8::try_from(state).ok())
    }

    /// How many messages of a type a board has from correct boards; `None` in plain form, which does not tell.
    pub fn correct(&self, board: u8, kind: u8) -> Option<u32> {
        match self.counts(board, kind)? {
            [correct, _] => Some(*correct),
            _ => None,
        }
    }

    /// How many messages of a type a board has from faulty boards; `None` in plain form, which does not tell.
    pub fn faulty(&self, board: u8, kind: u8) -> Option<u32> {
        match self.counts(board, kind)? {
            [_, faulty] => Some(*faulty),
            _ => None,
        }
    }

    /// How many messages of a type a board has from correct and faulty boards together, in any form.
    pub fn received(&self, board: u8, kind: u8) -> Option<u32> {
        self.counts(board, kind).map(|counts| counts.iter().sum())
    }

    /// How many correct boards have sent a type.
    pub fn sent(&self, kind: u8) -> Option<u32> {
        self.picture.sent.get(usize::from(kind)).copied()
    }

    /// Whether a correct board is stopped, so that it takes no further step.
    pub fn stopped(&self, board: u8) -> Option<bool> {
        let board = usize::from(board);
        (board < self.boards()).then(|| self.picture.is_stopped(board))
    }

    /// Its words in the outline's order: states, received by board and type, sent, the set of stopped boards. In message form
    /// received and sent are sets of senders.
    pub fn words(&self) -> &[u64] {
        &self.words
    }

    // Correct and faulty, or in plain form one count.
    fn counts(&self, board: u8, kind: u8) -> Option<&[u32]> {
        self.picture.received.get(usize::from(board))?.get(usize::from(kind)).map(Vec::as_slice)
    }
}
