//! What the questions answer, whoever is asked: the outline's "Numbers given back".

use crate::terms::refusals::Refusal;
use crate::terms::rules::STOP;

/// What every call answers but those of receipts and of the first step.
#[derive(Clone, Copy, Debug, PartialEq, Eq)]
pub struct Answer {
    /// The refusal's number, or 0.
    pub refusal: u8,
    /// Its place; 0 where none is named.
    pub place: u32,
    /// Steps accepted, or bytes written, or what a search came to, or configurations listed.
    pub count: u32,
}

/// What a search counts where there is no schedule as asked for.
pub const NONE: u32 = 16;

/// What a search counts where its budget was spent before.
pub const SPENT: u32 = 17;

impl Answer {
    /// The refusal, if it is one.
    pub fn refused(self) -> Option<Refusal> {
        refused(self.refusal, self.place)
    }

    /// The count, or the refusal.
    pub fn result(self) -> Result<usize, Refusal> {
        self.refused().map_or(Ok(self.count as usize), Err)
    }

    /// Whether steps were looked at, so that the configuration after the accepted ones is left.
    pub fn left_a_configuration(self) -> bool {
        looked_at_steps(self.refusal)
    }
}

fn refused(number: u8, place: u32) -> Option<Refusal> {
    (number != 0).then_some(Refusal { number, place })
}

// A step's refusals are 20 to 27.
fn looked_at_steps(refusal: u8) -> bool {
    refusal == 0 || (20..30).contains(&refusal)
}

/// What a run answers that counts its receipts and sends.
#[derive(Clone, Copy, Debug, PartialEq, Eq)]
pub struct Receipts {
    /// The refusal's number, or 0, as of the run.
    pub refusal: u8,
    /// Its place; 0 where none is named.
    pub place: u32,
    /// The accepted steps that receive a message; 0 with any refusal but a step's.
    pub receipts: u32,
    /// The accepted steps that send a new type; 0 with any refusal but a step's.
    pub sends: u32,
}

impl Receipts {
    /// The refusal, if it is one.
    pub fn refused(self) -> Option<Refusal> {
        refused(self.refusal, self.place)
    }

    /// Whether steps were looked at, so that the configuration after the accepted ones is left.
    pub fn left_a_configuration(self) -> bool {
        looked_at_steps(self.refusal)
    }
}

/// What the first-step question answers.
pub type First = Result<Option<Step>, Refusal>;

/// One step record.
#[derive(Clone, Copy, Debug, PartialEq, Eq)]
pub struct Step {
    /// Which board moves.
    pub board: u8,
    /// By which rule; 254 stops the board.
    pub rule: u8,
    /// The type of the message that it receives; 255 with source 255 for none.
    pub kind: u8,
    /// The sender; or the tag, 0 correct, 1 faulty; or 0 in plain form.
    pub source: u8,
}

impl Step {
    /// The step of a record.
    #[inline]
    pub fn of(record: [u8; 4]) -> Step {
        let [board, rule, kind, source] = record;
        Step { board, rule, kind, source }
    }

    /// Its record.
    #[inline]
    pub fn record(self) -> [u8; 4] {
        [self.board, self.rule, self.kind, self.source]
    }

    /// The step that stops a board.
    #[inline]
    pub fn stop(board: u8) -> Step {
        Step { board, rule: STOP, kind: 255, source: 255 }
    }

    /// Whether it stops its board, where it is accepted.
    #[inline]
    pub fn stops(self) -> bool {
        self.rule == STOP
    }

    /// Whether it receives nothing.
    #[inline]
    pub fn silent(self) -> bool {
        (self.kind, self.source) == (255, 255)
    }
}
