//! Steps and their messages, and the first possible step.

use crate::library::calls;
use crate::terms::form::Form;
use crate::terms::refusals::Refusal;
use crate::terms::rules::STOP;

/// A step: a board moves by a rule, and may receive a message; or it stops.
#[derive(Clone, Copy, Debug, PartialEq, Eq, Hash)]
pub struct Step {
    /// Which board moves.
    pub board: u8,
    /// By which rule of the table; or `STOP`, without a message.
    pub rule: u8,
    /// What it receives, if anything.
    pub message: Option<Message>,
}

/// A message that a board receives.
#[derive(Clone, Copy, Debug, PartialEq, Eq, Hash)]
pub struct Message {
    /// Its type.
    pub kind: u8,
    /// Who sent it, as the bundle's form tells it.
    pub from: Sender,
}

/// Who sent a message.
#[derive(Clone, Copy, Debug, PartialEq, Eq, Hash)]
pub enum Sender {
    /// In message form: the board of that number; the faulty ones come after the correct ones.
    Board(u8),
    /// In counting form: some correct board.
    Correct,
    /// In counting form: some faulty board.
    Faulty,
    /// In plain form: some board.
    Any,
}

// Type and source of a step without a message; no type and no board has this number.
const NONE: u8 = 255;

impl Step {
    /// The step that stops a board, which takes no further step.
    pub fn stop(board: u8) -> Step {
        Step { board, rule: STOP, message: None }
    }

    /// The step of a record in a bundle of that form: board, rule, type, source. `None` where type and source are of no message
    /// and do not say that there is none.
    pub fn of(record: [u8; 4], form: Form) -> Option<Step> {
        let [board, rule, kind, source] = record;
        let message = match (kind, source) {
            (NONE, NONE) => None,
            (NONE, _) => return None,
            (kind, source) => Some(Message { kind, from: Sender::of(source, form)? }),
        };
        Some(Step { board, rule, message })
    }

    /// Its record in a bundle of that form. `None` where its sender is of another form, or its type or sender is 255.
    pub fn record(self, form: Form) -> Option<[u8; 4]> {
        let [kind, source] = match self.message {
            None => [NONE, NONE],
            Some(Message { kind: NONE, .. }) => return None,
            Some(Message { kind, from }) => [kind, from.source(form)?],
        };
        Some([self.board, self.rule, kind, source])
    }
}

impl Sender {
    // The sender that a source is in a form.
    fn of(source: u8, form: Form) -> Option<Sender> {
        match (form, source) {
            (Form::Message, NONE) => None,
            (Form::Message, board) => Some(Sender::Board(board)),
            (Form::Counting, 0) => Some(Sender::Correct),
            (Form::Counting, 1) => Some(Sender::Faulty),
            (Form::Plain, 0) => Some(Sender::Any),
            _ => None,
        }
    }

    // Its source in a form, if it is of that.
    fn source(self, form: Form) -> Option<u8> {
        match (form, self) {
            (Form::Message, Sender::Board(board)) if board != NONE => Some(board),
            (Form::Counting, Sender::Correct) => Some(0),
            (Form::Counting, Sender::Faulty) => Some(1),
            (Form::Plain, Sender::Any) => Some(0),
            _ => None,
        }
    }
}

/// The first possible step after the whole schedule, in the bundle's form, or `None` where the run is quiet: no board can do
/// anything but wait. A wait has no message, and its rule leads from a state to the same. Neither a stop nor a step of a stopped
/// board is possible.
pub fn first_step(bundle: &[u8], standing: &[u8]) -> Result<Option<Step>, Refusal> {
    let first = calls::first_step(bundle, standing)?;
    let typed = |step: calls::Step| Step::of(step.record(), Form::of_bundle(bundle)?);
    Ok(first.map(|step| typed(step).expect("a possible step is one of its bundle's form")))
}
