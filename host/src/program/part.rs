//! Which steps of a trace are shown.

use macaroosh::calls::Step;

/// The steps of one board or of all, from a step and to a step, both included.
#[derive(Clone, Copy, Debug, Default)]
pub struct Part {
    /// The only board.
    pub board: Option<usize>,
    /// The first step.
    pub from: Option<usize>,
    /// The last step.
    pub to: Option<usize>,
}

impl Part {
    /// Whether a step of that number is shown.
    pub fn has(self, number: usize, step: Step) -> bool {
        self.board.map_or(true, |board| board == usize::from(step.board))
            && self.from.map_or(true, |from| from <= number)
            && self.to.map_or(true, |to| number <= to)
    }

    /// What it leaves out, in words: `only steps of board 2, from step 1, to step 3`; nothing where it is all.
    pub fn told(self) -> Option<String> {
        let board = self.board.map(|board| format!("of board {board}"));
        let from = self.from.map(|from| format!("from step {from}"));
        let to = self.to.map(|to| format!("to step {to}"));
        let limits: Vec<String> = [board, from, to].into_iter().flatten().collect();
        (!limits.is_empty()).then(|| format!("only steps {}", limits.join(", ")))
    }
}
