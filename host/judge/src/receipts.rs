//! Receipts and sends, read aloud: which accepted steps are receipts and which are sends, and how many there are. It calls nothing that
//! it judges.

use crate::bench::{Bench, Counts};
use crate::model::{read, Bundle, Model};
use macaroosh::calls::{Answer, Receipts, Step};

/// The request's sentences about receipts, each with its meaning as the default; a broken variant for tests changes one.
pub trait ReceiptOutline {
    /// Whether an accepted step is a receipt: it has a message, also where its rule has from = to.
    fn receives(&self, _bundle: &Bundle, step: Step) -> bool {
        !step.silent()
    }

    /// Whether an accepted step is a send: the state that its rule enters has sent a type which the one that it leaves has not. A
    /// stop has no rule.
    fn sends(&self, bundle: &Bundle, step: Step) -> bool {
        let sent = |state: usize| bundle.table.states[state].sent;
        bundle.rule(step).map_or(false, |rule| sent(rule.to) & !sent(rule.from) != 0)
    }

    /// How many steps are looked at for that, where a run has answered so: the accepted ones, and none where no step was looked at.
    fn looked_at(&self, answer: Answer) -> usize {
        match answer.refusal {
            0 | 20..=27 => answer.count as usize,
            _ => 0,
        }
    }

    /// What is answered where a run has answered so.
    fn answered(&self, bundle: &Bundle, answer: Answer) -> Receipts {
        let Answer { refusal, place, .. } = answer;
        let steps = &bundle.steps[..self.looked_at(answer)];
        let receipts = steps.iter().filter(|&&step| self.receives(bundle, step)).count() as u32;
        let sends = steps.iter().filter(|&&step| self.sends(bundle, step)).count() as u32;
        Receipts { refusal, place, receipts, sends }
    }
}

impl ReceiptOutline for Model {}

impl<O: ReceiptOutline> Counts for O {
    fn receipts(&self, bytes: &[u8], standing: &[u8], words: &mut [u64]) -> Receipts {
        let answer = Model.run(bytes, standing, words);
        match read(bytes, standing) {
            Ok(bundle) => self.answered(&bundle, answer),
            Err(refusal) => Receipts { refusal: refusal.number, place: refusal.place, receipts: 0, sends: 0 },
        }
    }
}
