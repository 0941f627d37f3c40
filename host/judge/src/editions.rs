//! Tables in the other edition, read aloud: which can be moved, and the bytes that are written. It calls nothing that it judges.

use crate::bench::Moves;
use crate::drawings::Drawing;
use crate::model::{nothing_done, read_table, refused, written, Coefficients, Edition, Model, Rule, Table};
use macaroosh::calls::Answer;
use macaroosh::Refusal;

/// The request's sentences about moving a table, each with its meaning as the default; a broken variant for tests changes one.
pub trait EditionOutline {
    /// The e that every rule and type gets in the second edition.
    fn new_divisor(&self) -> u8 {
        1
    }

    /// Whether the first edition can't say a rule.
    fn divides(&self, rule: &Rule) -> bool {
        rule.coefficients.iter().any(|coefficients| coefficients.e != 1)
    }

    /// The lowest rule that the first edition can't say.
    fn dividing(&self, table: &Table) -> Option<usize> {
        table.rules.iter().position(|rule| self.divides(rule))
    }

    /// What a table that is read is refused for: 32, to the first edition alone; then 33.
    fn check_edition(&self, table: &Table, to: Edition) -> Result<(), Refusal> {
        match self.dividing(table) {
            Some(rule) if to == Edition::First => Err(refused(32, rule)),
            _ if table.edition == to => Err(refused(33, 0)),
            _ => Ok(()),
        }
    }

    /// The bytes of a table in an edition.
    fn in_edition(&self, table: &Table, to: Edition) -> Vec<u8> {
        let other = |sum: &Coefficients| Coefficients { e: self.new_divisor(), ..*sum };
        let moved = |rule: &Rule| Rule { coefficients: rule.coefficients.iter().map(other).collect(), ..rule.clone() };
        let rules = table.rules.iter().map(moved).collect();
        Drawing::of(&Table { rules, edition: to, ..table.clone() }).bytes()
    }

    /// The bytes that are written: all refusals before 30.
    fn moved(&self, part: &[u8], to: Edition) -> Result<Vec<u8>, Refusal> {
        let table = read_table(part)?;
        self.check_edition(&table, to)?;
        Ok(self.in_edition(&table, to))
    }
}

impl EditionOutline for Model {}

impl<E: EditionOutline> Moves for E {
    fn to_edition(&self, to: Edition, table: &[u8], out: &mut [u8]) -> Answer {
        match self.moved(table, to) {
            Ok(bytes) => written(&bytes, out, 30),
            Err(refusal) => nothing_done(refusal),
        }
    }
}
