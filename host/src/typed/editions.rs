//! Tables in the other edition of rules.

use crate::library::calls;
use crate::terms::refusals::Refusal;
use crate::terms::sizes::MOST_TABLE;
use crate::typed::owned;

/// A first-edition table part in the second edition, with e = 1 for every rule and type; any schedule runs the same on both. What
/// is in the second edition already is refused (33).
pub fn to_second(table: &[u8]) -> Result<Vec<u8>, Refusal> {
    owned(MOST_TABLE, |out| to_second_into(table, out))
}

/// The same to lent bytes, of which `MOST_TABLE` are enough: how many were written. A refusal leaves them as they were.
pub fn to_second_into(table: &[u8], out: &mut [u8]) -> Result<usize, Refusal> {
    calls::to_second(table, out).result()
}

/// A second-edition table part in the first edition. The lowest rule with an e other than 1 is refused (32), and what is in the
/// first edition already (33).
pub fn to_first(table: &[u8]) -> Result<Vec<u8>, Refusal> {
    owned(table.len(), |out| to_first_into(table, out))
}

/// The same to lent bytes, of which as many as the table has are enough: how many were written. A refusal leaves them as they
/// were.
pub fn to_first_into(table: &[u8], out: &mut [u8]) -> Result<usize, Refusal> {
    calls::to_first(table, out).result()
}
