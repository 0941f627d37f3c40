//! Lists of configurations from outside.

use crate::library::calls;
use crate::terms::refusals::Refusal;

/// Checks that a list of configurations shows a table safe: how many there are. The bundle gives the table, n, t, f and the starts; it
/// is in counting form, without steps, and has at most `MOST_LISTED_BOARDS` correct boards (70). The list is words, one configuration
/// after the other as `Configuration::words` gives them, at most `MOST_LISTED`, sorted strictly upward, the first word being the most
/// significant (70), each in range (71): a state of the table, counts of correct boards up to n - f, of faulty ones up to f, nobody
/// stopped. It is accepted where it holds the start (72), every possible step but a stop leads from each to a listed one (73), and no
/// listed board is in an accepting state (74). Then no schedule of any length, in any form, reaches an accepting state from there.
pub fn check_list(bundle: &[u8], standing: &[u8], list: &[u64]) -> Result<usize, Refusal> {
    calls::check_list(bundle, standing, list).result()
}
