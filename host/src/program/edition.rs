//! What `edition` has to say of one table.

use crate::draw::wrote;
use crate::replies::{self, Reply};
use crate::why;
use macaroosh::calls::{self, Answer};
use macaroosh::terms::rules::Edition;
use macaroosh::MOST_TABLE;
use std::path::Path;

/// The table in an edition, which goes to `path`.
pub fn reply(table: &[u8], to: Edition, path: Option<&Path>, plain: bool) -> Reply {
    let (output, answer) = moved(table, to);
    let told = refused(table, answer)
        .unwrap_or_else(|| wrote(&output, &format!("a {}-edition table", to.name()), &output, path));
    Reply::of(output, answer, told, plain)
}

/// The table in an edition, and the library's answer.
pub fn moved(table: &[u8], to: Edition) -> (Vec<u8>, Answer) {
    let mut output = vec![0; MOST_TABLE];
    let answer = match to {
        Edition::First => calls::to_first(table, &mut output),
        Edition::Second => calls::to_second(table, &mut output),
    };
    output.truncate(answer.count as usize);
    (output, answer)
}

/// The refusal of a table in words, and its figures, if it is one.
pub fn refused(table: &[u8], answer: Answer) -> Option<String> {
    answer.refused().map(|refusal| replies::told(refusal, why::of_table(table, refusal)))
}
