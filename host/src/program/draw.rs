//! What `draw` and `undraw` have to say.

use crate::args::Image;
use crate::graphviz;
use crate::marks;
use crate::picture;
use crate::replies::{self, Reply};
use crate::{show, why};
use macaroosh::calls::{run, Answer};
use macaroosh::parts::front;
use macaroosh::terms::refusals::{self, Place};
use macaroosh::{Refusal, ECHO, MOST_DRAWING, MOST_TABLE};
use std::path::Path;

/// The drawing of a table, or an image of it, which goes to `path`; or why Graphviz gave no image.
pub fn draw(table: &[u8], image: Option<Image>, path: Option<&Path>, plain: bool) -> Result<Reply, String> {
    let why = |refusal| why::of_table(table, refusal);
    drawn(table, image, path, plain, &why)
}

/// The same of the table that a bundle has in front; or that it has none.
pub fn draw_of(bundle: &[u8], image: Option<Image>, path: Option<&Path>, plain: bool) -> Result<Reply, String> {
    let why = |refusal| why::of_bundle(bundle, &ECHO, refusal);
    match front(bundle) {
        Some(table) if !table.is_empty() => drawn(table, image, path, plain, &why),
        Some(_) => Err("macaroosh: this bundle has no table of its own; it is read beside a standing table\n".into()),
        // Its trailer does not fit it, so it is refused before any table is looked at.
        None => {
            let answer = run(bundle, &ECHO, &mut []);
            let told = answer.refused().map_or(String::new(), |refusal| replies::told(refusal, why(refusal)));
            Ok(Reply::of(Vec::new(), answer, told, plain))
        }
    }
}

// A table's drawing or image, and for people the lines that explain a refusal.
fn drawn(
    table: &[u8],
    image: Option<Image>,
    path: Option<&Path>,
    plain: bool,
    why: &dyn Fn(Refusal) -> Vec<String>,
) -> Result<Reply, String> {
    let mut drawing = vec![0; MOST_DRAWING];
    let answer = macaroosh::calls::draw(table, &mut drawing);
    drawing.truncate(answer.count as usize);
    let (output, thing) = match image {
        Some(image) if answer.refusal == 0 => (graphviz::image(&picture::text(table), image)?, "an image"),
        _ => (drawing, "a drawing"),
    };
    // What is told is the length of what is written, so of an image its own.
    let answer = Answer { count: output.len() as u32, ..answer };
    let told = match answer.refused() {
        Some(refusal) => replies::told(refusal, why(refusal)),
        None => wrote(&output, thing, table, path),
    };
    Ok(Reply::of(output, answer, told, plain))
}

/// The table of a drawing, which goes to `path`.
pub fn undraw(text: &[u8], path: Option<&Path>, plain: bool) -> Reply {
    let mut table = vec![0; MOST_TABLE];
    let answer = macaroosh::calls::undraw(text, &mut table);
    table.truncate(answer.count as usize);
    let told = match answer.refused() {
        Some(refusal) => refused(text, refusal) + &why::of_drawing(text).map_or(String::new(), |line| line + "\n"),
        None => wrote(&table, "a table", &table, path),
    };
    Reply::of(table, answer, told, plain)
}

/// What was written of a table, and where.
pub fn wrote(output: &[u8], thing: &str, table: &[u8], path: Option<&Path>) -> String {
    let [states, rules] = picture::counts(table);
    let (bytes, to) = (show::counted(output.len(), "byte"), show::to(path));
    format!("wrote {bytes}{to}: {thing} of {} and {}\n", show::counted(states, "state"), show::counted(rules, "rule"))
}

/// The refusal in words, and what it names in the text: its line, with a mark under the byte.
pub fn refused(text: &[u8], refusal: Refusal) -> String {
    let reason = refusals::told(refusal);
    let at = match named(text, refusal) {
        Some(at) => at,
        None => return reason + "\n",
    };
    format!("{reason}\n{}:\n{}", marks::told(text, at), marks::shown(text, at))
}

// Where in the text a refusal's place is: the byte itself, or the name that a state or a rule begins with.
fn named(text: &[u8], refusal: Refusal) -> Option<usize> {
    let place = refusal.place as usize;
    // What is refused for a state or a rule is a drawing, and each has one such byte.
    let sign = match refusals::of(refusal.number)?.place {
        Place::Byte => return Some(place.min(text.len())),
        Place::State => b'[',
        Place::Rule => b'>',
        _ => return None,
    };
    let at = (0..text.len()).filter(|&i| text[i] == sign).nth(place)?;
    let before = text[..at].iter().rposition(|&byte| byte == b';')?;
    (before..at).find(|&i| text[i] == b's')
}
