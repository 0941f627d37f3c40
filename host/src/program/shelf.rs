//! Many tables moved to an edition, each to a file of its own name in one folder. What keeps one back is told, and the others go on.

use crate::args::{Input, Shelf};
use crate::names::{quoted, shown};
use crate::progress::Progress;
use crate::show::Style;
use crate::{edition, files};
use macaroosh::calls::Answer;
use std::ffi::OsStr;
use std::fs;
use std::io::ErrorKind;
use std::path::Path;

/// What became of a table.
enum Fate {
    /// It is in its file.
    Moved(Answer),
    /// It is refused, for that reason.
    Refused(Answer, String),
    /// It can't be read or written, or a file is in the way: what is told of it.
    Left(String),
}

/// Moves all of them: the exit status, or that there is no such folder.
pub fn moved(shelf: &Shelf) -> Result<u8, String> {
    let folder = fs::metadata(&shelf.folder).map_err(|error| files::unwritten(&quoted(&shelf.folder), &error))?;
    if !folder.is_dir() {
        return Err(format!("macaroosh: {} is no folder\n", quoted(&shelf.folder)));
    }
    let plain = shelf.style == Style::Plain;
    // Those that are moved, refused and left out.
    let mut counts = [0; 3];
    let mut lines = String::new();
    let all = shelf.tables.len();
    let mut progress = Progress::of(all > FEW);
    for (done, (name, input)) in shelf.tables.iter().enumerate() {
        progress.show(&format!("{done} of {all} tables"));
        let fate = became(shelf, name, input);
        counts[fate.status()] += 1;
        match fate {
            Fate::Moved(answer) => lines += &line(name, answer),
            Fate::Refused(answer, _) if plain => lines += &line(name, answer),
            // One line for each file.
            Fate::Refused(_, reason) => {
                progress.tell(&format!("{}: {}\n", files::name(input), reason.trim_end().replace('\n', "; ")));
            }
            Fate::Left(sentence) => progress.tell(&sentence),
        }
    }
    progress.tell(&if plain { String::new() } else { counted(shelf, counts) });
    if plain {
        files::write(None, lines.as_bytes())?;
    }
    Ok((0..3).rev().find(|&status| counts[status] > 0).unwrap_or(0) as u8)
}

impl Fate {
    // The exit status where it is the worst.
    fn status(&self) -> usize {
        match self {
            Fate::Moved(_) => 0,
            Fate::Refused(..) => 1,
            Fate::Left(_) => 2,
        }
    }
}

fn became(shelf: &Shelf, name: &OsStr, input: &Input) -> Fate {
    let table = match files::table(input) {
        Ok(table) => table,
        Err(sentence) => return Fate::Left(sentence),
    };
    let (output, answer) = edition::moved(&table, shelf.to);
    if let Some(reason) = edition::refused(&table, answer) {
        return Fate::Refused(answer, reason);
    }
    match put(&shelf.folder.join(name), &output, shelf.replace) {
        Ok(()) => Fate::Moved(answer),
        Err(sentence) => Fate::Left(sentence),
    }
}

// The file with those bytes: it has them already, or is written; or why it can't be.
fn put(path: &Path, bytes: &[u8], replace: bool) -> Result<(), String> {
    let in_the_way = |why: &str| Err(format!("macaroosh: {} is in the way: {why}\n", quoted(path)));
    match fs::metadata(path) {
        Ok(old) if !old.is_file() => in_the_way("it is no file"),
        Ok(old) if old.len() == bytes.len() as u64 && fs::read(path).map_or(false, |old| old == bytes) => Ok(()),
        Ok(_) if !replace => in_the_way("it has other content; --replace replaces it"),
        Err(error) if error.kind() != ErrorKind::NotFound => Err(files::unwritten(&quoted(path), &error)),
        _ => files::write(Some(path), bytes),
    }
}

// For programs: a name without what would end its line, then the answer.
fn line(name: &OsStr, Answer { refusal, place, count }: Answer) -> String {
    format!("{} {refusal} {place} {count}\n", shown(name))
}

fn counted(shelf: &Shelf, [moved, refused, left]: [usize; 3]) -> String {
    let left = if left == 0 { String::new() } else { format!(", {left} left out") };
    format!("{moved} moved to the {} edition, {refused} refused{left}\n", shelf.to.name())
}

// Of so many tables no line says how far it is.
const FEW: usize = 10;
