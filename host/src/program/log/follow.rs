//! What `replay --follow` has to say: a row as soon as its line has come in, up to the first refusal or the end. For each line
//! the lines up to it are replayed, so that the library alone says what becomes of them.

use super::{line, lines, Replayed};
use crate::args::Input;
use crate::files;
use crate::replies::{self, Question, Reply};
use crate::show::{self, Columns, Style};
use crate::trace::{self, Move};
use macaroosh::calls::Step;
use macaroosh::parts::{Parts, Picture};
use macaroosh::{MOST_STEPS, STOP};
use std::fs::File;
use std::io::{ErrorKind, Read};
use std::path::Path;

/// Shows the rows, then gives what is to be said at the end; the bundle of the lines that have come in goes to `path`.
pub fn reply(asked: &Question, from: &Input, path: Option<&Path>) -> Result<Reply, String> {
    let mut log = Coming::from(from)?;
    // What is wrong with the bundle is so before any line is there.
    let mut last = Replayed::of(asked.bundle, asked.standing, &[]);
    if last.answer.refusal == 0 {
        last = followed(asked, &mut log, last)?;
    }
    let bundle = last.bundle.as_deref();
    let question = Question { bundle: bundle.unwrap_or(asked.bundle), log: Some(log.so_far()), ..*asked };
    let result = if asked.style == Style::Plain { show::result(last.answer) } else { String::new() };
    let reply = question.reply(result, last.answer.refused());
    Ok(replies::kept(reply, &question, bundle, path))
}

// Shows a row for each line, up to a refusal, the end, or a reader that has seen enough: the last replay.
fn followed(asked: &Question, log: &mut Coming, mut last: Replayed) -> Result<Replayed, String> {
    let listing = Listing::of(asked);
    let mut read = files::show(&listing.opening())?;
    while read && log.next()? {
        last = Replayed::of(asked.bundle, asked.standing, log.so_far());
        if last.answer.refusal != 0 {
            break;
        }
        read = files::show(&listing.row(&last))?;
    }
    Ok(last)
}

/// A log as it comes in.
struct Coming {
    from: File,
    name: String,
    come: Vec<u8>,
    // Where the line begins that is not replayed yet, or the log so far ends.
    at: usize,
}

impl Coming {
    fn from(input: &Input) -> Result<Coming, String> {
        let (name, from) = files::opened(input)?;
        Ok(Coming { from, name, come: Vec::new(), at: 0 })
    }

    // Waits for one line more; none at the end. A piece that no line begins with is not waited for, nor is a line too many.
    fn next(&mut self) -> Result<bool, String> {
        loop {
            let rest = &self.come[self.at..];
            if let Some(feed) = rest.iter().position(|&byte| byte == b'\n') {
                self.at += feed + 1;
                return Ok(true);
            }
            let too_many = !rest.is_empty() && lines(self.so_far()) == MOST_STEPS;
            if too_many || line::reach(rest).bytes < rest.len() || !self.more()? {
                let more = self.at < self.come.len();
                self.at = self.come.len();
                return Ok(more);
            }
        }
    }

    // The lines that have come in.
    fn so_far(&self) -> &[u8] {
        &self.come[..self.at]
    }

    // Reads what there is, or waits; whether there was something before the end.
    fn more(&mut self) -> Result<bool, String> {
        let mut piece = [0; 4_096];
        loop {
            match self.from.read(&mut piece) {
                Ok(count) => {
                    self.come.extend(&piece[..count]);
                    return Ok(count > 0);
                }
                Err(error) if error.kind() == ErrorKind::Interrupted => {}
                Err(error) => return Err(files::unread(&self.name, &error)),
            }
        }
    }
}

/// How rows are shown, before others are known.
struct Listing<'a> {
    asked: &'a Question<'a>,
    // For people.
    columns: Option<Columns>,
}

impl<'a> Listing<'a> {
    fn of(asked: &'a Question<'a>) -> Listing<'a> {
        let parts = Parts::of(asked.bundle, asked.standing).filter(|_| asked.style == Style::People);
        let columns = parts.map(|parts| {
            let rows = widest(&parts).into_iter().map(|made| row(&parts, &made));
            let rows: Vec<Vec<String>> = std::iter::once(head(&parts)).chain(rows).collect();
            Columns::of(&rows, &trace::left(&parts))
        });
        Listing { asked, columns }
    }

    // What stands before any row.
    fn opening(&self) -> String {
        let parts = Parts::of(self.asked.bundle, self.asked.standing);
        let opening = if self.columns.is_some() { trace::opening } else { trace::start_line };
        parts.as_ref().map_or(String::new(), opening)
    }

    // The row of the last line; before the first of them stands what they are.
    fn row(&self, replayed: &Replayed) -> String {
        let (bundle, standing) = (replayed.bundle.as_deref().unwrap_or(&[]), self.asked.standing);
        let parts = Parts::of(bundle, standing);
        let made = parts.as_ref().and_then(|parts| trace::last(parts, standing, &replayed.words));
        match (&parts, made, &self.columns) {
            (Some(parts), Some(made), Some(columns)) => {
                let heading = (made.number == 0).then(|| trace::legend(parts, true) + &columns.line(&head(parts)));
                heading.unwrap_or_default() + &columns.line(&row(parts, &made))
            }
            (_, Some(made), None) => trace::lines_of(&made),
            _ => String::new(),
        }
    }
}

// The columns' names and the row of a step, with a place for the sign, which may come. The step before it is always shown above it.
fn head(parts: &Parts) -> Vec<String> {
    trace::signed(trace::head(parts), false)
}

fn row(parts: &Parts, made: &Move) -> Vec<String> {
    trace::signed(trace::row(parts, made), made.swaps)
}

// Rows of which some is as wide as any that may come, in each column: the largest numbers, by each rule, of each message, and a stop.
fn widest(parts: &Parts) -> Vec<Move> {
    let (correct, types) = (parts.correct(), parts.types as u8);
    let sources = [correct as u8 - 1, parts.n as u8 - 1];
    let messages = (0..types).flat_map(|kind| sources.map(|source| (kind, source)));
    let messages: Vec<(u8, u8)> = messages.chain([(255, 255)]).collect();
    let after = Picture {
        states: vec![0; correct],
        received: vec![vec![vec![correct as u32, parts.f as u32]; parts.types]; correct],
        sent: vec![correct as u32; parts.types],
        stopped: 0,
    };
    let made = |rule: u8, (kind, source): (u8, u8)| {
        let step = Step { board: correct as u8 - 1, rule, kind, source };
        Move { number: MOST_STEPS - 1, step, other: step, after: after.clone(), swaps: true }
    };
    let by = |rule: u8| messages.iter().map(|&message| made(rule, message)).collect::<Vec<Move>>();
    (0..parts.rules() as u8).flat_map(by).chain([made(STOP, (255, 255))]).collect()
}
