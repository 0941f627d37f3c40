//! Service logs, read aloud: the text of a step and of a schedule, what a line says, and the bundle that a log makes. It calls
//! nothing that it judges.

use crate::bench::{Bench, Replays};
use crate::model::{little_endian, nothing_done, read, refused, Bundle, Model};
use macaroosh::calls::{Answer, Step};
use macaroosh::{Form, Refusal};

/// The text of a step, its line feed included.
pub fn line_of(step: Step) -> String {
    let Step { board, rule, kind, source } = step;
    if step.silent() {
        format!("board {board} rule {rule}\n")
    } else {
        format!("board {board} rule {rule} type {kind} from {source}\n")
    }
}

/// The text of a schedule.
pub fn log_of(steps: &[Step]) -> String {
    steps.iter().map(|&step| line_of(step)).collect()
}

/// Whether a line can say a step: each number is at most 254, or type and source are both 255 for no message.
pub fn can_be_said(step: Step) -> bool {
    let Step { board, rule, kind, source } = step;
    board <= 254 && rule <= 254 && (step.silent() || kind <= 254 && source <= 254)
}

/// The request's sentences about logs, each with its meaning as the default; a broken variant for tests changes one.
pub trait LogOutline {
    /// The number that a text says: plain decimal without leading zeros, at most 254.
    fn number(&self, text: &str) -> Option<u8> {
        let number: u8 = text.parse().ok()?;
        (number <= 254 && text == number.to_string()).then_some(number)
    }

    /// The step that a line says, its line feed left out; nothing where it has another shape.
    fn said(&self, line: &str) -> Option<Step> {
        let number = |text| self.number(text);
        match line.split(' ').collect::<Vec<&str>>()[..] {
            ["board", p, "rule", r] => Some(Step { board: number(p)?, rule: number(r)?, kind: 255, source: 255 }),
            ["board", p, "rule", r, "type", m, "from", q] => {
                Some(Step { board: number(p)?, rule: number(r)?, kind: number(m)?, source: number(q)? })
            }
            _ => None,
        }
    }

    /// The step of a piece of the log, which is a line with its line feed, or the last piece without one.
    fn step(&self, piece: &[u8]) -> Option<Step> {
        let line = piece.strip_suffix(b"\n")?;
        self.said(std::str::from_utf8(line).ok()?)
    }

    /// How many lines a log has at most.
    fn most_lines(&self) -> usize {
        4_096
    }

    /// Line i: 51 where it is one too many, before it is looked at; or else 50 where it says no step.
    fn line(&self, i: usize, piece: &[u8]) -> Result<Step, Refusal> {
        if i >= self.most_lines() {
            return Err(refused(51, i));
        }
        self.step(piece).ok_or(refused(50, i))
    }

    /// The pieces of a log: one for each line feed, and what comes after the last of them, if anything does.
    fn pieces<'a>(&self, log: &'a [u8]) -> Vec<&'a [u8]> {
        log.split_inclusive(|&byte| byte == b'\n').collect()
    }

    /// The steps of a log, line by line from 0: 51 and 50.
    fn steps(&self, log: &[u8]) -> Result<Vec<Step>, Refusal> {
        self.pieces(log).iter().enumerate().map(|(i, piece)| self.line(i, piece)).collect()
    }

    /// Whether a log can be replayed over a bundle: 52 where not.
    fn can_begin(&self, bundle: &Bundle) -> bool {
        bundle.steps.is_empty() && bundle.form == Form::Message
    }

    /// The refusals of a log over a bundle that is read, in their order, or its steps: 52, then 51 and 50.
    fn looked_at(&self, bundle: &Bundle, log: &[u8]) -> Result<Vec<Step>, Refusal> {
        if !self.can_begin(bundle) {
            return Err(refused(52, 0));
        }
        self.steps(log)
    }

    /// By how much the two distances of a bundle are raised that gets so many steps.
    fn raised(&self, lines: usize) -> [usize; 2] {
        [4 * lines; 2]
    }

    /// The bundle with steps: both distances are raised, all else is the same.
    fn with_steps(&self, bytes: &[u8], steps: &[Step]) -> Vec<u8> {
        let (before, trailer) = bytes.split_at(bytes.len() - 8);
        let mut made = before.to_vec();
        made.extend(steps.iter().flat_map(|step| step.record()));
        for (distance, more) in trailer[..4].chunks(2).zip(self.raised(steps.len())) {
            made.extend(((little_endian(distance) + more) as u16).to_le_bytes());
        }
        made.extend(&trailer[4..]);
        made
    }

    /// The bundle that is written, and how many words its run needs: all refusals before 30.
    fn made(&self, bytes: &[u8], standing: &[u8], log: &[u8]) -> Result<(Vec<u8>, usize), Refusal> {
        let bundle = read(bytes, standing)?;
        let steps = self.looked_at(&bundle, log)?;
        Ok((self.with_steps(bytes, &steps), bundle.start().words().len()))
    }
}

impl LogOutline for Model {}

impl<L: LogOutline> Replays for L {
    fn replay(&self, bytes: &[u8], standing: &[u8], log: &[u8], out: &mut [u8], words: &mut [u64]) -> Answer {
        let (made, room) = match self.made(bytes, standing, log) {
            Ok(made) => made,
            Err(refusal) => return nothing_done(refusal),
        };
        if out.len() < made.len() || words.len() < room {
            return nothing_done(refused(30, 0));
        }
        out[..made.len()].copy_from_slice(&made);
        Model.run(&made, standing, words)
    }
}
