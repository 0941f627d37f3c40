//! What `search` has to say: how the library's search ended, and the steps that it found as rows of a trace.

use crate::files;
use crate::json;
use crate::names::quoted;
use crate::part::Part;
use crate::progress::Progress;
use crate::replies::{self, Question, Reply};
use crate::show::{self, grouped, Style};
use crate::trace::{self, Move};
use macaroosh::calls::{self, Answer, Step, NONE, SPENT};
use macaroosh::parts::Parts;
use macaroosh::{MOST_DEPTH, MOST_STEPS, MOST_WORDS};
use std::path::Path;

/// How far a search goes.
#[derive(Clone, Copy, Debug)]
pub struct Limits {
    /// How many steps more there may be.
    pub depth: u64,
    /// How many are tried at most.
    pub budget: u64,
}

/// How many are tried at most where nothing else is asked for, which takes some seconds and no more.
pub const BUDGET: u64 = 100_000_000;

/// How a search has ended that is not refused.
pub struct Ended<'a> {
    /// The bundle that it began with.
    pub parts: Parts<'a>,
    /// How many were tried.
    pub tried: u64,
    /// The steps that were found; none are needed where a board is accepting already.
    pub steps: Option<Vec<Step>>,
    standing: &'a [u8],
    outcome: u32,
    // The bundle with the steps that were found, where it can hold so many.
    longer: Option<Vec<u8>>,
}

/// A search after a bundle; the bundle with what was found goes to `path`.
pub fn reply(question: &Question, limits: Limits, path: Option<&Path>) -> Result<Reply, String> {
    let mut room = [0; 4 * MOST_DEPTH as usize];
    let (answer, tried) = asked(question, limits, &mut room);
    let parts = Parts::of(question.bundle, question.standing).filter(|_| answer.refusal == 0);
    let ended = parts.map(|parts| Ended::of(parts, question.standing, answer.count, tried, &room));
    let output = match (question.style, &ended) {
        (Style::Json, _) => json::search(question, limits, ended.as_ref(), answer.refused()),
        (Style::Plain, _) => lines(answer, limits, ended.as_ref()),
        (Style::People, Some(ended)) => ended.told(limits),
        (Style::People, None) => String::new(),
    };
    let mut reply = question.reply(output, answer.refused());
    if let (Some(ended), Some(path)) = (&ended, path) {
        if ended.steps.is_some() && ended.longer.is_none() {
            files::write(None, &reply.output)?;
            return Err(ended.too_long(path));
        }
        if ended.steps.is_none() && question.style == Style::People {
            reply.told = Some(format!("nothing was found, and nothing is written to {}\n", quoted(path)));
        }
    }
    Ok(replies::kept(reply, question, ended.as_ref().and_then(|ended| ended.longer.as_deref()), path))
}

// The library's answer and the number tried. At a terminal, a budget of many seconds is asked for in growing ones, and a line says how
// many were tried: a smaller budget only cuts the same walk, so that what it does not spend is the whole one's answer.
fn asked(question: &Question, limits: Limits, room: &mut [u8]) -> (Answer, u64) {
    let mut tried = 0;
    let mut ask = |budget| {
        let answer = calls::search(question.bundle, question.standing, limits.depth, budget, room, &mut tried);
        (answer, tried)
    };
    let mut progress = Progress::of(limits.budget > BUDGET);
    let mut part = BUDGET;
    while progress.is_shown() && part < limits.budget {
        let (answer, tried) = ask(part);
        if answer.refusal != 0 || answer.count != SPENT {
            progress.tell("");
            return (answer, tried);
        }
        progress.show(&format!("{} tried of {}, nothing found yet", grouped(tried), grouped(limits.budget)));
        part = part.saturating_mul(2);
    }
    let whole = ask(limits.budget);
    progress.tell("");
    whole
}

impl<'a> Ended<'a> {
    fn of(parts: Parts<'a>, standing: &'a [u8], outcome: u32, tried: u64, room: &[u8]) -> Ended<'a> {
        let records = room.chunks_exact(4).map(|s| Step::of([s[0], s[1], s[2], s[3]]));
        let steps = (outcome < NONE).then(|| records.take(outcome as usize).collect::<Vec<Step>>());
        let fits = steps.as_ref().filter(|steps| parts.length() + steps.len() <= MOST_STEPS);
        let longer = fits.map(|steps| parts.with(steps));
        Ended { parts, tried, steps, standing, outcome, longer }
    }

    /// The outcome in a word.
    pub fn outcome(&self) -> &'static str {
        match self.outcome {
            NONE => "none",
            SPENT => "spent",
            _ => "found",
        }
    }

    /// The bundle with the steps that were found, and those as steps of it; nothing where it can't hold so many.
    pub fn moves(&self) -> Option<(Parts<'_>, Vec<Move>)> {
        let parts = Parts::of(self.longer.as_ref()?, self.standing)?;
        let moves = trace::moves(&parts, self.standing, parts.length(), self.part());
        Some((parts, moves))
    }

    /// The steps with the numbers that they have after the schedule.
    pub fn numbered<'s>(&self, steps: &'s [Step]) -> impl Iterator<Item = (usize, Step)> + 's {
        (self.parts.length()..).zip(steps.iter().copied())
    }

    // The steps that come after the schedule.
    fn part(&self) -> Part {
        Part { from: Some(self.parts.length()), ..Part::default() }
    }

    // For people.
    fn told(&self, limits: Limits) -> String {
        let after = show::counted(self.parts.length(), "step");
        let counts = format!("{} tried (of a budget of {})", grouped(self.tried), grouped(limits.budget));
        let (setting, depth, outcome) = (show::setting(&self.parts), limits.depth, self.outcome());
        format!("{setting}\nafter {after}, up to {depth} more: {outcome}, {counts}\n{}", self.meaning())
    }

    fn meaning(&self) -> String {
        let steps = match (&self.steps, self.outcome) {
            (Some(steps), _) => steps,
            (None, NONE) => {
                return "no schedule of so many steps or fewer, in any form, puts a board in an accepting state\n"
                    .to_string();
            }
            (None, _) => {
                return "nothing was found, and more was to be tried; --budget N asks for more\n".to_string();
            }
        };
        let last = match steps.last() {
            Some(step) => step.board,
            None => return format!("{} already, and no step is needed\n", self.accepting()),
        };
        let first = "this schedule is the first in the order of the search, and need not be the shortest";
        let rows = match self.moves() {
            Some((parts, moves)) => trace::rows(&parts, &moves),
            None => format!("{}, so that no counts are shown\n\n{}", self.sum(), show::rows(&self.parts, steps)),
        };
        format!("board {last} ends in an accepting state; {first}\n{rows}")
    }

    // Which boards are in accepting states before any step more.
    fn accepting(&self) -> String {
        let mut words = [0; MOST_WORDS];
        calls::run(&self.parts.with(&[]), self.standing, &mut words);
        let states = self.parts.picture(&words).states;
        let boards: Vec<usize> = (0..states.len()).filter(|&p| self.parts.accepting(states[p])).collect();
        match boards[..] {
            [one] => format!("board {one} is in an accepting state"),
            _ => format!("boards {} are in accepting states", show::listed(&boards)),
        }
    }

    // How long the schedule is with the steps that were found.
    fn sum(&self) -> String {
        let (before, found) = (self.parts.length(), self.steps.as_ref().map_or(0, Vec::len));
        format!("the schedule has {} steps with these, and a bundle holds {MOST_STEPS}", before + found)
    }

    fn too_long(&self, path: &Path) -> String {
        format!("macaroosh: {} is not written: {}\n", quoted(path), self.sum())
    }
}

// For programs: the answer with its outcome as a number, how many were tried of how many, and each step as in a trace, or its record
// alone where that can't be.
fn lines(answer: Answer, limits: Limits, ended: Option<&Ended>) -> String {
    let tried = ended.map_or(0, |ended| ended.tried);
    let head = format!("{}tried {tried}\nbudget {}\n", show::result(answer), limits.budget);
    let steps = ended.and_then(|ended| ended.steps.as_ref().map(|steps| (ended, steps)));
    let steps = steps.map(|(ended, steps)| match ended.moves() {
        Some((_, moves)) => moves.iter().map(trace::lines_of).collect(),
        None => ended.numbered(steps).map(|(i, step)| format!("{}\n", trace::step_line(i, step))).collect::<String>(),
    });
    head + &steps.unwrap_or_default()
}
