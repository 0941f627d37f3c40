//! The parts of a bundle that the library has read, for showing: what its bytes and its words say.

use crate::library::calls::Step;
use crate::terms::form::Form;
use crate::terms::rules::{Layout, Threshold};
use std::ops::Range;

/// The table that a bundle has in front, which may be empty; none where its trailer does not fit it.
pub fn front(bundle: &[u8]) -> Option<&[u8]> {
    let (before, trailer) = cut(bundle, 8)?;
    cut(before, distance(trailer, 2)).map(|(front, _)| front)
}

/// A bundle by its parts.
#[derive(Debug)]
pub struct Parts<'a> {
    /// All boards.
    pub n: usize,
    /// The bound on faulty boards.
    pub t: usize,
    /// The faulty boards.
    pub f: usize,
    /// The form of its schedule.
    pub form: Form,
    /// How many types of message the table in use has.
    pub types: usize,
    /// The start state of each correct board.
    pub starts: &'a [u8],
    /// The table part of its own; empty where the standing table is read.
    pub front: &'a [u8],
    states: &'a [u8],
    rules: &'a [u8],
    layout: Layout,
    steps: &'a [u8],
    numbers: &'a [u8],
}

/// What a configuration comes to in any form.
#[derive(Clone, Debug, PartialEq, Eq)]
pub struct Picture {
    /// By board.
    pub states: Vec<u64>,
    /// By board and type: the correct and the faulty count, or in plain form the one count.
    pub received: Vec<Vec<Vec<u32>>>,
    /// By type: how many boards have sent it.
    pub sent: Vec<u32>,
    /// The set of stopped boards, bit p for board p.
    pub stopped: u64,
}

impl Picture {
    /// The same with one count in place of two.
    pub fn summed(&self) -> Picture {
        let sums = |board: &Vec<Vec<u32>>| board.iter().map(|counts| vec![counts.iter().sum()]).collect();
        Picture { received: self.received.iter().map(sums).collect(), ..self.clone() }
    }

    /// Whether a board is stopped.
    pub fn is_stopped(&self, board: usize) -> bool {
        board < 64 && self.stopped >> board & 1 == 1
    }

    /// The stopped boards, in order.
    pub fn stopped_boards(&self) -> Vec<usize> {
        (0..self.states.len()).filter(|&board| self.is_stopped(board)).collect()
    }
}

impl<'a> Parts<'a> {
    /// The parts, if the distances and counts fit each other as they do wherever the library does not refuse the reading.
    pub fn of(bundle: &'a [u8], standing: &'a [u8]) -> Option<Parts<'a>> {
        let (before, trailer) = cut(bundle, 8)?;
        let (front, schedule) = cut(before, distance(trailer, 2))?;
        let (starts, steps) = cut(schedule, distance(trailer, 0))?;
        let (records, table) = cut(if front.is_empty() { standing } else { front }, 8)?;
        let (states, rules) = cut(records, distance(table, 2))?;
        let [n, t, f] = [4, 5, 6].map(|i| usize::from(trailer[i]));
        let layout = Layout::of(table[6]);
        let types = layout.types;
        let fits = f < n && n <= 64 && starts.len() == n - f && (1..=4).contains(&types);
        let numbers = &trailer[4..];
        let form = Form::of(u64::from(trailer[7]))?;
        fits.then_some(Parts { n, t, f, form, types, starts, front, states, rules, layout, steps, numbers })
    }

    /// How many boards are correct.
    pub fn correct(&self) -> usize {
        self.n - self.f
    }

    /// How many receipts a run has at most: each correct board hears each type of each board once.
    pub fn most_receipts(&self) -> usize {
        self.most_sends() * self.n
    }

    /// How many sends a run has at most: each correct board sends each type once.
    pub fn most_sends(&self) -> usize {
        self.correct() * self.types
    }

    /// How many words a run needs.
    pub fn words(&self) -> usize {
        self.stopped() + 1
    }

    /// How many steps the schedule has.
    pub fn length(&self) -> usize {
        self.steps.len() / 4
    }

    /// The steps.
    pub fn steps(&self) -> impl Iterator<Item = Step> + 'a {
        self.steps.chunks_exact(4).map(|s| Step::of([s[0], s[1], s[2], s[3]]))
    }

    /// The states that a rule leaves and enters.
    pub fn ends(&self, rule: u8) -> Option<(u8, u8)> {
        let record = self.rule(rule);
        Some((*record.first()?, *record.get(1)?))
    }

    /// How many states the table in use has.
    pub fn states(&self) -> usize {
        self.states.len() / 2
    }

    /// How many rules the table in use has.
    pub fn rules(&self) -> usize {
        self.rules.len() / self.layout.rule_size()
    }

    /// What a rule asks for by type.
    pub fn thresholds(&self, rule: u8) -> impl Iterator<Item = Threshold> + 'a {
        self.layout.thresholds(self.rule(rule))
    }

    // The bytes of a rule; none where the table has no such rule.
    fn rule(&self, rule: u8) -> &'a [u8] {
        self.rules.chunks_exact(self.layout.rule_size()).nth(usize::from(rule)).unwrap_or(&[])
    }

    /// How many sources its form has: senders, tags, or one.
    pub fn sources(&self) -> usize {
        match self.form {
            Form::Message => self.n,
            Form::Counting => 2,
            Form::Plain => 1,
        }
    }

    /// Whether a state is accepting.
    pub fn accepting(&self, state: u64) -> bool {
        self.states.get(2 * state as usize).map_or(false, |flags| flags & 2 == 2)
    }

    /// The type that a move between two states sends, if it sends a new one.
    pub fn sends(&self, from: u8, to: u8) -> Option<usize> {
        let mask = |state: u8| self.states.get(2 * usize::from(state) + 1).copied().unwrap_or(0);
        let new = mask(to) & !mask(from);
        (0..self.types).find(|m| new >> m & 1 == 1)
    }

    /// The bytes of the bundle with its first `i` steps.
    pub fn first(&self, i: usize) -> Vec<u8> {
        self.closed(self.records(i))
    }

    /// The bytes of the bundle with its first `i` steps, and then a step.
    pub fn first_and(&self, i: usize, step: Step) -> Vec<u8> {
        self.closed(&[self.records(i), &step.record()].concat())
    }

    /// The bytes of the bundle with these steps more, of which there is room for up to `MOST_STEPS` in all.
    pub fn with(&self, steps: &[Step]) -> Vec<u8> {
        let records = steps.iter().flat_map(|step| step.record());
        self.closed(&self.steps.iter().copied().chain(records).collect::<Vec<u8>>())
    }

    // The records of the first `i` steps.
    fn records(&self, i: usize) -> &'a [u8] {
        &self.steps[..self.steps.len().min(4 * i)]
    }

    // The bytes of the bundle with other steps.
    fn closed(&self, steps: &[u8]) -> Vec<u8> {
        let distances = [steps.len(), steps.len() + self.starts.len()].map(|d| (d as u16).to_le_bytes());
        [self.front, self.starts, steps, &distances[0], &distances[1], self.numbers].concat()
    }

    /// Where a run's words have what a board has received of a type: a set, two counts or one.
    pub fn received(&self, board: usize, kind: usize) -> Range<usize> {
        let wide = self.form.wide();
        let first = self.correct() + wide * (board * self.types + kind);
        first..first + wide
    }

    /// Where a run's words have what was sent of a type: a set or a count.
    pub fn sent(&self, kind: usize) -> usize {
        self.correct() + self.correct() * self.types * self.form.wide() + kind
    }

    /// Where a run's words have the set of stopped boards: last.
    pub fn stopped(&self) -> usize {
        self.sent(self.types)
    }

    /// What a run's words say; words past the lent ones count as 0.
    pub fn picture(&self, words: &[u64]) -> Picture {
        let word = |i: usize| words.get(i).copied().unwrap_or(0);
        let (correct, types) = (self.correct(), self.types);
        let below = u64::MAX >> (64 - correct);
        let split = |set: u64| vec![(set & below).count_ones(), (set & !below).count_ones()];
        let received = |p: usize, m: usize| {
            let cell = self.received(p, m);
            match self.form {
                Form::Message => split(word(cell.start)),
                Form::Counting | Form::Plain => cell.map(|i| word(i) as u32).collect(),
            }
        };
        let sent = |m: usize| {
            let last = word(self.sent(m));
            match self.form {
                Form::Message => last.count_ones(),
                Form::Counting | Form::Plain => last as u32,
            }
        };
        Picture {
            states: (0..correct).map(word).collect(),
            received: (0..correct).map(|p| (0..types).map(|m| received(p, m)).collect()).collect(),
            sent: (0..types).map(sent).collect(),
            stopped: word(self.stopped()),
        }
    }
}

// The bytes before the last `length`, and those.
fn cut(bytes: &[u8], length: usize) -> Option<(&[u8], &[u8])> {
    bytes.len().checked_sub(length).map(|at| bytes.split_at(at))
}

/// The distance that stands at a byte of a trailer.
pub fn distance(trailer: &[u8], at: usize) -> usize {
    usize::from(u16::from_le_bytes([trailer[at], trailer[at + 1]]))
}
