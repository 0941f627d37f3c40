//! The outline, read aloud: bundles are vectors, sets are sets, and nothing is clever. It calls nothing that it judges.

use crate::bench::Bench;
use macaroosh::calls::{Answer, First, Step};
use macaroosh::{Form, Refusal, ECHO, MOST_BYTES};
use std::collections::BTreeSet;
use std::ops::Range;

pub use macaroosh::terms::rules::Edition;

/// A state record: flags and the mask of types sent.
#[derive(Clone, Debug)]
pub struct State {
    /// Bit 0 of the flags.
    pub initial: bool,
    /// Bit 1 of the flags.
    pub accepting: bool,
    /// Bit m for type m.
    pub sent: u8,
}

/// What a rule has for one type.
#[derive(Clone, Copy, Debug, PartialEq, Eq)]
pub struct Coefficients {
    /// What n is multiplied by.
    pub a: i8,
    /// What t is multiplied by.
    pub b: i8,
    /// What is added.
    pub d: i8,
    /// What the sum is divided by; 1 in the first edition.
    pub e: u8,
}

impl Coefficients {
    /// A sum that is not divided.
    pub fn whole([a, b, d]: [i8; 3]) -> Coefficients {
        Coefficients { a, b, d, e: 1 }
    }

    /// A sum that is divided by e.
    pub fn over(e: u8, sum: [i8; 3]) -> Coefficients {
        Coefficients { e, ..Coefficients::whole(sum) }
    }

    // As they lie in a rule.
    fn of(bytes: &[u8], edition: Edition) -> Coefficients {
        let sum = [bytes[0] as i8, bytes[1] as i8, bytes[2] as i8];
        match edition {
            Edition::First => Coefficients::whole(sum),
            Edition::Second => Coefficients::over(bytes[3], sum),
        }
    }
}

/// A rule record: its ends, and its coefficients for each type.
#[derive(Clone, Debug)]
pub struct Rule {
    /// The state that it leaves.
    pub from: usize,
    /// The state that it enters.
    pub to: usize,
    /// By type.
    pub coefficients: Vec<Coefficients>,
}

/// A table that is not refused.
#[derive(Clone, Debug)]
pub struct Table {
    /// Up to 16 states.
    pub states: Vec<State>,
    /// Up to 64 rules.
    pub rules: Vec<Rule>,
    /// The edition of its rules.
    pub edition: Edition,
    /// How many types of message there are.
    pub types: usize,
    /// The factor k: n must exceed k·t.
    pub factor: u32,
}

/// A bundle that is not refused by reading.
#[derive(Clone, Debug)]
pub struct Bundle {
    /// The table in use.
    pub table: Table,
    /// All boards, n.
    pub n: usize,
    /// The bound on faulty boards that the table may count on.
    pub t: usize,
    /// The faulty boards.
    pub f: usize,
    /// The form of its schedule.
    pub form: Form,
    /// The start states of the n-f correct boards.
    pub starts: Vec<usize>,
    /// The schedule.
    pub steps: Vec<Step>,
}

/// A refusal at a place.
pub(crate) fn refused(number: u8, place: usize) -> Refusal {
    Refusal { number, place: place as u32 }
}

/// The number of two bytes.
pub(crate) fn little_endian(bytes: &[u8]) -> usize {
    usize::from(bytes[0]) + 256 * usize::from(bytes[1])
}

/// Reads a table part as the outline has it: refusals 1 to 9.
pub fn read_table(part: &[u8]) -> Result<Table, Refusal> {
    Model.read_table(part)
}

/// Reads a bundle beside a standing table as the outline has it: refusals 10 and 11, the table's, then 12 to 14.
pub fn read(bundle: &[u8], standing: &[u8]) -> Result<Bundle, Refusal> {
    Model.read(bundle, standing)
}

/// What a board has received of one type, or what was sent of it: who, or how many.
#[derive(Clone, Debug, PartialEq, Eq)]
pub enum Messages {
    /// The senders.
    Set(BTreeSet<usize>),
    /// Correct and faulty counts.
    Counts(usize, usize),
    /// One count of both.
    Count(usize),
}

impl Messages {
    fn total(&self) -> usize {
        match self {
            Messages::Set(set) => set.len(),
            Messages::Counts(correct, faulty) => correct + faulty,
            Messages::Count(count) => *count,
        }
    }

    // As the report has them: correct and faulty counts, where the senders below `correct` are the correct ones; or one count.
    fn counts(&self, correct: usize) -> Vec<usize> {
        match self {
            Messages::Set(set) => {
                let of_correct = set.iter().filter(|&&q| q < correct).count();
                vec![of_correct, set.len() - of_correct]
            }
            Messages::Counts(correct, faulty) => vec![*correct, *faulty],
            Messages::Count(count) => vec![*count],
        }
    }

    fn add(&mut self, source: usize) {
        match self {
            Messages::Set(set) => {
                set.insert(source);
            }
            Messages::Counts(correct, faulty) => *(if source == 0 { correct } else { faulty }) += 1,
            Messages::Count(count) => *count += 1,
        }
    }
}

/// States, received messages by board and type, sent messages by type, stopped boards.
#[derive(Clone, Debug, PartialEq, Eq)]
pub struct Configuration {
    /// A state for each correct board.
    pub states: Vec<usize>,
    /// By board, then type.
    pub received: Vec<Vec<Messages>>,
    /// By type.
    pub sent: Vec<Messages>,
    /// The boards that take no further step.
    pub stopped: BTreeSet<usize>,
}

impl Configuration {
    /// Its words, in the order of the outline: states, received by board and type, sent; then the stopped boards.
    pub fn words(&self) -> Vec<u64> {
        let mut words: Vec<u64> = self.states.iter().map(|&s| s as u64).collect();
        for received in self.received.iter().flatten() {
            match received {
                Messages::Set(set) => words.push(bits(set)),
                Messages::Counts(correct, faulty) => words.extend([*correct as u64, *faulty as u64]),
                Messages::Count(count) => words.push(*count as u64),
            }
        }
        for sent in &self.sent {
            words.push(match sent {
                Messages::Set(set) => bits(set),
                Messages::Counts(count, _) | Messages::Count(count) => *count as u64,
            });
        }
        words.push(bits(&self.stopped));
        words
    }
}

// Bit q for sender or board q.
fn bits(set: &BTreeSet<usize>) -> u64 {
    set.iter().map(|q| 1 << q).sum()
}

impl Bundle {
    /// How many boards are correct.
    pub fn correct(&self) -> usize {
        self.n - self.f
    }

    /// How many sources its form has: senders, tags, or one.
    pub fn sources(&self) -> usize {
        match self.form {
            Form::Message => self.n,
            Form::Counting => 2,
            Form::Plain => 1,
        }
    }

    /// Nothing received, nothing sent and nobody stopped.
    pub fn start(&self) -> Configuration {
        let nothing = match self.form {
            Form::Message => Messages::Set(BTreeSet::new()),
            Form::Counting => Messages::Counts(0, 0),
            Form::Plain => Messages::Count(0),
        };
        Configuration {
            states: self.starts.clone(),
            received: vec![vec![nothing.clone(); self.table.types]; self.correct()],
            sent: vec![nothing; self.table.types],
            stopped: BTreeSet::new(),
        }
    }

    /// The rule that a step takes, if the table has it; it has none for a stop.
    pub fn rule(&self, step: Step) -> Option<&Rule> {
        self.table.rules.get(usize::from(step.rule))
    }

    /// The type that a rule sends, if it sends a new one.
    pub fn sends(&self, rule: &Rule) -> Option<usize> {
        let new = self.table.states[rule.to].sent & !self.table.states[rule.from].sent;
        (0..self.table.types).find(|m| new >> m & 1 == 1)
    }

    /// Whether a step is a wait: it has no message, and its rule has from = to.
    pub fn waits(&self, step: Step) -> bool {
        step.silent() && self.rule(step).map_or(false, |rule| rule.from == rule.to)
    }

    /// What an accepted step changes: the set of stopped boards alone, where it is a stop; else points 2 and 4 of "One step".
    pub fn apply(&self, configuration: &mut Configuration, step: Step) {
        let p = usize::from(step.board);
        let rule = match self.rule(step) {
            Some(rule) => rule,
            None => {
                configuration.stopped.insert(p);
                return;
            }
        };
        if !step.silent() {
            configuration.received[p][usize::from(step.kind)].add(usize::from(step.source));
        }
        configuration.states[p] = rule.to;
        if let Some(m) = self.sends(rule) {
            configuration.sent[m].add(if self.form == Form::Message { p } else { 0 });
        }
    }
}

/// The outline's sentences about tables and steps, each with its meaning as the default; a broken variant for tests changes one.
pub trait Outline {
    /// The edition and the number of types that a types byte tells.
    fn edition(&self, types_byte: usize) -> (Edition, usize) {
        Edition::of(types_byte)
    }

    /// How many bytes a rule has.
    fn rule_size(&self, edition: Edition, types: usize) -> usize {
        match edition {
            Edition::First => 2 + 3 * types,
            Edition::Second => 2 + 4 * types,
        }
    }

    /// The coefficients of a rule by type.
    fn coefficients(&self, rule: &[u8], edition: Edition, types: usize) -> Vec<Coefficients> {
        let each = (rule.len() - 2) / types;
        rule[2..].chunks(each).map(|bytes| Coefficients::of(bytes, edition)).collect()
    }

    /// Whether a sum may be divided by e.
    fn divides(&self, e: u8) -> bool {
        (1..=8).contains(&e)
    }

    /// What a rule is refused for, if it is: 6, then 9, then 7, then 8.
    fn check_rule(&self, states: &[State], rule: &Rule) -> Result<(), u8> {
        if rule.from >= states.len() || rule.to >= states.len() {
            return Err(6);
        }
        if !rule.coefficients.iter().all(|coefficients| self.divides(coefficients.e)) {
            return Err(9);
        }
        check_sent(states, rule)
    }

    /// Reads a table part: refusals 1 to 9.
    fn read_table(&self, part: &[u8]) -> Result<Table, Refusal> {
        if part.len() < 8 {
            return Err(refused(1, 0));
        }
        let (body, trailer) = part.split_at(part.len() - 8);
        let [states, rules, types_byte, factor] = [4, 5, 6, 7].map(|i| usize::from(trailer[i]));
        let (edition, types) = self.edition(types_byte);
        let in_range = (1..=16).contains(&states)
            && (1..=64).contains(&rules)
            && (1..=4).contains(&types)
            && (1..=8).contains(&factor);
        if !in_range {
            return Err(refused(2, 0));
        }
        let rule_size = self.rule_size(edition, types);
        let first_state = little_endian(&trailer[0..2]);
        let first_rule = little_endian(&trailer[2..4]);
        if first_state != 2 * states + rules * rule_size || first_rule != rules * rule_size || body.len() != first_state
        {
            return Err(refused(3, 0));
        }
        let mut table = Table { states: Vec::new(), rules: Vec::new(), edition, types, factor: factor as u32 };
        for (i, record) in body[..2 * states].chunks(2).enumerate() {
            let (flags, sent) = (record[0], record[1]);
            let initial = flags & 1 != 0;
            if flags > 3 || u32::from(sent) >> types != 0 || (initial && sent != 0) {
                return Err(refused(4, i));
            }
            table.states.push(State { initial, accepting: flags & 2 != 0, sent });
        }
        if !table.states.iter().any(|s| s.initial) {
            return Err(refused(5, 0));
        }
        for (r, record) in body[2 * states..].chunks(rule_size).enumerate() {
            let (from, to) = (usize::from(record[0]), usize::from(record[1]));
            let rule = Rule { from, to, coefficients: self.coefficients(record, edition, types) };
            self.check_rule(&table.states, &rule).map_err(|number| refused(number, r))?;
            table.rules.push(rule);
        }
        Ok(table)
    }

    /// Reads a bundle beside a standing table: refusals 10 and 11, the table's, then 12 to 14.
    fn read(&self, bundle: &[u8], standing: &[u8]) -> Result<Bundle, Refusal> {
        if bundle.len() < 8 {
            return Err(refused(10, 0));
        }
        let trailer = &bundle[bundle.len() - 8..];
        let first_step = little_endian(&trailer[0..2]);
        let first_start = little_endian(&trailer[2..4]);
        if first_start + 8 > bundle.len() {
            return Err(refused(11, 0));
        }
        let (front, schedule) = bundle.split_at(bundle.len() - first_start - 8);
        let table = self.read_table(if front.is_empty() { standing } else { front })?;
        let [n, t, f] = [4, 5, 6].map(|i| usize::from(trailer[i]));
        let admitted = (1..=64).contains(&n) && n > table.factor as usize * t && f <= t;
        let form = Form::of(u64::from(trailer[7])).filter(|_| admitted).ok_or(refused(12, 0))?;
        if first_step % 4 != 0 || first_step > 16_384 || first_start != first_step + (n - f) {
            return Err(refused(13, 0));
        }
        let (starts, rest) = schedule.split_at(n - f);
        let starts: Vec<usize> = starts.iter().map(|&s| usize::from(s)).collect();
        for (p, &s) in starts.iter().enumerate() {
            if s >= table.states.len() || !table.states[s].initial {
                return Err(refused(14, p));
            }
        }
        let steps = rest[..first_step].chunks(4).map(|s| Step::of([s[0], s[1], s[2], s[3]])).collect();
        Ok(Bundle { table, n, t, f, form, starts, steps })
    }

    /// The threshold: the smallest whole number not below (a·n + b·t + d)/e.
    fn threshold(&self, bundle: &Bundle, coefficients: Coefficients) -> i64 {
        let (sum, e) = (sum(bundle, coefficients), i64::from(coefficients.e));
        // Rust's quotient is the next whole number towards 0, so that it is this or the one after it.
        (sum / e..=sum / e + 1).find(|whole| whole * e >= sum).expect("one of the two")
    }

    /// Point 1 of "One step": whether the step's message is in transit before it.
    fn in_transit(&self, bundle: &Bundle, before: &Configuration, step: Step) -> bool {
        let (p, m, q) = (usize::from(step.board), usize::from(step.kind), usize::from(step.source));
        match (&before.received[p][m], &before.sent[m]) {
            (Messages::Set(got), Messages::Set(out)) => {
                !got.contains(&q) && (q >= bundle.correct() || out.contains(&q))
            }
            (Messages::Counts(correct, _), Messages::Counts(out, _)) if q == 0 => correct < out,
            (Messages::Counts(_, faulty), _) => *faulty < bundle.f,
            (Messages::Count(got), Messages::Count(out)) => *got < out + bundle.f,
            _ => unreachable!("one form at a time"),
        }
    }

    /// A board's count of a type after the receipt, if this step receives one of it.
    fn counted(&self, before: usize, receives: bool) -> usize {
        before + usize::from(receives)
    }

    /// Whether a step is accepted, or the number of its refusal: 20, then 26, then those of a stop or of a rule.
    fn check(&self, bundle: &Bundle, before: &Configuration, step: Step) -> Result<(), u8> {
        let p = usize::from(step.board);
        if p >= bundle.correct() {
            return Err(20);
        }
        if before.stopped.contains(&p) {
            return Err(26);
        }
        if step.rule == 254 {
            self.check_stop(bundle, before, step)
        } else {
            self.check_move(bundle, before, step)
        }
    }

    /// The refusals of a stop: 23 where a message is present, then 27.
    fn check_stop(&self, bundle: &Bundle, before: &Configuration, step: Step) -> Result<(), u8> {
        if !step.silent() {
            return Err(23);
        }
        if !self.may_stop(bundle, before) {
            return Err(27);
        }
        Ok(())
    }

    /// Whether one more board may stop: those and f do not exceed t.
    fn may_stop(&self, bundle: &Bundle, before: &Configuration) -> bool {
        before.stopped.len() + 1 + bundle.f <= bundle.t
    }

    /// The refusals of a step by a rule: 21, 22, 23, 24, 25.
    fn check_move(&self, bundle: &Bundle, before: &Configuration, step: Step) -> Result<(), u8> {
        let p = usize::from(step.board);
        let rule = bundle.rule(step).ok_or(21)?;
        if before.states[p] != rule.from {
            return Err(22);
        }
        let (m, q) = (usize::from(step.kind), usize::from(step.source));
        if !step.silent() && (m >= bundle.table.types || q >= bundle.sources()) {
            return Err(23);
        }
        if !step.silent() && !self.in_transit(bundle, before, step) {
            return Err(24);
        }
        for (i, (received, &coefficients)) in before.received[p].iter().zip(&rule.coefficients).enumerate() {
            let count = self.counted(received.total(), !step.silent() && i == m);
            if (count as i64) < self.threshold(bundle, coefficients) {
                return Err(25);
            }
        }
        Ok(())
    }

    /// The configuration that a schedule leaves, and the refusal of its first refused step.
    fn run_steps(&self, bundle: &Bundle) -> (Configuration, Option<Refusal>) {
        let mut configuration = bundle.start();
        for (i, &step) in bundle.steps.iter().enumerate() {
            if let Err(number) = self.check(bundle, &configuration, step) {
                return (configuration, Some(refused(number, i)));
            }
            self.apply(bundle, &mut configuration, step);
        }
        (configuration, None)
    }

    /// What an accepted step changes.
    fn apply(&self, bundle: &Bundle, configuration: &mut Configuration, step: Step) {
        bundle.apply(configuration, step);
    }

    /// An accepted step of a form in the form next to it, where the steps before it have reached this configuration there.
    fn translated(&self, from: Form, other: &Bundle, reached: &Configuration, step: Step) -> Step {
        let correct = other.correct();
        let in_transit = |sources: Range<usize>| {
            let mut chosen = sources.map(|source| Step { source: source as u8, ..step });
            chosen.find(|&chosen| self.in_transit(other, reached, chosen)).expect("a source in transit")
        };
        match (from, other.form) {
            _ if step.silent() => step,
            (_, Form::Plain) => Step { source: 0, ..step },
            (Form::Plain, _) => in_transit(0..2),
            (Form::Message, _) => Step { source: u8::from(usize::from(step.source) >= correct), ..step },
            (Form::Counting, _) => in_transit(if step.source == 0 { 0..correct } else { correct..other.n }),
        }
    }

    /// A schedule that runs, in another form; between message and plain form by way of the counting form.
    fn translation(&self, bundle: &Bundle, to: Form) -> Vec<Step> {
        if bundle.form != Form::Counting && to != Form::Counting {
            let steps = self.translation(bundle, Form::Counting);
            return self.translation(&Bundle { form: Form::Counting, steps, ..bundle.clone() }, to);
        }
        let other = Bundle { form: to, ..bundle.clone() };
        let mut reached = other.start();
        let mut steps = Vec::new();
        for &step in &bundle.steps {
            let step = self.translated(bundle.form, &other, &reached, step);
            other.apply(&mut reached, step);
            steps.push(step);
        }
        steps
    }

    /// Writes a bundle that was read in another form.
    fn write(&self, bytes: &[u8], bundle: &Bundle, to: Form, out: &mut [u8]) -> Answer {
        if out.len() < bytes.len() {
            return nothing_done(refused(30, 0));
        }
        if let (_, Some(refusal)) = self.run_steps(bundle) {
            return nothing_done(refusal);
        }
        let mut other = bytes[..bytes.len() - 8 - 4 * bundle.steps.len()].to_vec();
        other.extend(self.translation(bundle, to).iter().flat_map(|step| step.record()));
        other.extend(&bytes[bytes.len() - 8..bytes.len() - 1]);
        other.push(to.number());
        out[..other.len()].copy_from_slice(&other);
        Answer { refusal: 0, place: 0, count: other.len() as u32 }
    }

    /// Whether a step is possible there: accepted, and not a wait.
    fn possible(&self, bundle: &Bundle, left: &Configuration, step: Step) -> bool {
        self.check(bundle, left, step).is_ok() && !bundle.waits(step)
    }

    /// The first step that is possible there: by board, rule, no message, then type and source.
    fn first_in(&self, bundle: &Bundle, left: &Configuration) -> Option<Step> {
        for board in 0..bundle.correct() as u8 {
            for rule in 0..bundle.table.rules.len() as u8 {
                let none = Step { board, rule, kind: 255, source: 255 };
                let messages = (0..bundle.table.types as u8)
                    .flat_map(|kind| (0..bundle.sources() as u8).map(move |source| Step { board, rule, kind, source }));
                for step in std::iter::once(none).chain(messages) {
                    if self.possible(bundle, left, step) {
                        return Some(step);
                    }
                }
            }
        }
        None
    }
}

/// Whether a rule whose ends are states keeps what was sent: 7, then 8.
pub fn check_sent(states: &[State], rule: &Rule) -> Result<(), u8> {
    let (old, new) = (states[rule.from].sent, states[rule.to].sent);
    if old & !new != 0 {
        return Err(7);
    }
    if (new & !old).count_ones() > 1 {
        return Err(8);
    }
    Ok(())
}

/// a·n + b·t + d.
pub fn sum(bundle: &Bundle, Coefficients { a, b, d, .. }: Coefficients) -> i64 {
    i64::from(a) * bundle.n as i64 + i64::from(b) * bundle.t as i64 + i64::from(d)
}

/// The outline as it is written.
pub struct Model;

impl Outline for Model {}

impl<O: Outline> Bench for O {
    fn run(&self, bytes: &[u8], standing: &[u8], words: &mut [u64]) -> Answer {
        let bundle = match self.read(bytes, standing) {
            Ok(bundle) => bundle,
            Err(refusal) => return nothing_done(refusal),
        };
        if words.len() < bundle.start().words().len() {
            return nothing_done(refused(30, 0));
        }
        let (left, refusal) = self.run_steps(&bundle);
        for (word, new) in words.iter_mut().zip(left.words()) {
            *word = new;
        }
        match refusal {
            Some(Refusal { number, place }) => Answer { refusal: number, place, count: place },
            None => Answer { refusal: 0, place: 0, count: bundle.steps.len() as u32 },
        }
    }

    fn translate(&self, bytes: &[u8], standing: &[u8], out: &mut [u8]) -> Answer {
        match self.read(bytes, standing) {
            Ok(bundle) => self.write(bytes, &bundle, bundle.form.other(), out),
            Err(refusal) => nothing_done(refusal),
        }
    }

    fn translate_to(&self, bytes: &[u8], standing: &[u8], form: u64, out: &mut [u8]) -> Answer {
        let bundle = match self.read(bytes, standing) {
            Ok(bundle) => bundle,
            Err(refusal) => return nothing_done(refusal),
        };
        match Form::of(form) {
            Some(to) if to != bundle.form => self.write(bytes, &bundle, to, out),
            _ => nothing_done(refused(31, 0)),
        }
    }

    fn first_step(&self, bytes: &[u8], standing: &[u8]) -> First {
        let bundle = self.read(bytes, standing)?;
        match self.run_steps(&bundle) {
            (_, Some(refusal)) => Err(refusal),
            (left, None) => Ok(self.first_in(&bundle, &left)),
        }
    }
}

/// All the bytes or, where the room is too short, none and that refusal.
pub(crate) fn written(bytes: &[u8], out: &mut [u8], too_short: u8) -> Answer {
    match out.get_mut(..bytes.len()) {
        Some(room) => {
            room.copy_from_slice(bytes);
            Answer { refusal: 0, place: 0, count: bytes.len() as u32 }
        }
        None => nothing_done(refused(too_short, 0)),
    }
}

/// A refusal that leaves lent memory unchanged and counts 0.
pub(crate) fn nothing_done(refusal: Refusal) -> Answer {
    Answer { refusal: refusal.number, place: refusal.place, count: 0 }
}

/// What the report program prints for a bundle on its standard input.
pub fn report(bytes: &[u8]) -> String {
    if bytes.len() > MOST_BYTES {
        return "result 40 0 0\n".to_string();
    }
    let bundle = match read(bytes, &ECHO) {
        Ok(bundle) => bundle,
        Err(Refusal { number, place }) => return format!("result {number} {place} 0\n"),
    };
    let (left, refusal) = Model.run_steps(&bundle);
    let mut lines = match refusal {
        Some(Refusal { number, place }) => format!("result {number} {place} {place}\n"),
        None => format!("result 0 0 {}\n", bundle.steps.len()),
    };
    for (p, (state, received)) in left.states.iter().zip(&left.received).enumerate() {
        lines += &format!("p {p} {state}");
        for count in received.iter().flat_map(|messages| messages.counts(bundle.correct())) {
            lines += &format!(" {count}");
        }
        lines += "\n";
    }
    lines += "sent";
    for messages in &left.sent {
        lines += &format!(" {}", messages.total());
    }
    lines + &format!("\nstopped {}\n", bits(&left.stopped))
}
