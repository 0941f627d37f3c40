//! Searches for tests: of few boards and rules, so that a walk can come to its end, and of others; the same for the same seed.

use crate::dice::Dice;
use crate::makers::bundles::{self, FORMS};
use crate::model::{read, Edition, Model, Outline};
use macaroosh::{Form, ECHO, MOST_DEPTH};

/// What a search is asked of, but for its budget and what is lent.
#[derive(Clone, Debug)]
pub struct Search {
    /// What is special about it, of `kinds`.
    pub kind: &'static str,
    /// The bundle, mostly in counting form.
    pub bundle: Vec<u8>,
    /// The standing table.
    pub standing: Vec<u8>,
    /// How deep it goes, mostly at most 8.
    pub depth: u64,
}

/// Every kind of search that is made.
pub fn kinds() -> impl Iterator<Item = &'static str> {
    KINDS.iter().map(|&(kind, _)| kind)
}

/// A search of any kind.
pub fn any(dice: &mut Dice) -> Search {
    let (kind, make) = KINDS[dice.below(KINDS.len())];
    let ((bundle, standing), depth) = make(dice);
    Search { kind, bundle, standing, depth }
}

// A bundle, a standing table, and a depth.
type Asked = ((Vec<u8>, Vec<u8>), u64);

/// The number of the counting form alone.
pub(super) const COUNTING: [u8; 1] = [Form::Counting as u8];

type Kind = (&'static str, fn(&mut Dice) -> Asked);

const KINDS: [Kind; 10] = [
    ("tiny", |dice| {
        let counts = [dice.between(1, 4), dice.between(1, 4), 1];
        let n = dice.between(1, 3);
        (of_table(dice, counts, n, &COUNTING), dice.below(9) as u64)
    }),
    ("small", |dice| (small(dice, &COUNTING), dice.below(5) as u64)),
    ("chain", |dice| {
        let (asked, length) = chain(dice);
        let depth = [length.saturating_sub(1), length, length + 1, dice.below(9)][dice.below(4)].min(8);
        (asked, depth as u64)
    }),
    ("echo table", |dice| {
        let (n, own) = (dice.between(1, 5), dice.once_in(2));
        let bundle = bundles::bundle_of(dice, &ECHO, own, &COUNTING, n);
        ((fewer_steps(dice, &bundle, &ECHO), ECHO.to_vec()), dice.below(if n == 1 { 9 } else { 6 }) as u64)
    }),
    ("large", |dice| {
        let counts = [dice.between(1, 16), dice.between(1, 64), dice.between(1, 4)];
        let n = dice.between(1, 64);
        (of_table(dice, counts, n, &COUNTING), dice.below(3) as u64)
    }),
    ("stopped boards", |dice| (stopped(dice), dice.below(5) as u64)),
    ("any form", |dice| (small(dice, &FORMS), dice.below(5) as u64)),
    ("too deep", |dice| {
        let depth = too_deep(dice);
        (small(dice, &FORMS), depth)
    }),
    ("damaged", |dice| {
        let (bundle, standing) = small(dice, &COUNTING);
        ((bundles::damaged(dice, bundle), standing), dice.below(5) as u64)
    }),
    ("any bundle", |dice| {
        let asked = bundles::case(dice);
        (asked, if dice.once_in(8) { too_deep(dice) } else { dice.below(3) as u64 })
    }),
];

fn small(dice: &mut Dice, forms: &[u8]) -> (Vec<u8>, Vec<u8>) {
    let counts = [dice.between(2, 6), dice.between(1, 10), dice.between(1, 3)];
    let n = dice.between(1, 5);
    of_table(dice, counts, n, forms)
}

// A table of so many states, rules and types, and that k.
fn table(dice: &mut Dice, [states, rules, types]: [usize; 3], factor: usize) -> Vec<u8> {
    let edition = Edition::ALL[dice.below(2)];
    let mut table = bundles::table_of(dice, edition, [states, rules, types, factor]);
    accept_few(dice, &mut table, states);
    table
}

// A few boards, of which some stop after the first of their steps: f is below t.
fn stopped(dice: &mut Dice) -> (Vec<u8>, Vec<u8>) {
    let counts = [dice.between(2, 6), dice.between(1, 10), dice.between(1, 3)];
    let table = table(dice, counts, 1);
    let n = dice.between(2, 5);
    let t = dice.between(1, n - 1);
    let f = dice.below(t);
    let bundle = bundles::bundle_with(dice, &table, false, [n, t, f], COUNTING[0]);
    let bundle = fewer_steps(dice, &bundle, &table);
    let whole = read(&bundle, &table).expect("a bundle");
    let stops = bundles::stops(dice, &whole, &Model.run_steps(&whole).0, 0);
    (stops.iter().fold(bundle, |bundle, &stop| bundles::with(&bundle, stop)), table)
}

/// A bundle of n boards and the first of its steps, with a table of so many states, rules and types in front or beside.
pub(super) fn of_table(dice: &mut Dice, counts: [usize; 3], n: usize, forms: &[u8]) -> (Vec<u8>, Vec<u8>) {
    let factor = dice.between(1, 3);
    let table = table(dice, counts, factor);
    let own = dice.once_in(2);
    let bundle = bundles::bundle_of(dice, &table, own, forms, n);
    let bundle = fewer_steps(dice, &bundle, &table);
    (bundle, if own && dice.once_in(2) { bundles::noise(dice) } else { table })
}

// One or two boards that go from state to state, up to the accepting one after so many rules, and some rules besides.
fn chain(dice: &mut Dice) -> ((Vec<u8>, Vec<u8>), usize) {
    let (length, sends) = (dice.between(1, 8), dice.between(1, 12));
    let states = (0..=length).flat_map(|s| [u8::from(s == 0) + 2 * u8::from(s == length), u8::from(s >= sends)]);
    let states: Vec<u8> = states.collect();
    let mut rules: Vec<[u8; 5]> = (0..length as u8).map(|s| [s, s + 1, 0, 0, 0]).collect();
    for _ in 0..dice.below(4) {
        let (at, state) = (dice.below(rules.len() + 1), dice.below(length + 1) as u8);
        rules.insert(at, [state, state, 0, 0, dice.below(2) as u8]);
    }
    if dice.once_in(3) {
        // What was sent before is heard on the way.
        let at = dice.below(rules.len());
        rules[at][4] = 1;
    }
    let distances = [states.len() + 5 * rules.len(), 5 * rules.len()].map(bundles::little_endian).concat();
    let counts = [length as u8 + 1, rules.len() as u8, 1, 1];
    let table = [&states, &rules.concat(), &distances, &counts[..]].concat();
    let n = dice.between(1, 3);
    let bundle = bundles::bundle_of(dice, &table, false, &COUNTING, n);
    ((bundles::without_steps(&bundle), table), length)
}

// One accepting state or none, mostly not an initial one, so that not every search ends at once.
fn accept_few(dice: &mut Dice, table: &mut [u8], states: usize) {
    (0..states).for_each(|state| table[2 * state] &= 1);
    if !dice.once_in(4) {
        let others: Vec<usize> = (0..states).filter(|state| table[2 * state] == 0).collect();
        let any = dice.below(states);
        let state = if others.is_empty() || dice.once_in(8) { any } else { others[dice.below(others.len())] };
        table[2 * state] |= 2;
    }
}

// The bundle with a beginning of its steps, or all of them.
fn fewer_steps(dice: &mut Dice, bundle: &[u8], table: &[u8]) -> Vec<u8> {
    let steps = read(bundle, table).map_or(Vec::new(), |bundle| bundle.steps);
    let kept = [0, dice.below(4), steps.len()][dice.below(3)];
    steps.iter().take(kept).fold(bundles::without_steps(bundle), |bundle, &step| bundles::with(&bundle, step))
}

// A depth over the most.
fn too_deep(dice: &mut Dice) -> u64 {
    dice.beyond(MOST_DEPTH as usize + 1)
}
