//! Bundles for tests: made by walking the model, damaged, or noise; the same for the same seed.

use crate::bench::Bench;
use crate::dice::Dice;
use crate::model::{read, Bundle, Configuration, Edition, Model, Outline};
use macaroosh::calls::{Answer, Step};
use macaroosh::{Form, ECHO, STOP};

/// A distance of a trailer.
pub fn little_endian(number: usize) -> [u8; 2] {
    [(number % 256) as u8, (number / 256 % 256) as u8]
}

/// A table part without a fault, of either edition.
pub fn table(dice: &mut Dice) -> Vec<u8> {
    let edition = if dice.once_in(2) { Edition::First } else { Edition::Second };
    // Often the most rules, of which none has the number of a stop.
    let rules = if dice.once_in(8) { 64 } else { dice.between(1, 64) };
    let counts = [dice.between(1, 16), rules, dice.between(1, 4), dice.between(1, 8)];
    table_of(dice, edition, counts)
}

/// The same in an edition, with so many states, rules and types, and that k.
pub(super) fn table_of(dice: &mut Dice, edition: Edition, [states, rules, types, factor]: [usize; 4]) -> Vec<u8> {
    let mut part = Vec::new();
    for i in 0..states {
        let initial = i == 0 || dice.once_in(3);
        let accepting = if dice.once_in(4) { 2 } else { 0 };
        part.push(u8::from(initial) + accepting);
        part.push(if initial { 0 } else { dice.below(1 << types) as u8 });
    }
    for _ in 0..rules {
        let (from, to) = ends(dice, &part, states);
        part.extend([from as u8, to as u8]);
        for _ in 0..types {
            if dice.once_in(2) {
                part.extend([0, 0, 0]);
            } else {
                part.extend([dice.one_of(&[0, 0, 1, 255]), dice.one_of(&[0, 1, 255]), dice.one_of(&[0, 0, 1, 2, 254])]);
            }
            if edition == Edition::Second {
                part.push(divisor(dice));
            }
        }
    }
    let (all, of_rules) = (part.len(), part.len() - 2 * states);
    part.extend(little_endian(all));
    part.extend(little_endian(of_rules));
    part.extend([states as u8, rules as u8, edition.types_byte(types) as u8, factor as u8]);
    part
}

/// An e that a table may have, mostly a small one, so that some thresholds can be met.
pub fn divisor(dice: &mut Dice) -> u8 {
    let any = dice.between(1, 8) as u8;
    dice.one_of(&[1, 2, 2, 3, any])
}

// Two states that a rule may join: nothing is forgotten, and at most one type is new.
fn ends(dice: &mut Dice, states: &[u8], count: usize) -> (usize, usize) {
    for _ in 0..40 {
        let (from, to) = (dice.below(count), dice.below(count));
        let (old, new) = (states[2 * from + 1], states[2 * to + 1]);
        if old & !new == 0 && (new & !old).count_ones() <= 1 {
            return (from, to);
        }
    }
    (0, 0)
}

/// A bundle whose steps were all accepted by the model, but for a last one now and then; without a front it is for the
/// echo table.
pub fn bundle(dice: &mut Dice) -> Vec<u8> {
    let own = !dice.once_in(3);
    let table = if own && !dice.once_in(3) { table(dice) } else { ECHO.to_vec() };
    bundle_for(dice, &table, own, &FORMS)
}

/// The same in message form, and a standing table beside it, which is of no meaning now and then where there is a front.
pub fn in_message_form(dice: &mut Dice) -> (Vec<u8>, Vec<u8>) {
    let own = dice.once_in(2);
    let table = if dice.once_in(3) { ECHO.to_vec() } else { table(dice) };
    let bundle = bundle_for(dice, &table, own, &FORMS[..1]);
    (bundle, if own && dice.once_in(2) { noise(dice) } else { table })
}

/// The numbers of the forms.
pub(super) const FORMS: [u8; 3] = [Form::Message as u8, Form::Counting as u8, Form::Plain as u8];

// The same for a table, which is put in front or is to stand beside it, in one of some forms.
fn bundle_for(dice: &mut Dice, table: &[u8], own: bool, forms: &[u8]) -> Vec<u8> {
    let n = if dice.once_in(4) { 64 } else { dice.between(1, 64) };
    bundle_of(dice, table, own, forms, n)
}

/// The same of n boards.
pub(super) fn bundle_of(dice: &mut Dice, table: &[u8], own: bool, forms: &[u8], n: usize) -> Vec<u8> {
    let factor = usize::from(table[table.len() - 1]);
    let t = dice.between(0, (n - 1) / factor);
    let f = dice.between(0, t);
    let form = dice.one_of(forms);
    bundle_with(dice, table, own, [n, t, f], form)
}

/// The same of n, t, f and form.
pub(super) fn bundle_with(dice: &mut Dice, table: &[u8], own: bool, [n, t, f]: [usize; 3], form: u8) -> Vec<u8> {
    let initial: Vec<u8> = (0..table[table.len() - 4]).filter(|&s| table[2 * usize::from(s)] & 1 == 1).collect();
    let mut bytes = if own { table.to_vec() } else { Vec::new() };
    bytes.extend((0..n - f).map(|_| dice.one_of(&initial)));
    let empty = closed(&bytes, &[], n - f, [n as u8, t as u8, f as u8, form]);
    let steps = match read(&empty, table) {
        Ok(bundle) => walk(dice, &bundle),
        Err(_) => Vec::new(),
    };
    closed(&bytes, &steps, n - f, [n as u8, t as u8, f as u8, form])
}

/// A bundle of the bytes before its steps, the steps, and the numbers n, t, f and form.
pub fn closed(before: &[u8], steps: &[Step], correct: usize, numbers: [u8; 4]) -> Vec<u8> {
    let mut bytes = before.to_vec();
    for s in steps {
        bytes.extend(s.record());
    }
    bytes.extend(little_endian(4 * steps.len()));
    bytes.extend(little_endian(4 * steps.len() + correct));
    bytes.extend(numbers);
    bytes
}

/// The bundle with one step more; it has at least its trailer.
pub fn with(bytes: &[u8], step: Step) -> Vec<u8> {
    let (before, trailer) = bytes.split_at(bytes.len() - 8);
    let distance = |at: usize| (u16::from_le_bytes([trailer[at], trailer[at + 1]]) + 4).to_le_bytes();
    [before, &step.record(), &distance(0), &distance(2), &trailer[4..]].concat()
}

/// The bundle without its steps, as its first distance tells them; it has at least its trailer and those.
pub fn without_steps(bytes: &[u8]) -> Vec<u8> {
    let (before, trailer) = bytes.split_at(bytes.len() - 8);
    let distance = |at: usize| usize::from(u16::from_le_bytes([trailer[at], trailer[at + 1]]));
    let (steps, starts) = (distance(0), distance(2) - distance(0));
    [&before[..before.len() - steps], &[0, 0], &little_endian(starts), &trailer[4..]].concat()
}

/// A bundle that runs beside the echo table, in a form: as it is, or as a bench translates it.
pub fn in_form(bench: &dyn Bench, bytes: &[u8], form: Form) -> Vec<u8> {
    let mut out = bytes.to_vec();
    if bytes.last() != Some(&form.number()) {
        let answer = bench.translate_to(bytes, &ECHO, u64::from(form.number()), &mut out);
        assert_eq!(answer, Answer { refusal: 0, place: 0, count: bytes.len() as u32 }, "to {} form", form.name());
    }
    out
}

fn walk(dice: &mut Dice, bundle: &Bundle) -> Vec<Step> {
    let length = dice.below(50);
    let boards_stop = dice.once_in(3);
    let mut steps = Vec::new();
    let mut configuration = bundle.start();
    for _ in 0..300 {
        if steps.len() >= length {
            break;
        }
        let stop = boards_stop && dice.once_in(12);
        let guess = if stop { Some(any_stop(dice, bundle)) } else { guess(dice, bundle, &configuration) };
        if let Some(step) = guess {
            match Model.check(bundle, &configuration, step) {
                Ok(()) => {
                    bundle.apply(&mut configuration, step);
                    steps.push(step);
                }
                Err(_) if dice.once_in(200) => {
                    steps.push(step);
                    break;
                }
                Err(_) => {}
            }
        }
    }
    if dice.once_in(8) {
        steps.push(wild(dice, bundle));
    } else if dice.once_in(6) {
        steps.extend(power_cut(dice, bundle, &configuration));
    }
    steps
}

fn any_stop(dice: &mut Dice, bundle: &Bundle) -> Step {
    Step::stop(dice.below(bundle.correct()) as u8)
}

/// Stops of boards that are not stopped there, up to as many as may stop and so many more.
pub(super) fn stops(dice: &mut Dice, bundle: &Bundle, configuration: &Configuration, more: usize) -> Vec<Step> {
    let mut running: Vec<usize> = (0..bundle.correct()).filter(|p| !configuration.stopped.contains(p)).collect();
    let allowed = bundle.t - bundle.f - configuration.stopped.len();
    let count = [dice.below(allowed + more + 1), allowed, allowed + more][dice.below(3)];
    let first = dice.below(running.len());
    running.rotate_left(first);
    running.iter().take(count).map(|&p| Step::stop(p as u8)).collect()
}

// Boards that stop, perhaps one too many, and then what may follow: another stop of the last one, any step of it, a stop with a
// message, or nothing.
fn power_cut(dice: &mut Dice, bundle: &Bundle, configuration: &Configuration) -> Vec<Step> {
    let mut steps = stops(dice, bundle, configuration, 1);
    let last = steps.last().map_or(0, |step| step.board);
    match dice.below(6) {
        0 => steps.push(Step::stop(last)),
        1 => steps.push(Step { board: last, ..wild(dice, bundle) }),
        2 => steps.push(Step { kind: 0, source: 0, ..any_stop(dice, bundle) }),
        3 => steps.push(Step { rule: STOP, ..wild(dice, bundle) }),
        _ => {}
    }
    steps
}

/// A step with any of its four numbers out of range, or several.
pub fn wild(dice: &mut Dice, bundle: &Bundle) -> Step {
    let board = dice.below(bundle.correct() + 1) as u8;
    let rule = dice.below(bundle.table.rules.len() + 1) as u8;
    let (kind, source) = (dice.below(bundle.table.types + 1) as u8, dice.below(bundle.sources() + 1) as u8);
    Step {
        board: dice.one_of(&[board, board, bundle.correct() as u8, 255]),
        rule: dice.one_of(&[rule, rule, rule, bundle.table.rules.len() as u8, STOP, 255]),
        kind: dice.one_of(&[kind, kind, 255]),
        source: dice.one_of(&[source, source, 255]),
    }
}

// A step whose rule leaves the board's state.
fn guess(dice: &mut Dice, bundle: &Bundle, configuration: &Configuration) -> Option<Step> {
    let board = dice.below(bundle.correct());
    let rule = dice.below(bundle.table.rules.len());
    if bundle.table.rules[rule].from != configuration.states[board] {
        return None;
    }
    let (kind, source) =
        if dice.once_in(3) { (255, 255) } else { (dice.below(bundle.table.types), dice.below(bundle.sources())) };
    Some(Step { board: board as u8, rule: rule as u8, kind: kind as u8, source: source as u8 })
}

/// The bundle with up to three bytes changed, often in its trailer, read in another form or cut short now and then.
pub fn damaged(dice: &mut Dice, mut bytes: Vec<u8>) -> Vec<u8> {
    for _ in 0..dice.between(1, 3) {
        let length = bytes.len();
        let at = if dice.once_in(4) { length.saturating_sub(dice.between(1, 8)) } else { dice.below(length) };
        let small = dice.below(8) as u8;
        let any = dice.below(256) as u8;
        if let Some(byte) = bytes.get_mut(at) {
            *byte = dice.one_of(&[0, 1, 255, small, any]);
        }
    }
    if dice.once_in(8) {
        if let Some(form) = bytes.last_mut() {
            *form = dice.one_of(&[0, 1, 2, 3, 255]);
        }
    }
    if dice.once_in(10) {
        bytes.truncate(dice.below(bytes.len() + 1));
    }
    bytes
}

/// A table with one to three faults, of kinds that a change of any byte rarely makes.
pub fn faulty_table(dice: &mut Dice) -> Vec<u8> {
    let mut part = table(dice);
    for _ in 0..dice.between(1, 3) {
        spoil_table(dice, &mut part);
    }
    if dice.once_in(8) {
        part.truncate(dice.below(9));
    }
    part
}

/// Types bytes at the edges of both editions, and some that have an edge in their lowest bits.
pub const TYPES_BYTES: [u8; 11] = [0, 4, 5, 15, 16, 17, 20, 21, 32, 36, 255];

/// Divisors at the edges of what a table may have, and far from them.
pub const DIVISORS: [u8; 7] = [0, 1, 8, 9, 127, 128, 255];

fn spoil_table(dice: &mut Dice, part: &mut Vec<u8>) {
    let trailer = part.len() - 8;
    // A count may be spoilt already.
    let states = usize::from(part[trailer + 4]).clamp(1, 16).min(trailer / 2);
    let (edition, types) = Edition::of(part[trailer + 6].into());
    let types = types.clamp(1, 4);
    let size = Model.rule_size(edition, types);
    // Often the first rule, so that one rule has two faults.
    let rules = ((trailer - 2 * states) / size).max(1);
    let rule = 2 * states + size * if dice.once_in(2) { 0 } else { dice.below(rules) };
    match dice.below(16) {
        // A count or k.
        0 => part[trailer + dice.between(4, 7)] = dice.one_of(&[0, 5, 9, 17, 65, 255]),
        // The types byte.
        1 => part[trailer + 6] = dice.one_of(&TYPES_BYTES),
        // A distance.
        2 => part[trailer + dice.below(4)] ^= 1 << dice.below(8),
        // No state is initial.
        3 => (0..states).for_each(|s| part[2 * s] &= 2),
        // Flags or the mask of a state, so that a rule may forget types or send two.
        4..=8 => part[dice.below(2 * states)] = dice.below(1 << (types + 1)) as u8,
        // Rules as long as those of the other edition, with distances to them.
        9 => cut_as_the_other(part, states, types, edition),
        // An e.
        10..=11 if edition == Edition::Second => put(part, rule + 5 + 4 * dice.below(types), dice.one_of(&DIVISORS)),
        // Ends between which a type is forgotten, or two are sent, if a state has sent so many, or no ends; perhaps an e besides.
        12..=13 => {
            let most = (0..states).max_by_key(|s| part[2 * s + 1].count_ones()).unwrap_or(0) as u8;
            let [from, to] = [[most, 0], [0, most], [0, most], [states as u8, 0]][dice.below(4)];
            put(part, rule, from);
            put(part, rule + 1, to);
            if edition == Edition::Second && dice.once_in(2) {
                put(part, rule + 5 + 4 * dice.below(types), dice.one_of(&DIVISORS));
            }
        }
        // An end of a rule.
        _ => put(part, rule + dice.below(2), dice.below(states + 2) as u8),
    }
}

// A byte of the part, if there is one.
fn put(part: &mut [u8], at: usize, byte: u8) {
    if let Some(there) = part.get_mut(at) {
        *there = byte;
    }
}

// The rules with their e cut out, or with one put in, under the types byte of before.
fn cut_as_the_other(part: &mut Vec<u8>, states: usize, types: usize, edition: Edition) {
    let (records, trailer) = part.split_at(part.len() - 8);
    let (of_states, of_rules) = records.split_at(2 * states);
    let mut rules = Vec::new();
    for rule in of_rules.chunks_exact(Model.rule_size(edition, types)) {
        rules.extend(&rule[..2]);
        match edition {
            Edition::First => rule[2..].chunks(3).for_each(|sum| rules.extend([sum, &[1]].concat())),
            Edition::Second => rule[2..].chunks(4).for_each(|group| rules.extend(&group[..3])),
        }
    }
    let distances = [of_states.len() + rules.len(), rules.len()].map(little_endian).concat();
    *part = [of_states, &rules, &distances, &trailer[4..]].concat();
}

/// Bytes of no meaning.
pub fn noise(dice: &mut Dice) -> Vec<u8> {
    let length = dice.below(120);
    let few = dice.once_in(2);
    (0..length).map(|_| if few { dice.below(5) as u8 } else { dice.below(256) as u8 }).collect()
}

/// One bundle of any kind.
pub fn any(dice: &mut Dice) -> Vec<u8> {
    match dice.below(20) {
        0 => noise(dice),
        1..=8 => {
            let bytes = bundle(dice);
            damaged(dice, bytes)
        }
        _ => bundle(dice),
    }
}

/// A bundle of any kind and a standing table of any kind for it.
pub fn case(dice: &mut Dice) -> (Vec<u8>, Vec<u8>) {
    match dice.below(10) {
        // Without a front, beside a table of its own: sound, or with a fault.
        0..=1 => {
            let standing = table(dice);
            (bundle_for(dice, &standing, false, &FORMS), standing)
        }
        2 => {
            let sound = table(dice);
            (bundle_for(dice, &sound, false, &FORMS), faulty_table(dice))
        }
        // A front with a fault.
        3..=4 => {
            let sound = table(dice);
            let schedule = bundle_for(dice, &sound, false, &FORMS);
            ([faulty_table(dice), schedule].concat(), ECHO.to_vec())
        }
        // A standing table of no meaning, often not looked at.
        5 => (any(dice), noise(dice)),
        6 => (any(dice), Vec::new()),
        _ => (any(dice), ECHO.to_vec()),
    }
}
