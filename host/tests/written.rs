//! A step changes the words that the outline gives it, and no other: the run of every prefix of a seeded schedule, in each form,
//! beside the run of the prefix one step shorter. `SEEDS=n` tries more than 2,000. What is stored without a change is counted by
//! measure/written.

use judge::compare::compare;
use judge::dice::{each_seed, part_of, seeds, Dice};
use judge::fast::Fast;
use judge::makers::bundles::{bundle, closed, in_form};
use judge::makers::growth::{growth, places};
use judge::model::{read, Bundle, Configuration, Messages, Model, Outline};
use judge::{Bench, Library};
use macaroosh::calls::Step;
use macaroosh::{Form, Refusal, ECHO, MOST_WORDS};
use std::collections::BTreeMap;

// The bundle that the seed names in each form, up to the first step that is refused.
fn all_forms(seed: u64) -> [(Form, Vec<u8>); 3] {
    let own = bundle(&mut Dice::new(seed));
    let accepted = Model.run(&own, &ECHO, &mut [0; MOST_WORDS]).count as usize;
    let own = prefix(&own, accepted);
    Form::ALL.map(|form| (form, in_form(&Model, &own, form)))
}

// The bundle with so many of its steps.
fn prefix(bytes: &[u8], count: usize) -> Vec<u8> {
    let bundle = read(bytes, &ECHO).expect("a bundle");
    let trailer = bytes.len() - 8;
    let before = &bytes[..trailer - 4 * bundle.steps.len()];
    let numbers = [4, 5, 6, 7].map(|i| bytes[trailer + i]);
    closed(before, &bundle.steps[..count], bundle.correct(), numbers)
}

// How often steps changed so many words, or the step that changed others.
fn changed(bench: &dyn Bench, bytes: &[u8], dice: &mut Dice) -> Result<Vec<usize>, String> {
    let bundle = read(bytes, &ECHO).expect("a bundle");
    let room = bundle.start().words().len();
    let junk: Vec<u64> = (0..room + dice.between(0, 9)).map(|_| dice.junk()).collect();
    let left = |count| {
        let mut words = junk.clone();
        let answer = bench.run(&prefix(bytes, count), &ECHO, &mut words);
        assert_eq!((answer.refusal, answer.count as usize), (0, count));
        words
    };
    let mut before = left(0);
    let mut counts = Vec::new();
    for (i, &step) in bundle.steps.iter().enumerate() {
        let after = left(i + 1);
        let differ: Vec<usize> = (0..after.len()).filter(|&at| after[at] != before[at]).collect();
        let expected = places(&bundle, step);
        if differ != expected {
            return Err(format!("step {i}, {step:?}, changes {differ:?} in place of {expected:?}"));
        }
        counts.push(differ.len());
        before = after;
    }
    Ok(counts)
}

// Changes what it should on every seed in each form, and the seeds come to every number of words in each.
fn changes_what_it_should(bench: &(dyn Bench + Sync)) {
    let seeds = seeds("SEEDS", part_of(2_000));
    let mut seen: BTreeMap<(Form, usize), usize> = BTreeMap::new();
    let made = each_seed(seeds, |seed| {
        all_forms(seed).map(|(form, bytes)| {
            let counts = changed(bench, &bytes, &mut Dice::new(seed));
            let counts = counts.unwrap_or_else(|step| panic!("seed {seed}: {step}\nbundle {bytes:02x?}"));
            (form, counts)
        })
    });
    for (form, counts) in made.into_iter().flatten() {
        counts.into_iter().for_each(|count| *seen.entry((form, count)).or_default() += 1);
    }
    println!("{seeds} schedules, steps by form and words changed: {seen:?}");
    let all = Form::ALL.map(|form| [0, 1, 2, 3].map(|count| (form, count))).concat();
    assert_eq!(seen.into_keys().collect::<Vec<_>>(), all);
}

#[test]
fn a_step_of_the_library_changes_what_it_should() {
    changes_what_it_should(&Library);
}

#[test]
fn a_step_of_the_fast_version_changes_what_it_should() {
    changes_what_it_should(&Fast);
}

#[test]
fn both_change_what_they_should_where_a_step_is_measured() {
    for pair in growth() {
        for bench in [&Library as &dyn Bench, &Fast] {
            for bundle in &pair.bundles {
                let compared = compare(&Model, bench, bundle, &ECHO, &mut Dice::new(1));
                assert!(compared.is_ok(), "{} of {} boards: {compared:?}", pair.kind, pair.correct);
            }
            let counts = changed(bench, &pair.bundles[1], &mut Dice::new(1));
            assert!(counts.is_ok(), "{} of {} boards: {counts:?}", pair.kind, pair.correct);
        }
    }
}

// A model whose steps write more than the outline says.
struct WritesMore(fn(&Bundle, &mut Configuration, Step));

impl Outline for WritesMore {
    fn run_steps(&self, bundle: &Bundle) -> (Configuration, Option<Refusal>) {
        let mut left = bundle.start();
        for &step in &bundle.steps {
            bundle.apply(&mut left, step);
            (self.0)(bundle, &mut left, step);
        }
        (left, None)
    }
}

fn next_board(bundle: &Bundle, step: Step) -> usize {
    (usize::from(step.board) + 1) % bundle.correct()
}

fn nothing(bundle: &Bundle) -> Messages {
    bundle.start().sent[0].clone()
}

fn clears_the_next_cell(bundle: &Bundle, left: &mut Configuration, step: Step) {
    if !step.silent() && bundle.correct() > 1 {
        left.received[next_board(bundle, step)][usize::from(step.kind)] = nothing(bundle);
    }
}

fn clears_another_type(bundle: &Bundle, left: &mut Configuration, step: Step) {
    if !step.silent() && bundle.table.types > 1 {
        let another = (usize::from(step.kind) + 1) % bundle.table.types;
        left.received[usize::from(step.board)][another] = nothing(bundle);
    }
}

fn sends_another_type(bundle: &Bundle, left: &mut Configuration, step: Step) {
    if let Some(sent) = bundle.rule(step).and_then(|rule| bundle.sends(rule)) {
        left.sent[(sent + 1) % bundle.table.types] = left.sent[sent].clone();
    }
}

fn moves_the_next_board(bundle: &Bundle, left: &mut Configuration, step: Step) {
    left.states[next_board(bundle, step)] = left.states[usize::from(step.board)];
}

fn writes_both_counts(_: &Bundle, left: &mut Configuration, step: Step) {
    if step.silent() {
        return;
    }
    if let Messages::Counts(correct, faulty) = &mut left.received[usize::from(step.board)][usize::from(step.kind)] {
        *faulty = *correct;
    }
}

#[test]
fn one_word_more_is_caught() {
    let broken: [(&str, WritesMore); 5] = [
        ("clears the next board's cell", WritesMore(clears_the_next_cell)),
        ("clears the cell of another type", WritesMore(clears_another_type)),
        ("writes the sent word of another type", WritesMore(sends_another_type)),
        ("moves the next board too", WritesMore(moves_the_next_board)),
        ("writes both counts of a cell", WritesMore(writes_both_counts)),
    ];
    for (name, bench) in broken {
        for form in Form::ALL {
            // Only counting form has two counts in a cell.
            let expected = name != "writes both counts of a cell" || form == Form::Counting;
            let caught = (1..=if expected { 500 } else { part_of(500) }).find(|&seed| {
                let (_, bytes) = &all_forms(seed)[usize::from(form.number())];
                changed(&bench, bytes, &mut Dice::new(seed)).is_err()
            });
            assert_eq!(caught.is_some(), expected, "{name}, {} form", form.name());
            println!("{name}, {} form: seed {caught:?}", form.name());
        }
    }
}

#[test]
fn no_word_more_is_not_caught() {
    let sound = WritesMore(|_, _, _| {});
    for (seed, (_, bytes)) in (1..=part_of(200)).flat_map(|seed| all_forms(seed).map(|made| (seed, made))) {
        assert!(changed(&sound, &bytes, &mut Dice::new(seed)).is_ok(), "seed {seed}");
    }
}
