//! Q-5, "No echo from nothing": where every correct board starts in V0, which is state 0, no schedule of the echo table brings
//! a board to another state or sends anything. With the table that asks for t echoes in place of t + 1, the same schedules do.

use judge::dice::{each_seed, part_of, Dice};
use judge::makers::bundles::{closed, wild};
use judge::model::{read, Bundle, Model};
use judge::{Bench, Library};
use macaroosh::calls::{Answer, First, Step};
use macaroosh::parts::Parts;
use macaroosh::{Form, ECHO, MOST_WORDS};
use std::collections::BTreeSet;

// The echo table whose rule 1 asks for t echoes.
const ASKS_T: &[u8] = include_bytes!("../../examples/asks-t.table");

// Each is a schedule in every form; some n, t and f are rare.
const SEEDS: u64 = 1_000;

// Each end of a range once in four times, and else any number in it.
fn edge(dice: &mut Dice, low: usize, high: usize) -> usize {
    match dice.below(4) {
        0 => low,
        1 => high,
        _ => dice.between(low, high),
    }
}

// An admitted n, t and f with at least so many faulty boards, 0 or 1; all correct boards are in V0, and no step is taken.
fn empty(dice: &mut Dice, form: Form, least: usize) -> Bundle {
    let n = edge(dice, 1 + 3 * least, 64);
    let t = edge(dice, least, (n - 1) / 3);
    let f = edge(dice, least, t);
    let bytes = closed(&vec![0; n - f], &[], n - f, [n as u8, t as u8, f as u8, form.number()]);
    read(&bytes, &ECHO).expect("a bundle")
}

fn shuffle<T>(dice: &mut Dice, all: &mut [T]) {
    for i in (1..all.len()).rev() {
        all.swap(i, dice.below(i + 1));
    }
}

// The sources of the faulty boards' echoes, in any order.
fn faulty_sources(dice: &mut Dice, bundle: &Bundle) -> Vec<u8> {
    let mut sources = match bundle.form {
        Form::Message => (bundle.correct() as u8..bundle.n as u8).collect(),
        Form::Counting => vec![1; bundle.f],
        Form::Plain => vec![0; bundle.f],
    };
    shuffle(dice, &mut sources);
    sources
}

// What the listener and some other boards hear by rule 0, at least so many echoes of faulty boards at the listener, and waits
// among it. All of it is accepted in any order, since faulty echoes are in transit from the start.
fn heard(dice: &mut Dice, bundle: &Bundle, listener: u8, least: usize) -> Vec<Step> {
    let mut steps = Vec::new();
    for board in 0..bundle.correct() as u8 {
        if board == listener || dice.once_in(4) {
            let count = edge(dice, if board == listener { least } else { 0 }, bundle.f);
            let sources = faulty_sources(dice, bundle).into_iter().take(count);
            steps.extend(sources.map(|source| Step { board, rule: 0, kind: 0, source }));
            steps.push(Step { board, rule: 0, kind: 255, source: 255 });
        }
    }
    shuffle(dice, &mut steps);
    steps
}

// Rule 1 or 2 without a message, or with any echo that the form has a source for.
fn attempt(dice: &mut Dice, bundle: &Bundle, board: u8) -> Step {
    let rule = dice.between(1, 2) as u8;
    let (kind, source) = if dice.once_in(2) { (255, 255) } else { (0, dice.below(bundle.sources()) as u8) };
    Step { board, rule, kind, source }
}

// The seed's schedule: boards hear and wait, perhaps one stops, then up to three times the listener tries to leave V0, or anything is
// tried. For three of four seeds a board is faulty, and for odd ones the listener hears all faulty boards before.
fn schedule(seed: u64, form: Form) -> Vec<u8> {
    let dice = &mut Dice::new(seed);
    let bundle = empty(dice, form, usize::from(seed % 4 != 0));
    let (n, t, f, correct) = (bundle.n, bundle.t, bundle.f, bundle.correct());
    let listener = dice.below(correct) as u8;
    let mut steps = heard(dice, &bundle, listener, if seed % 2 == 1 { f } else { 0 });
    if dice.once_in(4) {
        let board = if dice.once_in(2) { listener } else { dice.below(correct) as u8 };
        steps.push(Step::stop(board));
    }
    for _ in 0..dice.below(4) {
        steps.push(if dice.once_in(4) { wild(dice, &bundle) } else { attempt(dice, &bundle, listener) });
    }
    closed(&vec![0; correct], &steps, correct, [n as u8, t as u8, f as u8, form.number()])
}

// What came of a schedule.
struct Outcome {
    seed: u64,
    form: Form,
    n: usize,
    t: usize,
    f: usize,
    answer: Answer,
    // The most echoes that a board has.
    most: usize,
    // Whether a board's state or what was sent is not 0.
    left: bool,
    // Whether the first step, then or after the accepted steps, is by another rule than 0.
    named: bool,
}

fn names_another_rule(first: First) -> bool {
    matches!(first, Ok(Some(Step { rule: 1.., .. })))
}

// Beside the table, or with it in front for every third seed.
fn outcome(bench: &dyn Bench, table: &[u8], seed: u64, form: Form) -> Outcome {
    let (front, standing) = if seed % 3 == 0 { (table, &[][..]) } else { (&[][..], table) };
    let bytes = [front, &schedule(seed, form)].concat();
    let mut words = [u64::MAX; MOST_WORDS];
    let answer = bench.run(&bytes, standing, &mut words);
    assert!(answer.left_a_configuration(), "seed {seed}, {} form: {answer:?}", form.name());
    let parts = Parts::of(&bytes, standing).expect("a bundle that was read");
    let sent = parts.sent(0)..parts.stopped();
    let left = words[..parts.correct()].iter().chain(&words[sent]).any(|&word| word != 0);
    let echoes = parts.picture(&words).received.into_iter().map(|of_types| of_types[0].iter().sum::<u32>() as usize);
    let names = |bytes: &[u8]| names_another_rule(bench.first_step(bytes, standing));
    let named = names(&bytes) || answer.refusal != 0 && names(&parts.first(answer.count as usize));
    let (n, t, f, most) = (parts.n, parts.t, parts.f, echoes.max().unwrap_or(0));
    Outcome { seed, form, n, t, f, answer, most, left, named }
}

fn outcomes(bench: &(dyn Bench + Sync), table: &[u8]) -> Vec<Outcome> {
    let of_seed = |seed| Form::ALL.map(|form| outcome(bench, table, seed, form));
    each_seed(part_of(SEEDS).max(400), of_seed).into_iter().flatten().collect()
}

fn nothing_comes_from_nothing(bench: &(dyn Bench + Sync)) {
    let all = outcomes(bench, &ECHO);
    for o in &all {
        assert!(!o.left && !o.named, "seed {}, {} form: {:?}", o.seed, o.form.name(), o.answer);
    }
    // In each form every odd seed's listener hears all faulty boards, of which there are some.
    let full = all.iter().filter(|o| o.f >= 1 && o.most >= o.f).count();
    println!("{} schedules, in {full} a board hears all faulty ones", all.len());
    assert!(full >= all.len() / 2, "{full} of {}", all.len());
    // In each form schedules are accepted as a whole, and are refused for every reason.
    let seen: BTreeSet<(Form, u8)> = all.iter().map(|o| (o.form, o.answer.refusal)).collect();
    let every =
        Form::ALL.into_iter().flat_map(|form| [0, 20, 21, 22, 23, 24, 25, 26, 27].map(|refusal| (form, refusal)));
    assert_eq!(seen, every.collect());
    // The least and the most boards, and of the most none and as many as can be faulty.
    for edge in [(1, 0, 0), (4, 1, 1), (64, 0, 0), (64, 21, 0), (64, 21, 1), (64, 21, 21)] {
        assert!(all.iter().any(|o| (o.n, o.t, o.f) == edge), "n, t, f = {edge:?}");
    }
}

// The check can fail: by what is left, and by the first step where nothing is.
fn one_echo_less_lets_boards_leave(bench: &(dyn Bench + Sync)) {
    let all = outcomes(bench, ASKS_T);
    for form in Form::ALL {
        let told = all.iter().filter(|o| o.form == form && o.t == o.f && o.f >= 1);
        let left = told.clone().filter(|o| o.left).count();
        let named = told.filter(|o| o.named && !o.left).count();
        println!("{} form: {left} leave V0, {named} are about to", form.name());
        assert!(left > 0 && named > 0, "{} form: {left} leave V0, {named} are about to", form.name());
    }
    // Fewer than t faulty boards can't make up t echoes.
    assert!(all.iter().filter(|o| o.f < o.t).all(|o| !o.left && !o.named));
}

#[test]
fn the_tables_differ_in_what_rule_1_asks_for() {
    let mut asks = ECHO;
    asks[17] = 0;
    assert_eq!(asks, ASKS_T);
}

#[test]
fn the_library_lets_no_echo_come_from_nothing() {
    nothing_comes_from_nothing(&Library);
}

#[test]
fn the_model_lets_no_echo_come_from_nothing() {
    nothing_comes_from_nothing(&Model);
}

#[test]
fn the_library_lets_boards_leave_where_t_echoes_are_enough() {
    one_echo_less_lets_boards_leave(&Library);
}

#[test]
fn the_model_lets_boards_leave_where_t_echoes_are_enough() {
    one_echo_less_lets_boards_leave(&Model);
}
