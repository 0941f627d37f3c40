//! Demand 3 on a bench's own outputs: what a schedule does in one form, its translation does in each other. Where one of the two
//! is plain, sums stand in place of the correct and faulty counts.

use judge::dice::{each_seed, part_of, Dice};
use judge::fast::Fast;
use judge::makers::bundles::{any, in_form, with};
use judge::model::{read, Model};
use judge::{Bench, Library};
use macaroosh::calls::{Answer, Step};
use macaroosh::parts::{Parts, Picture};
use macaroosh::{Form, ECHO, MOST_WORDS, STOP};
use std::collections::BTreeSet;

fn run(bench: &dyn Bench, bytes: &[u8]) -> (Answer, Vec<u64>) {
    let mut words = vec![0; MOST_WORDS];
    (bench.run(bytes, &ECHO, &mut words), words)
}

// The pictures after none, one, two, .. of the steps.
fn pictures(bench: &dyn Bench, bytes: &[u8]) -> Vec<Picture> {
    let parts = Parts::of(bytes, &ECHO).expect("a bundle that runs");
    let after = |i: usize| {
        let (answer, words) = run(bench, &parts.first(i));
        assert_eq!(answer, Answer { refusal: 0, place: 0, count: i as u32 });
        parts.picture(&words)
    };
    (0..=parts.length()).map(after).collect()
}

fn summed(pictures: &[Picture]) -> Vec<Picture> {
    pictures.iter().map(Picture::summed).collect()
}

// All but the sources and the form.
fn kept(bytes: &[u8]) -> Vec<u8> {
    let (before, trailer) = bytes.split_at(bytes.len() - 8);
    let length = Parts::of(bytes, &ECHO).expect("a bundle that runs").length();
    let (front, steps) = before.split_at(before.len() - 4 * length);
    let steps: Vec<u8> = steps.chunks(4).flat_map(|step| step[..3].to_vec()).collect();
    [front, &steps, &trailer[..7]].concat()
}

// A seed's bundle and its translation to another form; gives whether both have gone quiet.
fn agrees(bench: &dyn Bench, seed: u64, bytes: &[u8], (form, to): (Form, Form)) -> bool {
    let name = format!("seed {seed}, {} to {} form", form.name(), to.name());
    let twin = in_form(bench, bytes, to);
    assert_eq!((kept(&twin), twin[twin.len() - 1]), (kept(bytes), to.number()), "{name}");
    let (own, other) = (pictures(bench, bytes), pictures(bench, &twin));
    if [form, to].contains(&Form::Plain) {
        assert_eq!(summed(&own), summed(&other), "{name}");
    } else {
        assert_eq!(own, other, "{name}");
    }
    // There and back: the same bytes from the coarser form, and from the finer one those that it chooses at first.
    let back = in_form(bench, &twin, form);
    if form > to {
        assert_eq!(back, bytes, "{name}");
    } else {
        assert_eq!(in_form(bench, &back, to), twin, "{name}");
    }
    assert_eq!(in_form(bench, &in_form(bench, bytes, Form::Counting), to), twin, "{name}");
    // The first step of the translation is the bundle's own, translated as one step more would be.
    let first = bench.first_step(bytes, &ECHO).expect("no refusal");
    let twin_first = bench.first_step(&twin, &ECHO).expect("no refusal");
    assert_eq!(first.is_some(), twin_first.is_some(), "{name}");
    if let (Some(step), Some(twin_step)) = (first, twin_first) {
        assert_eq!(in_form(bench, &with(bytes, step), to), with(&twin, twin_step), "{name}");
    }
    first.is_none()
}

// A bundle that is refused is refused alike by translation to any form, but for its own where only a step is at fault.
fn refused_alike(bench: &dyn Bench, seed: u64, bytes: &[u8], refusal: Answer) {
    let alike = Answer { count: 0, ..refusal };
    let own = Answer { refusal: 31, place: 0, count: 0 };
    let mut out = vec![0xAA; bytes.len()];
    assert_eq!(bench.translate(bytes, &ECHO, &mut out), alike, "seed {seed}");
    for form in Form::ALL {
        let expected = if refusal.left_a_configuration() && bytes.ends_with(&[form.number()]) { own } else { alike };
        assert_eq!(bench.translate_to(bytes, &ECHO, u64::from(form.number()), &mut out), expected, "seed {seed}");
    }
    assert!(out.iter().all(|&byte| byte == 0xAA), "seed {seed}");
}

// Of a seed's bundle that runs its form, and each other form with whether both have gone quiet; nothing of one that is refused.
fn holds(bench: &dyn Bench, seed: u64) -> Vec<(Form, Form, bool)> {
    let bytes = any(&mut Dice::new(seed));
    let (answer, _) = run(bench, &bytes);
    if answer.refusal != 0 {
        refused_alike(bench, seed, &bytes, answer);
        return Vec::new();
    }
    let form = read(&bytes, &ECHO).expect("a bundle that runs").form;
    let mut out = vec![0; bytes.len()];
    bench.translate(&bytes, &ECHO, &mut out);
    let other = if form == Form::Counting { Form::Message } else { Form::Counting };
    assert_eq!(out, in_form(bench, &bytes, other), "seed {seed}");
    let others = Form::ALL.into_iter().filter(|&to| to != form);
    others.map(|to| (form, to, agrees(bench, seed, &bytes, (form, to)))).collect()
}

fn holds_on(bench: &(dyn Bench + Sync)) {
    let all = each_seed(part_of(1_500), |seed| holds(bench, seed));
    let refused = all.iter().filter(|agreed| agreed.is_empty()).count();
    let translated = all.len() - refused;
    assert!(translated.min(refused) as u64 > part_of(250), "{translated} translated, {refused} refused");
    let seen: BTreeSet<(Form, Form, bool)> = all.into_iter().flatten().collect();
    // Each of the six pairs, quiet and not.
    assert_eq!(seen.len(), 12, "{seen:?}");
}

// What a form says to a step of some board, rule and type: accepted with one of its sources at least, or the refusal that
// comes last in the order of checks.
fn best(bench: &dyn Bench, bytes: &[u8], step: Step) -> u8 {
    let sources =
        if step.kind == 255 { 255..=255 } else { 0..=read(bytes, &ECHO).expect("a bundle").sources() as u8 - 1 };
    let answers = sources.map(|source| run(bench, &with(bytes, Step { source, ..step })).0.refusal);
    let answers: Vec<u8> = answers.collect();
    if answers.contains(&0) {
        return 0;
    }
    answers.into_iter().max().expect("a source")
}

// After a seed's bundle, a step is accepted with some source of one form exactly if it is with some source of another; and
// otherwise it is refused alike. Gives what came up.
fn accepts_alike(bench: &dyn Bench, seed: u64) -> Vec<u8> {
    let dice = &mut Dice::new(seed);
    let bytes = any(dice);
    if run(bench, &bytes).0.refusal != 0 {
        return Vec::new();
    }
    let bundle = read(&bytes, &ECHO).expect("a bundle that runs");
    let forms = Form::ALL.map(|form| in_form(bench, &bytes, form));
    let tried = (0..8).map(|_| {
        // Now and then one that is not there.
        let mut of = |count: usize| if dice.once_in(9) { count as u8 } else { dice.below(count) as u8 };
        let (board, rule) = (of(bundle.correct()), of(bundle.table.rules.len()));
        let rule = if dice.once_in(6) { STOP } else { rule };
        let kind = if dice.once_in(4) { 255 } else { dice.below(bundle.table.types) as u8 };
        let step = Step { board, rule, kind, source: 255 };
        let [message, counting, plain] = [0, 1, 2].map(|i| best(bench, &forms[i], step));
        assert_eq!((message, counting), (plain, plain), "seed {seed}: {step:?}");
        plain
    });
    tried.collect()
}

fn accepts_alike_on(bench: &(dyn Bench + Sync)) {
    let seen: BTreeSet<u8> = each_seed(part_of(500), |seed| accepts_alike(bench, seed)).into_iter().flatten().collect();
    assert_eq!(seen.into_iter().collect::<Vec<_>>(), [0, 20, 21, 22, 23, 24, 25, 26, 27]);
}

#[test]
fn the_library_s_translation_does_what_its_schedule_does() {
    holds_on(&Library);
}

#[test]
fn the_fast_version_s_translation_does_what_its_schedule_does() {
    holds_on(&Fast);
}

#[test]
fn the_model_s_translation_does_what_its_schedule_does() {
    holds_on(&Model);
}

#[test]
fn the_library_accepts_a_step_alike_in_all_forms() {
    accepts_alike_on(&Library);
}

#[test]
fn the_fast_version_accepts_a_step_alike_in_all_forms() {
    accepts_alike_on(&Fast);
}

#[test]
fn the_model_accepts_a_step_alike_in_all_forms() {
    accepts_alike_on(&Model);
}
