//! The library and the hand-written fast version against the model on seeded bundles, every lent word and byte. `SEEDS=n` tries
//! more than 20,000.

use judge::compare::{compare, Alike};
use judge::dice::{each_seed, part_of, seeds, Dice};
use judge::fast::Fast;
use judge::makers::bundles::case;
use judge::makers::cases::cases;
use judge::model::{read, Model};
use judge::{Bench, Library};
use macaroosh::terms::refusals;
use macaroosh::{Form, ECHO};
use std::collections::BTreeMap;

// The refusals of run and translation that came up on the seed's bundle, and the kind of its first step.
fn agrees(bench: &dyn Bench, seed: u64) -> (Vec<u8>, Option<String>) {
    let dice = &mut Dice::new(seed);
    let (bundle, standing) = case(dice);
    let alike = compare(&Model, bench, &bundle, &standing, dice).unwrap_or_else(|difference| {
        panic!("seed {seed}: {difference}\nbundle {bundle:02x?}\nstanding {standing:02x?}")
    });
    let kind = kind(&bundle, &standing, &alike);
    (alike.refusals, kind)
}

// The form, and of the first step whether it has a message and whether its rule stays in its state; nothing of a refusal.
fn kind(bundle: &[u8], standing: &[u8], alike: &Alike) -> Option<String> {
    let first = alike.first.ok()?;
    let bundle = read(bundle, standing).ok()?;
    let form = bundle.form.name();
    Some(match first {
        None => format!("{form} form: none"),
        Some(step) => {
            let rule = &bundle.table.rules[usize::from(step.rule)];
            let message = if step.silent() { "no message" } else { "a message" };
            format!("{form} form: {message}, {}", if rule.from == rule.to { "stays" } else { "moves" })
        }
    })
}

// Agrees with the model on every seed, and the seeds come to every refusal and every kind of first step.
fn agrees_on_seeds(bench: &(dyn Bench + Sync)) {
    let seeds = seeds("SEEDS", part_of(20_000));
    let mut seen: BTreeMap<u8, usize> = BTreeMap::new();
    let mut kinds: BTreeMap<String, usize> = BTreeMap::new();
    for (refusals, kind) in each_seed(seeds, |seed| agrees(bench, seed)) {
        refusals.into_iter().for_each(|number| *seen.entry(number).or_default() += 1);
        kind.into_iter().for_each(|kind| *kinds.entry(kind).or_default() += 1);
    }
    println!("{seeds} bundles, calls by refusal: {seen:?}; first steps: {kinds:?}");
    for form in Form::ALL.map(Form::name) {
        for kind in ["none", "no message, moves", "a message, moves", "a message, stays"] {
            assert!(kinds.contains_key(&format!("{form} form: {kind}")), "{form} form, {kind}: {kinds:?}");
        }
        assert!(!kinds.contains_key(&format!("{form} form: no message, stays")), "a wait is given: {kinds:?}");
    }
    // 32 and 33 are of editions, 34 and 35 of searches, 40 is the report program's own, 60 and 61 are of drawings.
    for line in refusals::ALL.iter().filter(|line| line.number < 40 && !matches!(line.number, 32..=35)) {
        assert!(seen.contains_key(&line.number), "no bundle was refused with {}: {seen:?}", line.number);
    }
    assert!(seen.contains_key(&0), "no bundle was accepted: {seen:?}");
}

#[test]
fn the_library_agrees_with_the_model() {
    agrees_on_seeds(&Library);
}

#[test]
fn the_fast_version_agrees_with_the_model() {
    agrees_on_seeds(&Fast);
}

#[test]
fn both_agree_with_the_model_on_what_is_measured() {
    for case in cases() {
        for bench in [&Library as &dyn Bench, &Fast] {
            let compared = compare(&Model, bench, &case.bundle, &ECHO, &mut Dice::new(1));
            assert!(compared.is_ok(), "{}: {compared:?}", case.name);
        }
    }
}
