//! The proved report program against the model, on seeded bundles. `REPORTS=n` tries more than 1,500.

mod reporter;

use judge::dice::{each_seed_and, part_of, seeds, Dice};
use judge::makers::bundles::any;
use judge::model::{read, report};
use macaroosh::{Form, ECHO};
use reporter::reported;
use std::collections::BTreeSet;

// The refusal that was reported, and the form of a bundle that is not refused by reading.
fn agrees(seed: u64) -> (String, Option<Form>) {
    let bundle = any(&mut Dice::new(seed));
    let expected = report(&bundle);
    assert_eq!(reported(&[&bundle]), expected, "seed {seed}: {bundle:02x?}");
    let form = read(&bundle, &ECHO).ok().map(|bundle| bundle.form);
    (expected.split(' ').nth(1).expect("a number").to_string(), form)
}

#[test]
fn the_report_program_agrees_with_the_model() {
    // Refusals 22 and 24 are rare in plain form.
    let seen: BTreeSet<(String, Option<Form>)> =
        each_seed_and(&[400, 718], seeds("REPORTS", part_of(1_500)), agrees).into_iter().collect();
    for refusal in ["3", "4", "6", "10", "11", "12", "13", "14"] {
        assert!(seen.contains(&(refusal.to_string(), None)), "no bundle was refused with {refusal}: {seen:?}");
    }
    for form in Form::ALL {
        for refusal in ["0", "20", "21", "22", "23", "24", "25", "26", "27"] {
            let seen_there = seen.contains(&(refusal.to_string(), Some(form)));
            assert!(seen_there, "no bundle of {} form was answered with {refusal}: {seen:?}", form.name());
        }
    }
}
