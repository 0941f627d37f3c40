//! When a run has gone quiet: run and translation accept waits, and the first-step question passes them over. A wait is a
//! step with no message whose rule has from = to.

use judge::dice::{each_seed, part_of, Dice};
use judge::fast::Fast;
use judge::makers::bundles::{case, closed, in_form, with};
use judge::model::{read, Bundle, Model};
use judge::{Bench, Library};
use macaroosh::calls::{First, Step};
use macaroosh::{Form, ECHO, MOST_WORDS};
use std::collections::BTreeMap;

const BENCHES: [(&str, &dyn Bench); 3] = [("model", &Model), ("library", &Library), ("fast", &Fast)];

const W: [u8; 31] =
    [1, 1, 1, 0, 3, 255, 255, 1, 3, 255, 255, 2, 3, 0, 0, 2, 4, 0, 3, 2, 5, 0, 1, 20, 0, 23, 0, 4, 1, 1, 0];

// W, then the first possible step again and again: boards 0 and 1 hear all four echoes and accept, and board 2 hears its own.
const QUIET: &[u8] = include_bytes!("../../examples/quiet.bundle");

fn runs(bench: &dyn Bench, bytes: &[u8], standing: &[u8]) -> bool {
    bench.run(bytes, standing, &mut [0; MOST_WORDS]).refusal == 0
}

fn given(record: [u8; 4]) -> First {
    Ok(Some(Step::of(record)))
}

// A table of two states that have sent nothing, of one type and k = 1; then a schedule of such numbers without a step.
fn small(rules: &[[u8; 5]], starts: &[u8], numbers: [u8; 4]) -> Vec<u8> {
    let (count, length) = (rules.len() as u8, 5 * rules.len() as u8);
    let table = [&[1, 0, 0, 0], &rules.concat()[..], &[4 + length, 0, length, 0, 2, count, 1, 1]].concat();
    closed(&[&table[..], starts].concat(), &[], starts.len(), numbers)
}

#[test]
fn w_goes_quiet_by_its_first_steps() {
    for (who, bench) in BENCHES {
        for form in Form::ALL {
            let (mut bundle, to) = (in_form(bench, &W, form), in_form(bench, QUIET, form));
            while let Some(step) = bench.first_step(&bundle, &ECHO).expect("no refusal") {
                bundle = with(&bundle, step);
                assert!(bundle.len() <= to.len() && runs(bench, &bundle, &ECHO), "{who}: {step:?}");
            }
            assert_eq!(bundle, to, "{who}: {form:?}");
        }
    }
}

#[test]
fn a_quiet_run_still_accepts_waits_and_stays_quiet() {
    for (who, bench) in BENCHES {
        for board in 0..3 {
            let wait = Step::of([board, 6, 255, 255]);
            for form in Form::ALL {
                let waited = with(&in_form(bench, QUIET, form), wait);
                assert!(runs(bench, &waited, &ECHO), "{who}: {form:?}, board {board}");
                assert_eq!(in_form(bench, &with(QUIET, wait), form), waited, "{who}: {form:?}, board {board}");
                assert_eq!(bench.first_step(&waited, &ECHO), Ok(None), "{who}: {form:?}, board {board}");
            }
        }
    }
}

#[test]
fn boards_that_wait_for_ever_are_quiet() {
    // No board starts with an echo to send and none is faulty: rule 0 waits, and nothing else is accepted.
    for (who, bench) in BENCHES {
        for form in [0, 1, 2] {
            let bundle = [0, 0, 0, 0, 0, 0, 4, 0, 4, 1, 0, form];
            assert_eq!(bench.first_step(&bundle, &ECHO), Ok(None), "{who}: form {form}");
            assert!(runs(bench, &with(&bundle, Step::of([3, 0, 255, 255])), &ECHO), "{who}: form {form}");
        }
    }
}

#[test]
fn a_table_that_only_waits_is_quiet_from_the_start() {
    let wait = Step::of([0, 0, 255, 255]);
    for (who, bench) in BENCHES {
        for form in [0, 1, 2] {
            let mut bundle = small(&[[0, 0, 0, 0, 0]; 3], &[0, 0], [2, 0, 0, form]);
            for steps in 0..4 {
                assert_eq!(bench.first_step(&bundle, &[]), Ok(None), "{who}: form {form}, {steps} waits");
                bundle = with(&bundle, wait);
                assert!(runs(bench, &bundle, &[]), "{who}: form {form}, {steps} waits and another");
            }
        }
    }
}

#[test]
fn a_wait_that_receives_a_message_is_possible() {
    // The second table asks for a message, so that its rule is a wait only once there is one.
    for (who, bench) in BENCHES {
        for form in [0, 1, 2] {
            for least in [0, 1] {
                let bundle = small(&[[0, 0, 0, 0, least]], &[0, 0], [3, 1, 1, form]);
                // The faulty board's message: of sender 2, of tag 1, or of the only source.
                let source = [2, 1, 0][usize::from(form)];
                let name = format!("{who}: form {form}, threshold {least}");
                assert_eq!(bench.first_step(&bundle, &[]), given([0, 0, 0, source]), "{name}");
                let heard = with(&bundle, Step::of([0, 0, 0, source]));
                assert_eq!(bench.first_step(&heard, &[]), given([1, 0, 0, source]), "{name}");
                let both = with(&heard, Step::of([1, 0, 0, source]));
                assert_eq!(bench.first_step(&both, &[]), Ok(None), "{name}");
                assert!(runs(bench, &with(&both, Step::of([1, 0, 255, 255])), &[]), "{name}");
            }
        }
    }
}

#[test]
fn a_schedule_s_length_does_not_limit_it() {
    // 4,096 steps: waits alone, and W's with waits of board 0 after them.
    let waits = |rule| vec![Step::of([0, rule, 255, 255]); 4_096];
    for (who, bench) in BENCHES {
        for form in [0, 1, 2] {
            let bundle = closed(&[0, 0], &waits(0), 2, [2, 0, 0, form]);
            assert_eq!(bench.first_step(&bundle, &ECHO), Ok(None), "{who}: form {form}");
        }
        for w in Form::ALL.map(|form| in_form(bench, &W, form)) {
            let mut steps: Vec<Step> = w[3..23].chunks(4).map(|s| Step::of([s[0], s[1], s[2], s[3]])).collect();
            steps.extend(&waits(4)[5..]);
            let bundle = closed(&w[..3], &steps, 3, [4, 1, 1, w[30]]);
            assert_eq!(bench.first_step(&bundle, &ECHO), given([0, 4, 0, 0]), "{who}: form {}", w[30]);
        }
    }
}

#[test]
fn moves_without_a_message_come_in_the_order_of_rules() {
    // Rule 0 waits in state 0, rule 1 leads to state 1, rule 2 back.
    let rules = [[0, 0, 0, 0, 0], [0, 1, 0, 0, 0], [1, 0, 0, 0, 0]];
    for (who, bench) in BENCHES {
        for form in [0, 1, 2] {
            // Nothing is in transit: rule 0 is passed over, and there and back is possible for ever.
            let bundle = small(&rules, &[0], [1, 0, 0, form]);
            assert_eq!(bench.first_step(&bundle, &[]), given([0, 1, 255, 255]), "{who}: form {form}");
            let moved = with(&bundle, Step::of([0, 1, 255, 255]));
            assert_eq!(bench.first_step(&moved, &[]), given([0, 2, 255, 255]), "{who}: form {form}");
            let back = with(&moved, Step::of([0, 2, 255, 255]));
            assert_eq!(bench.first_step(&back, &[]), given([0, 1, 255, 255]), "{who}: form {form}");
            // A message is, that of the faulty board: rule 0 with it comes before rule 1 without.
            let bundle = small(&rules, &[0], [2, 1, 1, form]);
            let source = [1, 1, 0][usize::from(form)];
            assert_eq!(bench.first_step(&bundle, &[]), given([0, 0, 0, source]), "{who}: form {form}");
        }
    }
}

// Every step that a form has, in the order of the question.
fn every_step(bundle: &Bundle) -> Vec<Step> {
    let mut messages = vec![(255, 255)];
    for kind in 0..bundle.table.types as u8 {
        messages.extend((0..bundle.sources() as u8).map(|source| (kind, source)));
    }
    let mut steps = Vec::new();
    for board in 0..bundle.correct() as u8 {
        for rule in 0..bundle.table.rules.len() as u8 {
            steps.extend(messages.iter().map(|&(kind, source)| Step { board, rule, kind, source }));
        }
    }
    steps
}

// The bench's first step is what its own run accepts after the schedule, waits aside. Gives the form, whether a step is
// possible and whether a wait was accepted before it; nothing of a bundle that is refused or has too many steps to try.
fn judged_by_run(bench: &dyn Bench, seed: u64) -> Option<(Form, bool, bool)> {
    let (bytes, standing) = case(&mut Dice::new(seed));
    let bundle = read(&bytes, &standing).ok()?;
    let steps = every_step(&bundle);
    if steps.len() > 2_000 || !runs(bench, &bytes, &standing) {
        return None;
    }
    let (mut first, mut waited) = (None, false);
    for step in steps {
        if runs(bench, &with(&bytes, step), &standing) {
            if !bundle.waits(step) {
                first = Some(step);
                break;
            }
            waited = true;
        }
    }
    assert_eq!(bench.first_step(&bytes, &standing), Ok(first), "seed {seed}: {bytes:02x?}");
    Some((bundle.form, first.is_some(), waited))
}

fn agrees_with_its_own_run(bench: &(dyn Bench + Sync)) {
    let mut seen: BTreeMap<(Form, bool, bool), usize> = BTreeMap::new();
    for kind in each_seed(part_of(6_000), |seed| judged_by_run(bench, seed)).into_iter().flatten() {
        *seen.entry(kind).or_default() += 1;
    }
    println!("(form, possible, waits before): {seen:?}");
    // In each form: possible or not, and with waits accepted or none.
    assert_eq!(seen.len(), 12, "{seen:?}");
}

#[test]
fn the_library_s_first_step_is_what_its_run_accepts_but_waits() {
    agrees_with_its_own_run(&Library);
}

#[test]
fn the_fast_version_s_first_step_is_what_its_run_accepts_but_waits() {
    agrees_with_its_own_run(&Fast);
}

#[test]
fn the_model_s_first_step_is_what_its_run_accepts_but_waits() {
    agrees_with_its_own_run(&Model);
}
