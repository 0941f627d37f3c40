//! The table of figures, run over the model, the library, the fast version and the report program; and what the figures do not
//! say: the order of refusals of a translation, and the thresholds themselves.

mod reporter;
mod table;

use judge::fast::Fast;
use judge::makers::bundles::closed;
use judge::model::{read, report, Bundle, Coefficients, Model, Outline};
use judge::{Bench, Checks, Counts, Library, Limits, Moves, Replays, Searches};
use macaroosh::calls::{Answer, First, Receipts, Step};
use macaroosh::{Form, Refusal, ECHO, MOST_BYTES};
use reporter::reported;
use table::{case, cases, moves, List, Moved, Search};

// Whoever answers about bundles.
trait Side: Bench + Searches + Checks {}

impl<S: Bench + Searches + Checks> Side for S {}

const BENCHES: [(&str, &dyn Side); 3] = [("model", &Model), ("library", &Library), ("fast", &Fast)];

fn answer((refusal, place, count): (u8, u32, u32)) -> Answer {
    Answer { refusal, place, count }
}

#[test]
fn runs_end_as_the_table_says() {
    for case in cases() {
        let (expected, words) = (case.answer(), case.words.clone().unwrap_or_default());
        assert_eq!(expected.left_a_configuration(), case.words.is_some(), "{}: the words in the table", case.name);
        for (who, bench) in BENCHES {
            for (bundle, standing) in case.beside(&case.bundle) {
                let about = format!("{who}: {}, {} bytes", case.name, bundle.len());
                let mut lent = vec![u64::MAX; words.len() + 3];
                assert_eq!(bench.run(&bundle, standing, &mut lent), expected, "{about}");
                assert_eq!(lent, [&words[..], &[u64::MAX; 3]].concat(), "{about}");
                // One word less is too little.
                if !words.is_empty() {
                    let mut few = vec![9; words.len() - 1];
                    assert_eq!(bench.run(&bundle, standing, &mut few), answer((30, 0, 0)), "{about}");
                    assert!(few.iter().all(|&word| word == 9), "{about}");
                }
            }
        }
    }
}

#[test]
fn receipts_are_as_the_table_says() {
    let counters: [(&str, &dyn Counts); 2] = [("model", &Model), ("library", &Library)];
    assert!(cases().iter().filter(|case| case.receipts.is_some()).count() > 30, "the lines are not read");
    for case in cases() {
        let (Answer { refusal, place, .. }, words) = (case.answer(), case.words.clone().unwrap_or_default());
        for (bundle, standing) in case.beside(&case.bundle) {
            // Without a line, what the model counts.
            let told = case.receipts.unwrap_or_else(|| {
                let counted = Model.receipts(&bundle, standing, &mut vec![0; words.len()]);
                [counted.receipts, counted.sends]
            });
            let expected = Receipts { refusal, place, receipts: told[0], sends: told[1] };
            for (who, counter) in counters {
                let about = format!("{who}: {}, {} bytes", case.name, bundle.len());
                let mut lent = vec![u64::MAX; words.len() + 3];
                assert_eq!(counter.receipts(&bundle, standing, &mut lent), expected, "{about}");
                assert_eq!(lent, [&words[..], &[u64::MAX; 3]].concat(), "{about}");
                // One word less is too little.
                if !words.is_empty() {
                    let mut few = vec![9; words.len() - 1];
                    let refused = Receipts { refusal: 30, place: 0, receipts: 0, sends: 0 };
                    assert_eq!(counter.receipts(&bundle, standing, &mut few), refused, "{about}");
                    assert!(few.iter().all(|&word| word == 9), "{about}");
                }
            }
        }
    }
}

#[test]
fn the_lines_of_the_table_are_reported() {
    let mut wrong = String::new();
    for case in cases() {
        // The report program's standing table is the echo table, so that it makes no difference in front.
        for (bundle, _) in case.beside(&case.bundle) {
            for (who, wrote) in [("model", report(&bundle)), ("report program", reported(&[&bundle]))] {
                if wrote != case.report {
                    wrong += &format!("{who}: {}, {} bytes\n{}wrote\n{wrote}", case.name, bundle.len(), case.report);
                }
            }
        }
    }
    assert!(wrong.is_empty(), "{wrong}");
}

#[test]
fn a_bundle_may_come_in_pieces() {
    let w = case("W");
    assert_eq!(reported(&[&w.bundle[..11], &w.bundle[11..16], &w.bundle[16..]]), w.report);
}

#[test]
fn bundles_are_translated_as_the_table_says() {
    for case in cases() {
        for (form, other) in &case.to {
            // What is gone to where no form is asked for.
            let usual = case.bundle.last().and_then(|&own| Form::of(u64::from(own))).map(Form::other);
            let is_usual = usual.map(|form| u64::from(form.number())) == Some(*form);
            for (who, bench) in BENCHES {
                for ((bundle, standing), (other, _)) in case.beside(&case.bundle).into_iter().zip(case.beside(other)) {
                    let about = format!("{who}: {} to {form}, {} bytes", case.name, bundle.len());
                    let written = answer((0, 0, bundle.len() as u32));
                    for room in [bundle.len(), bundle.len() + 2] {
                        let whole = [&other[..], &vec![0xAA; room - bundle.len()]].concat();
                        let mut out = vec![0xAA; room];
                        assert_eq!(bench.translate_to(&bundle, standing, *form, &mut out), written, "{about}");
                        assert_eq!(out, whole, "{about}");
                        if is_usual {
                            let mut out = vec![0xAA; room];
                            assert_eq!(bench.translate(&bundle, standing, &mut out), written, "{about}");
                            assert_eq!(out, whole, "{about}");
                        }
                    }
                }
            }
        }
    }
}

#[test]
fn what_a_run_refuses_every_question_refuses() {
    for case in cases() {
        let Answer { refusal, place, .. } = case.answer();
        if refusal == 0 {
            continue;
        }
        for (who, bench) in BENCHES {
            for (bundle, standing) in case.beside(&case.bundle) {
                let about = format!("{who}: {}, {} bytes", case.name, bundle.len());
                let refused: First = Err(Refusal { number: refusal, place });
                assert_eq!(bench.first_step(&bundle, standing), refused, "{about}");
                let untouched = vec![0xAA; bundle.len()];
                let mut out = untouched.clone();
                assert_eq!(bench.translate(&bundle, standing, &mut out), answer((refusal, place, 0)), "{about}");
                for form in Form::ALL.into_iter().filter(|form| bundle.last() != Some(&form.number())) {
                    let form = u64::from(form.number());
                    let translated = bench.translate_to(&bundle, standing, form, &mut out);
                    assert_eq!(translated, answer((refusal, place, 0)), "{about}, to {form}");
                }
                // A search looks at the form before any step.
                let counting = bundle.last() == Some(&Form::Counting.number());
                let searched = if refusal < 20 || counting { (refusal, place, 0) } else { (35, 0, 0) };
                let (limits, mut tried) = (Limits { depth: 0, budget: 9 }, 9);
                assert_eq!(bench.search(&bundle, standing, limits, &mut out, &mut tried), answer(searched), "{about}");
                assert_eq!((out, tried), (untouched, 0), "{about}");
                // A check looks at no step.
                let checked = if refusal < 20 { (refusal, place, 0) } else { (70, 0, 0) };
                assert_eq!(bench.check_list(&bundle, standing, &[]), answer(checked), "{about}");
            }
        }
    }
}

#[test]
fn first_steps_are_as_the_table_says() {
    for case in cases() {
        if let Some(first) = case.first {
            for (who, bench) in BENCHES {
                for (bundle, standing) in case.beside(&case.bundle) {
                    assert_eq!(
                        bench.first_step(&bundle, standing),
                        first,
                        "{who}: {}, {} bytes",
                        case.name,
                        bundle.len()
                    );
                }
            }
        }
    }
}

#[test]
fn logs_are_replayed_as_the_table_says() {
    let all = cases();
    let replayers: [(&str, &dyn Replays); 3] = [("model", &Model), ("library", &Library), ("fast", &Fast)];
    for (case, log) in all.iter().flat_map(|case| case.logs.iter().map(move |log| (case, log))) {
        // The words are those of the case that it makes.
        let made = all.iter().find(|other| other.bundle == log.makes && !log.makes.is_empty());
        let words = made.and_then(|made| made.words.clone()).unwrap_or_default();
        assert_eq!(log.answer.left_a_configuration(), made.is_some(), "{}: {:?} makes no case", case.name, log.text);
        for (who, replayer) in replayers {
            for ((bundle, standing), (makes, _)) in case.beside(&case.bundle).into_iter().zip(case.beside(&log.makes)) {
                let about = format!("{who}: {}, {} bytes, {:?}", case.name, bundle.len(), log.text);
                let makes = if made.is_some() { makes } else { Vec::new() };
                let (mut out, mut lent) = (vec![0xAA; 99], vec![u64::MAX; 12]);
                let answer = replayer.replay(&bundle, standing, log.text.as_bytes(), &mut out, &mut lent);
                assert_eq!(answer, log.answer, "{about}");
                assert_eq!(out, [&makes[..], &vec![0xAA; 99 - makes.len()]].concat(), "{about}");
                assert_eq!(lent, [&words[..], &vec![u64::MAX; 12 - words.len()]].concat(), "{about}");
            }
        }
    }
}

#[test]
fn searches_end_as_the_table_says() {
    let all = cases();
    let of_cases = all.iter().flat_map(|case| case.searches.iter().map(move |search| (case, search)));
    assert!(of_cases.clone().count() > 40, "the lines are not read");
    for (case, Search { limits, answer: expected, tried: count, writes }) in of_cases {
        let limits = *limits;
        let room = 4 * limits.depth.min(8) as usize;
        for (who, bench) in BENCHES {
            for (bundle, standing) in case.beside(&case.bundle) {
                let about = format!("{who}: {}, {} bytes, {limits:?}", case.name, bundle.len());
                for more in [0, 3] {
                    let (mut out, mut tried) = (vec![0xAA; room + more], 9);
                    let answer = bench.search(&bundle, standing, limits, &mut out, &mut tried);
                    assert_eq!((answer, tried), (*expected, *count), "{about}");
                    assert_eq!(out, [&writes[..], &vec![0xAA; room + more - writes.len()]].concat(), "{about}");
                }
                // One byte less is too little, where that is looked at.
                if room > 0 && ![34, 35].contains(&expected.refusal) {
                    let (mut few, mut tried) = (vec![9; room - 1], 9);
                    let refused = bench.search(&bundle, standing, limits, &mut few, &mut tried);
                    assert_eq!((refused, tried), (answer((30, 0, 0)), 0), "{about}");
                    assert!(few.iter().all(|&byte| byte == 9), "{about}");
                }
            }
        }
    }
}

#[test]
fn lists_are_checked_as_the_table_says() {
    let all = cases();
    let of_cases = all.iter().flat_map(|case| case.lists.iter().map(move |list| (case, list)));
    assert!(of_cases.clone().count() > 15, "the lines are not read");
    for (case, List { answer, words }) in of_cases {
        for (who, bench) in BENCHES {
            for (bundle, standing) in case.beside(&case.bundle) {
                let about = format!("{who}: {}, {} bytes, {words:?}", case.name, bundle.len());
                assert_eq!(bench.check_list(&bundle, standing, words), *answer, "{about}");
            }
        }
    }
}

#[test]
fn tables_are_moved_as_the_table_says() {
    let movers: [(&str, &dyn Moves); 2] = [("model", &Model), ("library", &Library)];
    let all = moves();
    assert!(all.len() > 10, "the lines are not read: {}", all.len());
    for Moved { to, table, answer: expected, writes } in all {
        for (who, mover) in movers {
            let about = format!("{who}: to the {} edition, {table:02x?}", to.name());
            let mut out = vec![0xAA; writes.len() + 3];
            assert_eq!(mover.to_edition(to, &table, &mut out), expected, "{about}");
            assert_eq!(out, [&writes[..], &[0xAA; 3]].concat(), "{about}");
            // One byte less is too little.
            if !writes.is_empty() {
                let mut few = vec![9; writes.len() - 1];
                assert_eq!(mover.to_edition(to, &table, &mut few), answer((30, 0, 0)), "{about}");
                assert!(few.iter().all(|&byte| byte == 9), "{about}");
            }
        }
    }
}

#[test]
fn its_own_form_and_no_form_are_refused() {
    // A form is compared as a whole number: each of these has a form's in its lowest byte, or none.
    let none = [3, 4, 254, 255, 256, 257, 258, 1 << 16, 1 << 32, (1 << 32) + 1, (1 << 32) + 2, 1 << 63, u64::MAX];
    for (name, own) in [("W", 0), ("W in counting form", 1), ("W in plain form", 2)] {
        let bundle = case(name).bundle;
        for (who, bench) in BENCHES {
            for form in none.into_iter().chain([own]) {
                let mut out = [0xAA; 31];
                let refused = bench.translate_to(&bundle, &ECHO, form, &mut out);
                assert_eq!((refused, out), (answer((31, 0, 0)), [0xAA; 31]), "{who}: {name} to {form}");
            }
        }
    }
}

#[test]
fn a_form_is_refused_after_reading_and_before_room_and_steps() {
    let [w, twice, start] = ["W", "W with an echo twice", "14: board 1 in state 2"].map(|name| case(name).bundle);
    let third = [&w[..w.len() - 1], &[3]].concat();
    let cases = [
        ("a start before its own form", &start, 0, 31, (14, 1, 0)),
        ("a start before no form", &start, 3, 31, (14, 1, 0)),
        ("a start before its own form and no room", &start, 0, 0, (14, 1, 0)),
        ("n, t, f, form before the same form", &third, 3, 31, (12, 0, 0)),
        ("its own form before no room", &w, 0, 30, (31, 0, 0)),
        ("its own form before no room at all", &w, 0, 0, (31, 0, 0)),
        ("no form before no room", &w, 3, 30, (31, 0, 0)),
        ("its own form before a step", &twice, 0, 31, (31, 0, 0)),
        ("no form before a step", &twice, 1 << 32, 31, (31, 0, 0)),
        ("no room before a step", &twice, 1, 30, (30, 0, 0)),
        ("a step", &twice, 1, 31, (24, 4, 0)),
        ("a step", &twice, 2, 31, (24, 4, 0)),
    ];
    for (who, bench) in BENCHES {
        for (name, bundle, form, room, expected) in cases {
            let mut out = [0xAA; 31];
            let refused = bench.translate_to(bundle, &ECHO, form, &mut out[..room]);
            assert_eq!((refused, out), (answer(expected), [0xAA; 31]), "{who}: {name}, to {form}");
        }
    }
}

#[test]
fn too_little_room_is_refused_before_a_step() {
    let (w, twice) = (case("W").bundle, case("W with an echo twice").bundle);
    for (who, bench) in BENCHES {
        let mut out = [0xAA; 31];
        assert_eq!(bench.translate(&twice, &ECHO, &mut out), answer((24, 4, 0)), "{who}");
        assert_eq!(bench.translate(&w, &ECHO, &mut out[..30]), answer((30, 0, 0)), "{who}");
        assert_eq!(out, [0xAA; 31], "{who}");
        let mut words = [7; 7];
        assert_eq!(bench.run(&w, &ECHO, &mut words), answer((30, 0, 0)), "{who}");
        assert_eq!(bench.run(&twice, &ECHO, &mut words), answer((30, 0, 0)), "{who}");
        assert_eq!(words, [7; 7], "{who}");
    }
}

// The thresholds of a bundle's rules for type 0.
fn thresholds(bundle: &Bundle) -> Vec<i64> {
    bundle.table.rules.iter().map(|rule| Model.threshold(bundle, rule.coefficients[0])).collect()
}

#[test]
fn thresholds_are_exact_at_both_ends() {
    let threshold = |starts: &[u8], numbers: [u8; 4], coefficients| {
        let bundle = [starts, &[0, 0, starts.len() as u8, 0], &numbers].concat();
        Model.threshold(&read(&bundle, &ECHO).expect("a bundle"), Coefficients::whole(coefficients))
    };
    for (coefficients, of_four, of_one) in [([0, 1, 1], 2, 1), ([1, -1, 0], 3, 1)] {
        assert_eq!(threshold(&[1, 1, 1], [4, 1, 1, 0], coefficients), of_four);
        assert_eq!(threshold(&[1], [1, 0, 0, 0], coefficients), of_one);
    }
    for (name, expected) in [
        ("P2, the least threshold", &[-16_384, 16_256][..]),
        ("the least threshold over 8", &[-2_048, 2_032]),
        ("sums of -1 to 1 over 2", &[0, -1, 1, 0]),
        ("more than half, n + t even", &[0, 2, 4, 0, 0, 4, 0]),
        ("more than half, n + t odd", &[0, 2, 3, 0, 0, 3, 0]),
    ] {
        assert_eq!(thresholds(&read(&case(name).bundle, &[]).expect("a bundle")), expected, "{name}");
    }
}

// One correct board and 63 faulty ones, n = 64, t = 63: the board hears so many of them by rule 0, and then takes rule 1, which
// asks for that sum over e.
fn after_hearing(heard: u8, sum: i32, e: u8) -> Vec<u8> {
    let (a, d) = (sum.div_euclid(64) as u8, sum.rem_euclid(64) as u8);
    let table = [1, 0, 0, 0, 0, 0, 0, 1, 0, 0, a, 0, d, e, 14, 0, 12, 0, 1, 2, 17, 1, 0];
    let hears = (1..=heard).map(|source| Step { board: 0, rule: 0, kind: 0, source });
    let steps: Vec<Step> = hears.chain([Step { board: 0, rule: 1, kind: 255, source: 255 }]).collect();
    closed(&table, &steps, 1, [64, 63, 63, 0])
}

#[test]
fn every_quotient_is_rounded_up() {
    for e in 1..=8 {
        for sum in -2 * i32::from(e)..=63 * i32::from(e) {
            let asked = (0..=63).find(|count| count * i32::from(e) >= sum).expect("a count") as u8;
            for (who, bench) in BENCHES {
                let run = |heard| bench.run(&after_hearing(heard, sum, e), &[], &mut [0; 4]);
                let all = u32::from(asked) + 1;
                assert_eq!(run(asked), answer((0, 0, all)), "{who}: {sum}/{e}");
                if let Some(fewer) = asked.checked_sub(1) {
                    assert_eq!(run(fewer), answer((25, all - 2, all - 2)), "{who}: {sum}/{e}");
                }
            }
        }
    }
}

#[test]
fn the_examples_are_cases_of_the_table() {
    let examples: [(&str, &[u8]); 5] = [
        ("W", include_bytes!("../../examples/w.bundle")),
        ("more than half, n + t even", include_bytes!("../../examples/majority.bundle")),
        ("half alone, n + t even", include_bytes!("../../examples/half.bundle")),
        ("W in counting form without its steps", include_bytes!("../../examples/bubble.bundle")),
        ("no echo to send, in counting form", include_bytes!("../../examples/no-bubble.bundle")),
    ];
    for (name, bytes) in examples {
        assert_eq!(case(name).bundle, bytes, "{name}");
    }
}

#[test]
fn the_largest_bundle_has_the_most_bytes() {
    assert_eq!(case("the largest bundle").bundle.len(), MOST_BYTES);
    assert_eq!(case("17,649 bytes").bundle.len(), MOST_BYTES + 1);
    assert_eq!(case("the largest bundle of the first edition").bundle.len(), 17_392);
}
