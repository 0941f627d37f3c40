//! Tables in the other edition: the bytes of both, there and back, refusals and their order; the library against the model on seeded
//! tables, every lent byte; and a schedule runs the same on both. `EDITIONS=n` tries more than 10,000.

use judge::compare::compare_moves;
use judge::dice::{each_seed, part_of, seeds, Dice};
use judge::makers::bundles::case;
use judge::makers::shelf::{any, whole};
use judge::model::{read_table, Edition, Model};
use judge::{Bench, Library, Moves};
use macaroosh::calls::Answer;
use macaroosh::parts::front;
use macaroosh::{Form, ECHO, MOST_TABLE, MOST_WORDS};
use std::collections::{BTreeMap, BTreeSet};

const MOVERS: [(&str, &dyn Moves); 2] = [("model", &Model), ("library", &Library)];

const MAJORITY: &[u8; 58] = include_bytes!("../../examples/majority.table");

// What was written to so many lent bytes, or the refusal and its place; no other byte changes.
#[track_caller]
fn moved(who: &dyn Moves, to: Edition, table: &[u8], room: usize) -> Result<Vec<u8>, (u8, u32)> {
    let mut lent = vec![0xAA; room];
    let Answer { refusal, place, count } = who.to_edition(to, table, &mut lent);
    let past = lent.split_off(count as usize);
    assert!(past.iter().all(|&byte| byte == 0xAA), "{} bytes past {count} of {room}", past.len());
    if refusal == 0 {
        assert_eq!(place, 0);
        Ok(lent)
    } else {
        assert_eq!(count, 0);
        Err((refusal, place))
    }
}

fn agrees(seed: u64) -> Vec<(Edition, u8)> {
    let dice = &mut Dice::new(seed);
    let table = any(dice);
    compare_moves(&Model, &Library, &table, dice)
        .unwrap_or_else(|difference| panic!("seed {seed}: {difference}\ntable {table:02x?}"))
}

#[test]
fn the_library_agrees_with_the_model() {
    let seeds = seeds("EDITIONS", part_of(10_000));
    let mut seen: BTreeMap<(&str, u8), usize> = BTreeMap::new();
    for (to, number) in each_seed(seeds, agrees).concat() {
        *seen.entry((to.name(), number)).or_default() += 1;
    }
    println!("{seeds} tables, calls by edition and refusal: {seen:?}");
    let to_first = (0..=9).chain([30, 32, 33]).map(|number| ("first", number));
    let to_second = (0..=9).chain([30, 33]).map(|number| ("second", number));
    assert_eq!(seen.into_keys().collect::<Vec<_>>(), to_first.chain(to_second).collect::<Vec<_>>());
}

#[test]
fn there_and_back_are_the_same_bytes() {
    each_seed(seeds("EDITIONS", part_of(10_000)), |seed| {
        let dice = &mut Dice::new(seed);
        for (own, other) in [(Edition::First, Edition::Second), (Edition::Second, Edition::First)] {
            let table = whole(dice, own);
            for (who, mover) in MOVERS {
                let there = moved(mover, other, &table, MOST_TABLE).expect("a table without divisors");
                assert_eq!(moved(mover, own, &there, table.len()).as_ref(), Ok(&table), "{who}: seed {seed}");
                assert_eq!(read_table(&there).expect("a table").edition, other, "{who}: seed {seed}");
            }
        }
    });
}

// The echo table by hand: e = 1 in each rule, the distances longer by seven bytes, 11 for 01 as types byte.
const ECHO_SECOND: [u8; 58] = [
    1, 0, 1, 0, 0, 1, 2, 1, 0, 0, 0, 0, 0, 1, 0, 2, 0, 1, 1, 1, 0, 3, 1, 255, 0, 1, 1, 2, 0, 0, 0, 1, 2, 2, 0, 0, 0, 1,
    2, 3, 1, 255, 0, 1, 3, 3, 0, 0, 0, 1, 0x32, 0, 0x2A, 0, 4, 7, 0x11, 3,
];

#[test]
fn the_echo_table_moves_to_the_byte() {
    for (who, mover) in MOVERS {
        for room in [58, 59, MOST_TABLE] {
            assert_eq!(moved(mover, Edition::Second, &ECHO, room), Ok(ECHO_SECOND.to_vec()), "{who}");
        }
        for room in [51, 52, 58] {
            assert_eq!(moved(mover, Edition::First, &ECHO_SECOND, room), Ok(ECHO.to_vec()), "{who}");
        }
    }
}

// A table of so many states, rules and types in an edition, whose coefficients differ; without divisors.
fn sized(states: u8, rules: u8, types: usize, edition: Edition) -> Vec<u8> {
    let mut part: Vec<u8> = (0..states).flat_map(|state| [u8::from(state == 0), 0]).collect();
    for rule in 0..rules {
        part.extend([rule % states, (rule + 1) % states]);
        for kind in 0..types {
            let sum = 4 * rule + kind as u8;
            part.extend([sum, 255 - sum, sum ^ 128]);
            part.extend((edition == Edition::Second).then_some(1));
        }
    }
    let of_rules = part.len() - 2 * usize::from(states);
    let distances = [part.len(), of_rules].map(|distance| (distance as u16).to_le_bytes());
    [&part, &distances.concat(), &[states, rules, edition.types_byte(types) as u8, 8][..]].concat()
}

#[test]
fn every_size_moves_to_the_byte() {
    for (states, rules) in [(1, 1), (16, 1), (1, 64), (16, 64), (5, 7)] {
        for types in 1..=4 {
            let [first, second] = Edition::ALL.map(|edition| sized(states, rules, types, edition));
            for (who, mover) in MOVERS {
                let about = format!("{who}: {states} states, {rules} rules, {types} types");
                assert_eq!(moved(mover, Edition::Second, &first, second.len()).as_ref(), Ok(&second), "{about}");
                assert_eq!(moved(mover, Edition::First, &second, first.len()).as_ref(), Ok(&first), "{about}");
                assert_eq!(moved(mover, Edition::Second, &first, second.len() - 1), Err((30, 0)), "{about}");
                assert_eq!(moved(mover, Edition::First, &second, first.len() - 1), Err((30, 0)), "{about}");
            }
        }
    }
    assert_eq!(sized(16, 64, 4, Edition::Second).len(), MOST_TABLE);
}

#[test]
fn every_divisor_is_looked_at() {
    let (rules, types) = (64, 4);
    let sound = sized(2, rules, types, Edition::Second);
    for (rule, kind) in (0..usize::from(rules)).flat_map(|rule| (0..types).map(move |kind| (rule, kind))) {
        let mut table = sound.clone();
        let at = 4 + (2 + 4 * types) * rule + 5 + 4 * kind;
        // A second one after it makes no difference.
        for e in [2, 8] {
            table[at] = e;
            table[4 + (2 + 4 * types) * 63 + 5 + 4 * 3] = 3;
            for (who, mover) in MOVERS {
                let about = format!("{who}: e = {e} of rule {rule}, type {kind}");
                assert_eq!(moved(mover, Edition::First, &table, MOST_TABLE), Err((32, rule as u32)), "{about}");
            }
        }
        for e in [0, 9, 255] {
            table[at] = e;
            for (who, mover) in MOVERS {
                assert_eq!(moved(mover, Edition::First, &table, MOST_TABLE), Err((9, rule as u32)), "{who}");
            }
        }
    }
}

// What is wrong with a table, the edition that it is moved to, its bytes, so many lent ones, and its refusal.
type Refused<'a> = (&'a str, Edition, &'a [u8], usize, (u8, u32));

#[test]
fn refusals_have_their_order() {
    // Rule 2 has e = 2, and rule 5 e = 9, or an end that is no state.
    let (mut nine, mut end, mut wrong) = (*MAJORITY, *MAJORITY, ECHO);
    nine[43] = 9;
    end[38] = 4;
    wrong[33] = 4;
    let (first, second) = (Edition::First, Edition::Second);
    let cases: [Refused; 14] = [
        ("nothing", first, &[], 0, (1, 0)),
        ("nothing", second, &[], 0, (1, 0)),
        ("e out of range before e other than 1", first, &nine, 0, (9, 5)),
        ("an end before e other than 1", first, &end, 0, (6, 5)),
        ("e out of range before its own edition", second, &nine, 0, (9, 5)),
        ("an end before its own edition", first, &wrong, 0, (6, 5)),
        ("an end before no room", second, &wrong, 0, (6, 5)),
        ("e other than 1 before no room", first, MAJORITY, 0, (32, 2)),
        ("e other than 1", first, MAJORITY, 58, (32, 2)),
        ("its own edition, whatever e is", second, MAJORITY, 58, (33, 0)),
        ("its own edition before no room", second, MAJORITY, 0, (33, 0)),
        ("its own edition before no room", first, &ECHO, 50, (33, 0)),
        ("no room at all", second, &ECHO, 0, (30, 0)),
        ("one byte too few", second, &ECHO, 57, (30, 0)),
    ];
    for (who, mover) in MOVERS {
        for (name, to, table, room, expected) in cases {
            assert_eq!(moved(mover, to, table, room), Err(expected), "{who}: {name}, to the {} edition", to.name());
        }
    }
}

// The bundle and its standing table with the table in use in the other edition; nothing where it can't be moved.
fn with_other_table(bundle: &[u8], standing: &[u8]) -> Option<(Vec<u8>, Vec<u8>)> {
    let own = front(bundle)?;
    let table = if own.is_empty() { standing } else { own };
    let mut other = vec![0; MOST_TABLE];
    let answers = Edition::ALL.map(|to| Library.to_edition(to, table, &mut other));
    let count = answers.iter().find(|answer| answer.refusal == 0)?.count as usize;
    other.truncate(count);
    Some(if own.is_empty() {
        (bundle.to_vec(), other)
    } else {
        ([&other, &bundle[own.len()..]].concat(), standing.to_vec())
    })
}

// What a bundle comes to: its run and words, its first step, and its schedule in each form.
fn outcome(bundle: &[u8], standing: &[u8]) -> impl PartialEq + std::fmt::Debug {
    let mut words = vec![u64::MAX; MOST_WORDS];
    let ran = Library.run(bundle, standing, &mut words);
    let before = front(bundle).map_or(0, <[u8]>::len);
    let forms = Form::ALL.map(|form| {
        let mut out = bundle.to_vec();
        let answer = Library.translate_to(bundle, standing, u64::from(form.number()), &mut out);
        (answer.refusal, answer.place, out.split_off(before))
    });
    (ran, words, Library.first_step(bundle, standing), forms)
}

#[test]
fn a_schedule_runs_the_same_on_both() {
    let refusals = each_seed(seeds("EDITIONS", part_of(10_000)), |seed| {
        let (bundle, standing) = case(&mut Dice::new(seed));
        let (other, beside) = with_other_table(&bundle, &standing)?;
        assert_eq!(outcome(&bundle, &standing), outcome(&other, &beside), "seed {seed}: {bundle:02x?}");
        Some(Library.run(&bundle, &standing, &mut [0; MOST_WORDS]).refusal)
    });
    let seen: BTreeSet<u8> = refusals.into_iter().flatten().collect();
    assert_eq!(seen, (12..=14).chain(20..=27).chain([0]).collect());
}
