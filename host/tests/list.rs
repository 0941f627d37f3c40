//! Lists of configurations: the library and the hand-written fast version against the model on seeded lists, sound and with faults; the
//! edges of what a list may be; the order of refusals; and what an accepted list says of schedules. `LISTS=n` tries more than 10,000.

use judge::compare::compare_list;
use judge::dice::{each_seed, part_of, seeds, Dice};
use judge::fast::Fast;
use judge::lists::{closure, configuration, ListOutline};
use judge::makers::bundles::{closed, with, without_steps};
use judge::makers::cases::{lists, ListCase};
use judge::makers::lists::{any, kinds, List};
use judge::model::{read, Bundle, Model, Outline};
use judge::{Bench, Checks, Library};
use macaroosh::calls::{Answer, Step};
use macaroosh::{Form, ECHO, MOST_LISTED, MOST_WORDS};
use std::collections::{BTreeMap, BTreeSet};

const CHECKERS: [(&str, &dyn Checks); 3] = [("model", &Model), ("library", &Library), ("fast", &Fast)];

// Agrees with the model on every seed, and the seeds come to every kind and refusal, and to places of each that has some.
fn agrees_on_seeds(checker: &(dyn Checks + Sync)) {
    let seeds = seeds("LISTS", part_of(10_000));
    let agrees = |seed| {
        let list = any(&mut Dice::new(seed));
        let answer = compare_list(&Model, checker, &list)
            .unwrap_or_else(|difference| panic!("seed {seed}: {difference}\n{list:02x?}"));
        (list.kind, answer)
    };
    let (mut made, mut counts): (BTreeMap<&str, usize>, BTreeSet<u32>) = Default::default();
    let mut refused: BTreeMap<(u8, bool), usize> = BTreeMap::new();
    for (kind, answer) in each_seed(seeds, agrees) {
        *made.entry(kind).or_default() += 1;
        *refused.entry((answer.refusal, answer.place > 0)).or_default() += 1;
        counts.insert(answer.count);
    }
    println!("{seeds} lists: {made:?}; by refusal, and whether it has a place: {refused:?}; counts: {counts:?}");
    assert_eq!(made.into_keys().collect::<BTreeSet<_>>(), kinds().collect());
    let numbers: BTreeSet<u8> = refused.keys().map(|&(number, _)| number).collect();
    assert_eq!(numbers, (0..=14).chain(70..=74).collect());
    for number in [70, 71, 73, 74] {
        assert!(refused.contains_key(&(number, true)), "{number} has no place: {refused:?}");
    }
    // With any refusal it is 0.
    assert!(counts.contains(&(MOST_LISTED as u32)) && counts.len() > 20 && counts.contains(&0), "{counts:?}");
}

#[test]
fn the_library_agrees_with_the_model() {
    agrees_on_seeds(&Library);
}

#[test]
fn the_fast_version_agrees_with_the_model() {
    agrees_on_seeds(&Fast);
}

fn accepted(count: usize) -> Answer {
    Answer { refusal: 0, place: 0, count: count as u32 }
}

fn refused(refusal: u8, place: u32) -> Answer {
    Answer { refusal, place, count: 0 }
}

#[track_caller]
fn all_answer(bundle: &[u8], standing: &[u8], list: &[u64], expected: Answer, about: &str) {
    for (who, checker) in CHECKERS {
        assert_eq!(checker.check_list(bundle, standing, list), expected, "{who}: {about}");
    }
}

// Boards of the echo table in those states, without steps, of n, t and f, in counting form.
fn starting(starts: &[u8], [n, t, f]: [u8; 3]) -> Vec<u8> {
    closed(starts, &[], starts.len(), [n, t, f, 1])
}

// All that is reached from a bundle's start.
fn reached(bundle: &[u8], standing: &[u8]) -> Vec<Vec<u64>> {
    let whole = read(bundle, standing).expect("a bundle");
    closure(&whole, &[whole.start().words()], 10 * MOST_LISTED).expect("not so many")
}

// Three boards without an echo to send, and one faulty: each has heard it or not.
fn no_bubble() -> (Vec<u8>, Vec<Vec<u64>>) {
    let all = (0..8u64).map(|set| [0, 0, 0, 0, set >> 2, 0, set >> 1 & 1, 0, set & 1, 0, 0].to_vec());
    (starting(&[0, 0, 0], [4, 1, 1]), all.collect())
}

#[test]
fn what_is_reached_is_accepted() {
    let (bundle, all) = no_bubble();
    assert_eq!(reached(&bundle, &ECHO), all);
    all_answer(&bundle, &ECHO, &all.concat(), accepted(8), "no echo to send");
    // With a rule 1 that asks for t a board sends an echo on that of the faulty one.
    let asks_t = include_bytes!("../../examples/asks-t.table");
    all_answer(&bundle, asks_t, &all.concat(), refused(73, 0), "a rule that asks for t");
    // One board alone, with the table in front: V0 has no step but a wait.
    let alone = [&ECHO[..], &starting(&[0], [1, 0, 0])].concat();
    all_answer(&alone, &[], &[0; 5], accepted(1), "one board alone");
    // It may accept, with an echo of its own.
    let bubble = starting(&[1], [1, 0, 0]);
    let all = reached(&bubble, &ECHO);
    let place = all.iter().position(|words| words[0] == 3).expect("it accepts") as u32;
    all_answer(&bubble, &ECHO, &all.concat(), refused(74, place), "one board alone, with an echo to send");
}

#[test]
fn all_agree_on_what_is_measured() {
    for ListCase { name, bundle, list } in lists() {
        let many = list.len() / Model.wide(&read(&bundle, &ECHO).expect("a bundle"));
        all_answer(&bundle, &ECHO, &list, accepted(many), name);
    }
}

// A start state that no rule leaves, a state that is accepting, and so many types.
fn still(types: usize) -> Vec<u8> {
    let rule = [vec![1, 1], vec![0; 3 * types]].concat();
    let length = rule.len() as u8;
    [&[1, 0, 2, 0][..], &rule, &[length + 4, 0, length, 0, 2, 1, types as u8, 1]].concat()
}

// So many configurations of such boards, with other counts of the last two boards.
fn of_still(correct: usize, types: usize, many: u64) -> Vec<Vec<u64>> {
    let wide = correct * (1 + 2 * types) + types + 1;
    let last = correct * (1 + 2 * types);
    let words = |number: u64| {
        let mut words = vec![0; wide];
        for digit in 0..10.min(2 * types * correct) {
            words[last - 1 - digit] = number >> digit & 1;
        }
        words
    };
    (0..many).map(words).collect()
}

#[test]
fn the_most_boards_and_configurations_are_taken() {
    for types in 1..=4 {
        let table = still(types);
        let six = starting(&[0; 6], [7, 1, 1]);
        for many in [1, 2, 511, 512] {
            all_answer(&six, &table, &of_still(6, types, many).concat(), accepted(many as usize), "six boards");
        }
        for many in [513, 514, 1_024] {
            all_answer(&six, &table, &of_still(6, types, many).concat(), refused(70, 0), "too many");
        }
        let seven = starting(&[0; 7], [8, 1, 1]);
        for many in [0, 1, 8] {
            all_answer(&seven, &table, &of_still(7, types, many).concat(), refused(70, 0), "seven boards");
        }
        // The most, and one word less or more.
        let mut most = of_still(6, types, 512).concat();
        let last = most.pop();
        all_answer(&six, &table, &most, refused(70, 0), "one word short");
        most.extend([last.unwrap_or(0), 0]);
        all_answer(&six, &table, &most, refused(70, 0), "one word more");
    }
}

#[test]
fn each_range_has_its_end() {
    // Two correct boards and two faulty ones, two types: where the words are of one configuration, and the most of each.
    let (table, bundle) = (still(2), starting(&[0, 0], [4, 2, 2]));
    let most = [1, 1, 2, 2, 2, 2, 2, 2, 2, 2, 2, 2, 0];
    let start = vec![0; 13];
    for (at, &most) in most.iter().enumerate() {
        for word in [most, most + 1, 255, 256, 1 << 32, 1 << 63, u64::MAX] {
            let mut other = start.clone();
            other[at] = word;
            let expected = match (word <= most, at) {
                (true, 12) => accepted(1),
                // A board in state 1 can hear a faulty one.
                (true, 0 | 1) => refused(73, 1),
                (true, _) => accepted(2),
                (false, _) => refused(71, 1),
            };
            let list = if other == start { start.clone() } else { [start.clone(), other].concat() };
            all_answer(&bundle, &table, &list, expected, &format!("word {at} is {word}"));
        }
    }
}

#[test]
fn a_configuration_need_not_be_reached() {
    let (bundle, all) = no_bubble();
    // A correct count above sent: nothing correct is in transit then, and boards in V0 with two echoes take rule 1 and send.
    let mut more = all.clone();
    more.push(vec![0, 0, 0, 1, 1, 1, 1, 1, 1, 0, 0]);
    more.sort();
    let place = more.iter().position(|words| words[3] == 1 && words[5] == 1).expect("it is listed") as u32;
    all_answer(&bundle, &ECHO, &more.concat(), refused(73, place), "rule 1 is met");
    // All have sent, by their states, and the sent count is the most: none but waits, and what is in transit is heard.
    let lone = starting(&[0], [1, 0, 0]);
    let heard = [[0, 0, 0, 0, 0], [2, 1, 0, 0, 0]].concat();
    all_answer(&lone, &ECHO, &heard, refused(73, 1), "one that has an echo from nowhere accepts by rule 5");
    // A send beyond the most leads outside, since no such configuration can be listed.
    let sends = [[0, 0, 0, 0, 0], [1, 0, 0, 1, 0]].concat();
    all_answer(&lone, &ECHO, &sends, refused(73, 1), "a count of two sent by one board");
    let beyond = [[0, 0, 0, 0, 0], [1, 0, 0, 1, 0], [2, 0, 0, 2, 0]].concat();
    all_answer(&lone, &ECHO, &beyond, refused(71, 2), "the same, listed");
    // What was sent is in transit, also where nobody's state says so.
    let sent = [[0, 0, 0, 0, 0], [3, 0, 0, 1, 0]].concat();
    all_answer(&lone, &ECHO, &sent, refused(73, 1), "it hears what is sent, by rule 6");
    let heard = [[0, 0, 0, 0, 0], [3, 0, 0, 1, 0], [3, 1, 0, 1, 0]].concat();
    all_answer(&lone, &ECHO, &heard, refused(74, 1), "all that follows is listed");
}

#[test]
fn refusals_have_their_order() {
    let (bundle, all) = no_bubble();
    let list = all.concat();
    let form = |form: u8| [&bundle[..bundle.len() - 1], &[form]].concat();
    let wait = Step { board: 0, rule: 0, kind: 255, source: 255 };
    let refused_step = Step { board: 3, ..wait };
    let start = starting(&[0, 2, 0], [4, 1, 1]);
    let doubled = [&list[..11], &list].concat();
    let mut cases = vec![
        ("a start before the form", start, list.clone(), (14, 1)),
        ("the form byte", form(3), list.clone(), (12, 0)),
        ("message form", form(0), list.clone(), (70, 0)),
        ("plain form", form(2), list.clone(), (70, 0)),
        ("message form, and no list", form(0), Vec::new(), (70, 0)),
        ("a step", with(&bundle, wait), list.clone(), (70, 0)),
        ("a step that is refused", with(&bundle, refused_step), list.clone(), (70, 0)),
        ("one word short", bundle.clone(), list[..87].to_vec(), (70, 0)),
        ("one word", bundle.clone(), vec![0], (70, 0)),
        ("a size before the order", bundle.clone(), doubled[..98].to_vec(), (70, 0)),
        ("twice the same", bundle.clone(), doubled, (70, 1)),
        ("empty", bundle.clone(), Vec::new(), (72, 0)),
        ("the start dropped", bundle.clone(), list[11..].to_vec(), (72, 0)),
        ("the last dropped", bundle.clone(), list[..77].to_vec(), (73, 3)),
        ("the start alone", bundle.clone(), list[..11].to_vec(), (73, 0)),
    ];
    let mut changed = |name, at: usize, words: [u64; 11], expected| {
        let mut all = all.clone();
        all[at] = words.to_vec();
        cases.push((name, bundle.clone(), all.concat(), expected));
    };
    // In the place of the last: an accepting board, which leads outside too; no such state; one that is not after the one before.
    changed("a step before accepting", 7, [0, 0, 3, 0, 1, 0, 1, 0, 1, 0, 0], (73, 3));
    changed("a range before a step", 7, [0, 0, 4, 0, 1, 0, 1, 0, 1, 0, 0], (71, 7));
    changed("a range before the start", 0, [0, 0, 0, 0, 0, 0, 0, 0, 0, 0, 1], (71, 0));
    changed("an order before a range", 3, [0, 0, 4, 0, 0, 0, 0, 0, 0, 0, 0], (70, 4));
    changed("the later of two that are swapped", 2, [0, 0, 0, 0, 0, 0, 1, 0, 1, 0, 0], (70, 3));
    for (name, bundle, list, (number, place)) in cases {
        all_answer(&bundle, &ECHO, &list, refused(number, place), name);
    }
}

#[test]
fn words_are_compared_from_the_first_and_as_a_whole() {
    // Boards that never move: any configurations in order are accepted, of which one is the start.
    let (table, bundle) = (still(1), starting(&[0, 0], [4, 2, 2]));
    let start = [0; 8];
    let pairs = [
        ([0, 0, 0, 0, 0, 0, 0, 0], [0, 0, 0, 0, 0, 0, 1, 0], true),
        ([0, 0, 0, 0, 0, 2, 2, 0], [0, 0, 0, 0, 1, 0, 0, 0], true),
        ([0, 0, 1, 0, 0, 0, 0, 0], [0, 0, 0, 2, 2, 2, 2, 0], false),
        ([0, 0, 1, 0, 0, 0, 0, 0], [0, 0, 1, 0, 0, 0, 0, 0], false),
        ([0, 0, 2, 2, 2, 2, 2, 0], [0, 0, 2, 2, 2, 2, 1, 0], false),
    ];
    for (one, other, in_order) in pairs {
        let list = if one == start { vec![one, other] } else { vec![start, one, other] };
        let later = list.len() as u32 - 1;
        let expected = if in_order { accepted(list.len()) } else { refused(70, later) };
        all_answer(&bundle, &table, &list.concat(), expected, &format!("{one:?} before {other:?}"));
    }
    // Over 2^32 a word is still higher, and out of range only after the order.
    let list = [start, [0, 0, 1 << 32, 0, 0, 0, 0, 0], [0, 0, 1, 0, 0, 0, 0, 0]].concat();
    all_answer(&bundle, &table, &list, refused(70, 2), "a high word before a low one");
    let list = [start, [0, 0, 1, 0, 0, 0, 0, 0], [0, 0, 1 << 32, 0, 0, 0, 0, 0]].concat();
    all_answer(&bundle, &table, &list, refused(71, 2), "a high word after a low one");
}

// Each configuration dropped, doubled, swapped with the next, and with each word one higher or lower.
fn damages(all: &[Vec<u64>]) -> Vec<(String, Vec<Vec<u64>>)> {
    let mut damaged = Vec::new();
    for at in 0..all.len() {
        let mut with = |what: &str, damage: &dyn Fn(&mut Vec<Vec<u64>>)| {
            let mut all = all.to_vec();
            damage(&mut all);
            damaged.push((format!("{at} {what}"), all));
        };
        with("dropped", &|all| drop(all.remove(at)));
        with("doubled", &|all| all.insert(at, all[at].clone()));
        if at > 0 {
            with("swapped", &|all| all.swap(at - 1, at));
        }
        for word in 0..all[at].len() {
            with(&format!("with word {word} higher"), &|all| all[at][word] += 1);
            with(&format!("with word {word} lower"), &|all| all[at][word] = all[at][word].wrapping_sub(1));
        }
    }
    damaged
}

#[test]
fn no_damaged_list_is_accepted() {
    let mut numbers = BTreeSet::new();
    for bundle in [&no_bubble().0, &starting(&[0; 6], [7, 1, 1])] {
        for (name, all) in damages(&reached(bundle, &ECHO)) {
            let list = all.concat();
            let expected = Model.check_list(bundle, &ECHO, &list);
            assert_ne!(expected.refusal, 0, "{name}");
            numbers.insert(expected.refusal);
            all_answer(bundle, &ECHO, &list, expected, &name);
        }
    }
    assert_eq!(numbers, BTreeSet::from([70, 71, 72, 73]));
}

// Steps of a schedule without stops that the dice choose among all that are accepted, in the bundle's form.
fn walked(dice: &mut Dice, bundle: &Bundle, length: usize) -> Vec<Step> {
    let mut here = bundle.start();
    let mut steps = Vec::new();
    let sources = bundle.sources() as u8;
    for _ in 0..length {
        let accepted: Vec<Step> = (0..bundle.correct() as u8)
            .flat_map(|board| (0..bundle.table.rules.len() as u8).map(move |rule| (board, rule)))
            .flat_map(|(board, rule)| {
                let heard = (0..bundle.table.types as u8)
                    .flat_map(move |kind| (0..sources).map(move |source| Step { board, rule, kind, source }));
                heard.chain([Step { board, rule, kind: 255, source: 255 }])
            })
            .filter(|&step| Model.check(bundle, &here, step).is_ok())
            .collect();
        if let Some(&step) = accepted.get(dice.below(accepted.len())) {
            bundle.apply(&mut here, step);
            steps.push(step);
        }
    }
    steps
}

// After acceptance: schedules of the seed's bundle that the dice choose, in every form, reach no accepting state; in counting form
// nothing but what is listed. Whether it was accepted.
fn means_what_it_says(seed: u64) -> bool {
    let dice = &mut Dice::new(seed);
    let List { bundle, standing, words, .. } = any(dice);
    if Library.check_list(&bundle, &standing, &words).refusal != 0 {
        return false;
    }
    let whole = read(&bundle, &standing).expect("a bundle");
    let listed: BTreeSet<&[u64]> = words.chunks(Model.wide(&whole)).collect();
    for form in Form::ALL {
        let in_form = Bundle { form, ..whole.clone() };
        let steps = walked(dice, &in_form, 12);
        let bytes = [&bundle[..bundle.len() - 1], &[form.number()]].concat();
        let longer = steps.iter().fold(without_steps(&bytes), |bundle, &step| with(&bundle, step));
        let mut left = [0; MOST_WORDS];
        assert_eq!(Library.run(&longer, &standing, &mut left).refusal, 0, "seed {seed}");
        let accepts = |state: &u64| whole.table.states[*state as usize].accepting;
        assert!(!left[..whole.correct()].iter().any(accepts), "seed {seed}: in {} form", form.name());
        if form == Form::Counting {
            assert!(listed.contains(&left[..Model.wide(&whole)]), "seed {seed}");
            assert_eq!(configuration(&whole, &left[..Model.wide(&whole)]).words(), left[..Model.wide(&whole)]);
        }
    }
    true
}

#[test]
fn an_accepted_list_means_what_it_says() {
    let accepted = each_seed(seeds("LISTS", part_of(10_000)) / 4, means_what_it_says);
    assert!(accepted.iter().filter(|&&accepted| accepted).count() > accepted.len() / 10);
}
