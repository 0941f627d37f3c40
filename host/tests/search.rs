//! Searches: the library and the hand-written fast version against the model on seeded bundles, every lent byte and the number tried;
//! every budget; the order of refusals; and what an outcome says of schedules. `SEARCHES=n` tries more than 10,000.

use judge::compare::compare_search;
use judge::dice::{each_seed, part_of, seeds, Dice};
use judge::fast::Fast;
use judge::makers::bundles::{closed, with};
use judge::makers::cases::{searches, SearchCase};
use judge::makers::searches::{any, kinds, Search};
use judge::model::{read, Bundle, Model, Outline};
use judge::{Bench, Library, Limits, Searches};
use macaroosh::calls::{Answer, Step, NONE, SPENT};
use macaroosh::terms::refusals;
use macaroosh::{Form, ECHO, MOST_STEPS, MOST_WORDS};
use std::collections::{BTreeMap, BTreeSet};

const SEARCHERS: [(&str, &dyn Searches); 3] = [("model", &Model), ("library", &Library), ("fast", &Fast)];

// The kind of the seed's search, and the refusals and outcomes that came up on it.
fn agrees(searcher: &dyn Searches, seed: u64) -> (&'static str, Vec<(u8, u32)>) {
    let dice = &mut Dice::new(seed);
    let search = any(dice);
    let seen = compare_search(&Model, searcher, &search, dice)
        .unwrap_or_else(|difference| panic!("seed {seed}: {difference}\n{search:02x?}"));
    (search.kind, seen)
}

// Agrees with the model on every seed, and the seeds come to every kind, refusal and outcome.
fn agrees_on_seeds(searcher: &(dyn Searches + Sync)) {
    // Where it is emulated, as many as show every refusal.
    let seeds = seeds("SEARCHES", part_of(part_of(10_000)).max(600));
    let mut made: BTreeMap<&str, usize> = BTreeMap::new();
    let (mut refused, mut outcomes): (BTreeMap<u8, usize>, BTreeMap<u32, usize>) = Default::default();
    for (kind, seen) in each_seed(seeds, |seed| agrees(searcher, seed)) {
        *made.entry(kind).or_default() += 1;
        for (refusal, outcome) in seen {
            *refused.entry(refusal).or_default() += 1;
            if refusal == 0 {
                *outcomes.entry(outcome).or_default() += 1;
            }
        }
    }
    println!("{seeds} searches: {made:?}; calls by refusal: {refused:?}; by outcome: {outcomes:?}");
    assert_eq!(made.into_keys().collect::<BTreeSet<_>>(), kinds().collect());
    // 31 is of translations, 32 and 33 are of editions, 40 is the report program's own, and those from 50 on are of logs and drawings.
    let of_searches = |number: &u8| *number < 40 && !(31..=33).contains(number);
    let all = refusals::ALL.iter().map(|line| line.number).filter(of_searches).chain([0]);
    assert_eq!(refused.into_keys().collect::<BTreeSet<_>>(), all.collect());
    assert_eq!(outcomes.into_keys().collect::<Vec<_>>(), (0..=8).chain([NONE, SPENT]).collect::<Vec<_>>());
}

#[test]
fn the_library_agrees_with_the_model() {
    agrees_on_seeds(&Library);
}

#[test]
fn the_fast_version_agrees_with_the_model() {
    agrees_on_seeds(&Fast);
}

// What a search answers, with the number tried and the steps found; no other lent byte changes.
#[track_caller]
fn found(who: &dyn Searches, bundle: &[u8], standing: &[u8], depth: u64, budget: u64) -> (Answer, u64, Vec<Step>) {
    let (mut out, mut tried) = ([0xAA; 40], 99);
    let answer = who.search(bundle, standing, Limits { depth, budget }, &mut out, &mut tried);
    let steps = if answer.refusal == 0 && answer.count <= 8 { answer.count as usize } else { 0 };
    let (records, past) = out.split_at(4 * steps);
    assert!(past.iter().all(|&byte| byte == 0xAA), "{steps} steps found: {out:02x?}");
    (answer, tried, records.chunks(4).map(|s| Step::of([s[0], s[1], s[2], s[3]])).collect())
}

fn answered(outcome: u32) -> Answer {
    Answer { refusal: 0, place: 0, count: outcome }
}

// Boards of the echo table in those states, without steps, of n, t and f, in counting form.
fn starting(starts: &[u8], [n, t, f]: [u8; 3]) -> Vec<u8> {
    closed(starts, &[], starts.len(), [n, t, f, 1])
}

#[test]
fn every_budget_cuts_the_same_walk() {
    // The bundle, the depth, the outcome, and how many are tried.
    let cases = [
        (starting(&[1, 1, 1], [4, 1, 1]), 4, 4, 1_505),
        (starting(&[1, 1, 1], [4, 1, 1]), 5, 5, 76),
        (starting(&[1], [1, 0, 0]), 2, 2, 24),
        (starting(&[0, 0, 0], [4, 1, 1]), 3, NONE, 540),
        (starting(&[0, 0, 0], [4, 1, 1]), 0, NONE, 0),
    ];
    for (who, searcher) in SEARCHERS {
        for (bundle, depth, outcome, all) in &cases {
            let (_, _, steps) = found(searcher, bundle, &ECHO, *depth, u64::MAX);
            for budget in (0..=all + 2).chain([1 << 32, 1 << 63, u64::MAX]) {
                let expected = if budget < *all {
                    (answered(SPENT), budget, Vec::new())
                } else {
                    (answered(*outcome), *all, steps.clone())
                };
                let got = found(searcher, bundle, &ECHO, *depth, budget);
                assert_eq!(got, expected, "{who}: depth {depth}, budget {budget}");
            }
        }
    }
}

#[test]
fn all_agree_on_what_is_measured() {
    for SearchCase { name, bundle, depth } in searches() {
        let model = found(&Model, &bundle, &ECHO, depth, u64::MAX);
        assert_eq!(model.0, answered(NONE), "{name}");
        for (who, searcher) in &SEARCHERS[1..] {
            assert_eq!(found(*searcher, &bundle, &ECHO, depth, u64::MAX), model, "{who}: {name}");
        }
    }
}

#[test]
fn an_accepting_end_needs_no_step() {
    let w = include_bytes!("../../examples/w-counting.bundle");
    for (who, searcher) in SEARCHERS {
        for depth in 0..=8 {
            for budget in [0, 1, u64::MAX] {
                let got = found(searcher, w, &ECHO, depth, budget);
                assert_eq!(got, (answered(0), 0, Vec::new()), "{who}: depth {depth}, budget {budget}");
            }
        }
    }
}

#[test]
fn refusals_have_their_order() {
    let sound = starting(&[1, 1, 1], [4, 1, 1]);
    let w = include_bytes!("../../examples/w-counting.bundle").to_vec();
    let message = include_bytes!("../../examples/w.bundle").to_vec();
    let plain = include_bytes!("../../examples/w-plain.bundle").to_vec();
    // Its last step is refused, in each form.
    let refused = |bundle: &[u8]| with(bundle, Step { board: 3, rule: 0, kind: 255, source: 255 });
    let start = starting(&[1, 2, 1], [4, 1, 1]);
    let third = [&sound[..sound.len() - 1], &[3]].concat();
    let all = u64::MAX;
    let cases = [
        ("a start before the depth", &start, all, 0, (14, 1)),
        ("the form byte before the depth", &third, 9, 0, (12, 0)),
        ("the depth", &sound, 9, 40, (34, 0)),
        ("the depth by all its bits", &sound, 1 << 32, 40, (34, 0)),
        ("the depth before the form", &message, 9, 0, (34, 0)),
        ("the depth before no room", &sound, 256, 0, (34, 0)),
        ("the depth before a step", &refused(&w), all, 0, (34, 0)),
        ("message form", &message, 8, 40, (35, 0)),
        ("plain form", &plain, 8, 40, (35, 0)),
        ("the form before no room", &message, 8, 0, (35, 0)),
        ("the form before a step", &refused(&message), 8, 40, (35, 0)),
        ("the form where no step is asked for", &message, 0, 0, (35, 0)),
        ("no room", &sound, 8, 31, (30, 0)),
        ("no room for one step", &sound, 1, 3, (30, 0)),
        ("no room, though none is needed", &w, 1, 3, (30, 0)),
        ("no room before a step", &refused(&w), 2, 7, (30, 0)),
        ("a step", &refused(&w), 2, 8, (20, 5)),
        ("a step where none is asked for", &refused(&w), 0, 0, (20, 5)),
    ];
    for (who, searcher) in SEARCHERS {
        for (name, bundle, depth, room, (refusal, place)) in cases {
            for budget in [0, 1, u64::MAX] {
                let (mut out, mut tried) = (vec![0xAA; room], 99);
                let answer = searcher.search(bundle, &ECHO, Limits { depth, budget }, &mut out, &mut tried);
                assert_eq!(answer, Answer { refusal, place, count: 0 }, "{who}: {name}");
                assert_eq!((out, tried), (vec![0xAA; room], 0), "{who}: {name}");
            }
        }
    }
}

#[test]
fn a_search_goes_past_the_most_steps() {
    let sends = (0..3).map(|board| Step { board, rule: 3, kind: 255, source: 255 });
    let waits = (3..MOST_STEPS).map(|i| Step { board: (i % 3) as u8, rule: 4, kind: 255, source: 255 });
    let bundle = closed(&[1, 1, 1], &sends.chain(waits).collect::<Vec<Step>>(), 3, [4, 1, 1, 1]);
    let steps = [[0, 4, 0, 0], [0, 4, 0, 0], [0, 5, 0, 0]].map(Step::of).to_vec();
    for (who, searcher) in SEARCHERS {
        let (answer, _, got) = found(searcher, &bundle, &ECHO, 3, u64::MAX);
        assert_eq!((answer, got), (answered(3), steps.clone()), "{who}");
        assert_eq!(found(searcher, &bundle, &ECHO, 2, u64::MAX).0, answered(NONE), "{who}");
    }
}

// The bundle with steps more.
fn longer(bundle: &[u8], steps: &[Step]) -> Vec<u8> {
    steps.iter().fold(bundle.to_vec(), |bundle, &step| with(&bundle, step))
}

// Whether the library's run of a bundle in counting form ends with an accepting board; it does not refuse it.
fn accepts(bundle: &[u8], standing: &[u8]) -> bool {
    let mut words = [0; MOST_WORDS];
    assert_eq!(Library.run(bundle, standing, &mut words).refusal, 0);
    let read = read(bundle, standing).expect("a bundle");
    words[..read.correct()].iter().any(|&state| read.table.states[state as usize].accepting)
}

// Whether a board can be in an accepting state after at most so many steps, of any kind, in the bundle's own form: by all
// configurations that are reached, without the search's order and without its tries.
fn reaches(bundle: &Bundle, depth: u64) -> bool {
    let accepting = |state: &usize| bundle.table.states[*state].accepting;
    let (end, refusal) = Model.run_steps(bundle);
    assert_eq!(refusal, None);
    let mut reached = vec![end];
    let mut words: BTreeSet<Vec<u64>> = reached.iter().map(|end| end.words()).collect();
    for _ in 0..=depth {
        if reached.iter().any(|here| here.states.iter().any(accepting)) {
            return true;
        }
        let mut next = Vec::new();
        for here in &reached {
            for (board, rule) in (0..bundle.correct()).flat_map(|p| (0..bundle.table.rules.len()).map(move |r| (p, r)))
            {
                let of_type = |kind| (0..bundle.sources()).map(move |source| (kind, source));
                for (kind, source) in (0..bundle.table.types).flat_map(of_type).chain([(255, 255)]) {
                    let step = Step::of([board, rule, kind, source].map(|number| number as u8));
                    if Model.check(bundle, here, step).is_ok() {
                        let mut there = here.clone();
                        bundle.apply(&mut there, step);
                        next.extend(Some(there).filter(|there| words.insert(there.words())));
                    }
                }
            }
        }
        reached = next;
    }
    false
}

// The bundle in a form, with the schedule that the model's translation has.
fn in_form(bundle: &Bundle, form: Form) -> Bundle {
    let steps = if form == bundle.form { bundle.steps.clone() } else { Model.translation(bundle, form) };
    Bundle { form, steps, ..bundle.clone() }
}

// What the library's answer says of a seed's schedules, where it is no refusal: its outcome.
fn means_what_it_says(seed: u64) -> Option<u32> {
    let Search { bundle, standing, depth, .. } = any(&mut Dice::new(seed));
    let (answer, _, steps) = found(&Library, &bundle, &standing, depth, 3_000);
    if answer.refusal != 0 {
        return None;
    }
    match answer.count {
        SPENT => {}
        NONE => {
            let read = read(&bundle, &standing).expect("a bundle");
            // Sets of senders are many more than counts.
            let few = read.correct() <= 2 && depth <= 4;
            for form in Form::ALL.into_iter().filter(|&form| few || form == Form::Counting && read.n <= 5) {
                assert!(!reaches(&in_form(&read, form), depth), "seed {seed}: in {} form", form.name());
            }
        }
        _ => {
            assert!(steps.len() as u64 <= depth, "seed {seed}");
            for length in 0..=steps.len() {
                let there = accepts(&longer(&bundle, &steps[..length]), &standing);
                assert_eq!(there, length == steps.len(), "seed {seed}: after {length} steps");
            }
        }
    }
    Some(answer.count)
}

#[test]
fn an_outcome_means_what_it_says() {
    let outcomes: BTreeSet<u32> =
        each_seed(seeds("SEARCHES", part_of(10_000)), means_what_it_says).into_iter().flatten().collect();
    assert_eq!(outcomes, (0..=8).chain([NONE, SPENT]).collect());
}
