//! Two neighbouring steps exchanged. A trace has its sign where the model accepts both from the configuration before them and they are
//! of different boards; exchanged, these leave every answer of the library as it was. Any others of different boards are refused
//! with 24. Of two stops where one more is allowed, the second is refused with 27 in either order, and has no line. `SWAPS=n` tries more
//! than 6,000.

mod start;

use judge::dice::{each, each_seed, part_of, seeds, Dice};
use judge::makers::bundles;
use judge::model::{read, Bundle, Configuration, Model, Outline};
use judge::{Bench, Library};
use macaroosh::calls::{Answer, First, Step};
use macaroosh::{Form, Refusal, ECHO, MOST_WORDS, STOP};
use start::given;
use std::collections::BTreeMap;
use std::fs;
use std::path::Path;

/// A bundle that is read beside the echo table, and what its accepted steps reach; each of these has a line.
struct Listing {
    bytes: Vec<u8>,
    bundle: Bundle,
    // After so many steps.
    reached: Vec<Configuration>,
}

impl Listing {
    fn of(bytes: Vec<u8>) -> Listing {
        let bundle = read(&bytes, &ECHO).expect("a bundle");
        let mut reached = vec![bundle.start()];
        for &step in &bundle.steps {
            let mut left = reached[reached.len() - 1].clone();
            if Model.check(&bundle, &left, step).is_err() {
                break;
            }
            bundle.apply(&mut left, step);
            reached.push(left);
        }
        Listing { bytes, bundle, reached }
    }

    fn seeded(seed: u64) -> Listing {
        Listing::of(bundles::bundle(&mut Dice::new(seed)))
    }

    // Each line but the first, with the step of the line above it and its own.
    fn pairs(&self) -> impl Iterator<Item = (usize, Step, Step)> + '_ {
        (1..self.reached.len() - 1).map(|line| (line, self.bundle.steps[line - 1], self.bundle.steps[line]))
    }

    // For each line whether it has a sign, by what is said of the pair that it ends; the first ends none.
    fn signs(&self, sign: impl Fn(usize, Step, Step) -> bool) -> Vec<bool> {
        let mut signs = vec![false; self.reached.len() - 1];
        self.pairs().for_each(|(line, first, second)| signs[line] = sign(line, first, second));
        signs
    }

    // Whether a step is accepted after so many steps.
    fn accepts(&self, after: usize, step: Step) -> bool {
        Model.check(&self.bundle, &self.reached[after], step).is_ok()
    }

    // The type that a step sends, if it sends a new one.
    fn sends(&self, step: Step) -> Option<usize> {
        self.bundle.rule(step).and_then(|rule| self.bundle.sends(rule))
    }

    // The bytes with a line and the one above it exchanged.
    fn exchanged(&self, line: usize) -> Vec<u8> {
        let mut bytes = self.bytes.clone();
        let above = bytes.len() - 8 - 4 * (self.bundle.steps.len() + 1 - line);
        bytes[above..above + 8].rotate_left(4);
        bytes
    }
}

// The signs as they should be.
fn right(listing: &Listing) -> Vec<bool> {
    listing.signs(|line, first, second| {
        first.board != second.board && listing.accepts(line - 1, first) && listing.accepts(line - 1, second)
    })
}

// What the calls give: the answer of a run and all words that were lent, enough or none, and the first step.
fn called(bench: &dyn Bench, bytes: &[u8], room: usize) -> (Answer, Vec<u64>, Answer, First) {
    let mut words = vec![u64::MAX; room + 2];
    let answer = bench.run(bytes, &ECHO, &mut words);
    (answer, words, bench.run(bytes, &ECHO, &mut []), bench.first_step(bytes, &ECHO))
}

// What an exchange with the line above comes to: the same calls with a sign, and else 24 there, where the boards are different.
fn by_the_calls(bench: &dyn Bench, listing: &Listing, signs: &[bool]) -> Result<(), String> {
    let room = listing.reached[0].words().len();
    let before = called(bench, &listing.bytes, room);
    for (line, first, second) in listing.pairs() {
        let after = called(bench, &listing.exchanged(line), room);
        let place = line as u32 - 1;
        let refused = (
            Answer { refusal: 24, place, count: place },
            [&listing.reached[line - 1].words()[..], &[u64::MAX; 2]].concat(),
            before.2,
            Err(Refusal { number: 24, place }),
        );
        let expected = match signs[line] {
            true => &before,
            false if first.board != second.board => &refused,
            false => continue,
        };
        if after != *expected {
            return Err(format!("line {line}: {after:?} for {expected:?}"));
        }
    }
    Ok(())
}

// The kinds of its pairs.
fn kinds(listing: &Listing) -> Vec<(Form, &'static str)> {
    let signs = right(listing);
    let kind = |(line, first, second): (usize, Step, Step)| match first.board == second.board {
        true => "of one board",
        false if !signs[line] => "heard",
        false => match (first.rule, second.rule) {
            (STOP, STOP) => "two stops",
            (STOP, _) => "after a stop",
            (_, STOP) => "before a stop",
            _ => "exchanged",
        },
    };
    listing.pairs().map(|pair| (listing.bundle.form, kind(pair))).collect()
}

// That each kind was there so often in each form.
fn all_seen(kinds: Vec<Vec<(Form, &'static str)>>, times: u64) {
    let mut seen = BTreeMap::new();
    kinds.into_iter().flatten().for_each(|kind| *seen.entry(kind).or_insert(0) += 1);
    for form in Form::ALL {
        for kind in ["exchanged", "heard", "of one board"] {
            assert!(seen.get(&(form, kind)) >= Some(&times), "{kind}, {} form: {seen:?}", form.name());
        }
        for kind in ["two stops", "after a stop", "before a stop"] {
            assert!(seen.get(&(form, kind)) >= Some(&(times / 10)), "{kind}, {} form: {seen:?}", form.name());
        }
    }
}

#[test]
fn exchanged_steps_of_two_boards_change_no_answer_or_are_refused_with_24() {
    let all = each_seed(seeds("SWAPS", part_of(6_000)), |seed| {
        let listing = Listing::seeded(seed);
        by_the_calls(&Library, &listing, &right(&listing)).unwrap_or_else(|wrong| panic!("seed {seed}: {wrong}"));
        kinds(&listing)
    });
    all_seen(all, part_of(200));
}

// In the forms of its translations the pairs are others: who sent a message is forgotten, or chosen.
#[test]
fn the_same_in_the_other_forms_of_a_bundle() {
    let all = each_seed(seeds("SWAPS", part_of(6_000)) / 3, |seed| {
        let bytes = bundles::bundle(&mut Dice::new(seed));
        if Model.run_steps(&read(&bytes, &ECHO).expect("a bundle")).1.is_some() {
            return Vec::new();
        }
        let forms = Form::ALL.into_iter().map(|form| Listing::of(bundles::in_form(&Library, &bytes, form)));
        let seen = forms.flat_map(|listing| {
            let wrong = by_the_calls(&Library, &listing, &right(&listing)).err();
            assert_eq!(wrong, None, "seed {seed}, {} form", listing.bundle.form.name());
            kinds(&listing)
        });
        seen.collect()
    });
    all_seen(all, part_of(100));
}

#[test]
fn one_boards_own_steps_exchanged_are_refused_for_other_reasons_too() {
    let mut seen = BTreeMap::new();
    for seed in 1..=part_of(2_000) {
        let listing = Listing::seeded(seed);
        let one_board = listing.pairs().filter(|(_, first, second)| first.board == second.board);
        for (line, _, _) in one_board {
            let answer = Library.run(&listing.exchanged(line), &ECHO, &mut [0; MOST_WORDS]);
            if answer.refusal != 0 && answer.place + 1 == line as u32 {
                *seen.entry(answer.refusal).or_insert(0) += 1;
            }
        }
    }
    assert!(seen.keys().all(|number| [22, 24, 25].contains(number)), "{seen:?}");
    assert!([22, 25].iter().all(|number| seen.get(number) >= Some(&part_of(10))), "{seen:?}");
}

// Both are accepted by themselves, and neither after the other.
#[test]
fn two_stops_where_one_more_is_allowed_are_not_exchanged() {
    let of = |steps: &[Step]| bundles::closed(&[1; 7], steps, 7, [7, 2, 0, 0]);
    let run = |steps: &[Step]| Library.run(&of(steps), &ECHO, &mut [0; MOST_WORDS]);
    let [zero, one, two] = [0, 1, 2].map(Step::stop);
    for last in [one, two] {
        assert_eq!(run(&[zero, last]), Answer { refusal: 0, place: 0, count: 2 });
    }
    for [second, third] in [[one, two], [two, one]] {
        assert_eq!(run(&[zero, second, third]), Answer { refusal: 27, place: 2, count: 2 });
        // The two lines before it may be exchanged, and it has none.
        let shown = shown(&[], &of(&[zero, second, third]));
        assert_eq!(shown, [(0, false), (1, true)]);
        assert_eq!(told(&["trace", "-"], &of(&[zero, second, third])), shown);
    }
}

// ---- the program

// What it answers.
fn output(words: &[&str], input: &[u8]) -> String {
    String::from_utf8(given(words, input).stdout).expect("text")
}

// What a trace for people has: each line's number and whether it has the sign, which is told where some line has it.
fn shown(words: &[&str], bytes: &[u8]) -> Vec<(usize, bool)> {
    let output = output(&[&["trace", "-"], words].concat(), bytes);
    let rows = output.lines().skip_while(|line| !line.starts_with("step ")).skip(1);
    // The number ends where its column's name does.
    let line = |row: &str| (row[..4].trim_start().parse().expect("a number"), row[4..].starts_with(" ^ "));
    let lines: Vec<(usize, bool)> = rows.map(line).collect();
    let means =
        "\n^ this line and the one above it can be exchanged: the configuration after both is the same\n\nstep    ";
    let any = lines.iter().any(|&(_, sign)| sign);
    assert_eq!((output.contains(means), output.contains('^')), (any, any), "{output}");
    lines
}

// The same as JSON has it.
fn told(words: &[&str], bytes: &[u8]) -> Vec<(usize, bool)> {
    let step = |step: &str| {
        let number = step.split(',').next().and_then(|number| number.parse().ok());
        let (_, sign) = step.split_once(",\"swaps_with_previous\":").expect("a sign");
        (number.expect("a number"), sign.starts_with("true}"))
    };
    output(&[words, &["--json"]].concat(), bytes).split("{\"step\":").skip(1).map(step).collect()
}

#[test]
fn a_trace_has_the_signs_of_the_model() {
    let all = each_seed(part_of(400).max(64), |seed| {
        let listing = Listing::seeded(seed);
        let lines: Vec<(usize, bool)> = right(&listing).into_iter().enumerate().collect();
        assert_eq!(shown(&[], &listing.bytes), lines, "seed {seed}");
        assert_eq!(told(&["trace", "-"], &listing.bytes), lines, "seed {seed}");
        kinds(&listing)
    });
    all_seen(all, part_of(10));
}

#[test]
fn in_a_part_of_a_trace_both_lines_must_be_shown() {
    let all = each_seed(part_of(100), |seed| {
        let listing = Listing::seeded(seed);
        let signs = right(&listing);
        let dice = &mut Dice::new(seed);
        let [a, b] = [0; 2].map(|_| dice.below(signs.len() + 1));
        let (from, to) = (a.min(b), a.max(b));
        let of = |line: usize| listing.bundle.steps.get(line).map_or(0, |step| step.board);
        let board = of(a);
        let words = ["--from", &from.to_string(), "--to", &to.to_string(), "--board", &board.to_string()];
        let parts = [&words[..2], &words[2..4], &words[..4], &words[4..], &words[..]].map(|words| {
            let has = |line: &usize| {
                (!words.contains(&"--from") || from <= *line)
                    && (!words.contains(&"--to") || *line <= to)
                    && (!words.contains(&"--board") || of(*line) == board)
            };
            let part: Vec<usize> = (0..signs.len()).filter(has).collect();
            let both = |line: usize| signs[line] && part.contains(&(line - 1));
            let lines: Vec<(usize, bool)> = part.iter().map(|&line| (line, both(line))).collect();
            assert_eq!(shown(words, &listing.bytes), lines, "seed {seed}: {words:?}");
            // For programs it is said of the schedule, whatever is shown.
            let lines: Vec<(usize, bool)> = part.iter().map(|&line| (line, signs[line])).collect();
            assert_eq!(told(&[&["trace", "-"], words].concat(), &listing.bytes), lines, "seed {seed}: {words:?}");
            [part.iter().any(|&line| both(line)), part.iter().any(|&line| signs[line] && !both(line))]
        });
        parts
    });
    // Some of each were shown and left out; the lines of one board have no sign.
    let seen = |part: usize, left_out: usize| all.iter().filter(|parts| parts[part][left_out]).count() as u64;
    assert!((0..3).all(|part| seen(part, 0) >= part_of(10)), "shown");
    assert!([0, 2, 3, 4].into_iter().all(|part| seen(part, 1) >= part_of(10)), "left out");
    assert_eq!((seen(1, 1), seen(3, 0), seen(4, 0)), (0, 0, 0));
}

#[test]
fn the_lines_of_plain_stay_and_found_steps_follow_those_of_the_schedule() {
    let folder = Path::new(env!("CARGO_MANIFEST_DIR")).join("../examples");
    let example = |name: &str| fs::read(folder.join(name)).expect("an example");
    assert!(!output(&["trace", "--plain", "-"], &example("w.bundle")).contains('^'));
    // The first step that is found can be exchanged with the last of the schedule, which is not shown.
    let begun = bundles::with(&example("no-bubble.bundle"), Step::of([0, 0, 0, 1]));
    let table = folder.join("asks-t.table");
    let words = ["search", "-", "--depth", "3", "--standing", table.to_str().expect("a name")];
    assert_eq!(told(&words, &begun), [(1, true), (2, false), (3, false)]);
    assert!(!output(&words, &begun).contains('^'));
}

// ---- what would be wrong

const SEEDS: u64 = 2_000;

// The first seed whose listing shows it, of so many.
fn caught(seeds: u64, wrong: impl Fn(&Listing) -> bool) -> Option<u64> {
    (1..=seeds).find(|&seed| wrong(&Listing::seeded(seed)))
}

type Signs = fn(&Listing) -> Vec<bool>;

// The right ones, but for pairs that lack something more.
fn also(listing: &Listing, asked: impl Fn(Step, Step) -> bool) -> Vec<bool> {
    let signs = right(listing);
    listing.signs(|line, first, second| signs[line] && asked(first, second))
}

// Lines below one of another board that are accepted where the line so far above stands.
fn accepted_from(listing: &Listing, above: usize) -> Vec<bool> {
    listing
        .signs(|line, first, second| first.board != second.board && listing.accepts(line.saturating_sub(above), second))
}

// In every form as the schedule's translation to message form has them.
fn by_senders(listing: &Listing) -> Vec<bool> {
    let steps = listing.bundle.steps[..listing.reached.len() - 1].to_vec();
    let accepted = Bundle { steps, ..listing.bundle.clone() };
    if accepted.form == Form::Message {
        return right(listing);
    }
    let steps = Model.translation(&accepted, Form::Message);
    let before = listing.bytes.len() - 8 - 4 * listing.bundle.steps.len();
    let numbers = [accepted.n, accepted.t, accepted.f, 0].map(|number| number as u8);
    right(&Listing::of(bundles::closed(&listing.bytes[..before], &steps, accepted.correct(), numbers)))
}

// No line belongs to two pairs.
fn one_pair_a_line(listing: &Listing) -> Vec<bool> {
    let mut signs = right(listing);
    for line in 1..signs.len() {
        signs[line] &= !signs[line - 1];
    }
    signs
}

fn on_the_line_above(listing: &Listing) -> Vec<bool> {
    let mut signs = right(listing);
    if !signs.is_empty() {
        signs.rotate_left(1);
    }
    signs
}

#[test]
fn every_broken_sign_is_caught() {
    let broken: [(&str, Signs); 15] = [
        ("also two lines of one board", |l| l.signs(|line, _, second| l.accepts(line - 1, second))),
        ("also where the other is heard", |l| l.signs(|_, first, second| first.board != second.board)),
        ("the configuration after the first step", |l| accepted_from(l, 0)),
        ("the configuration a step too early", |l| accepted_from(l, 2)),
        ("the line above has the sign", on_the_line_above),
        ("not where something is heard", |l| also(l, |_, second| second.silent())),
        ("not where something is sent", |l| also(l, |first, _| l.sends(first).is_none())),
        ("not where the type that is sent is heard", |l| {
            also(l, |first, second| l.sends(first) != Some(usize::from(second.kind)))
        }),
        ("not where a message is in both", |l| also(l, |first, second| first.silent() || second.silent())),
        ("by senders that a translation chooses", by_senders),
        ("no line in two pairs", one_pair_a_line),
        ("not above a stop", |l| also(l, |_, second| second.rule != STOP)),
        ("not below a stop", |l| also(l, |first, _| first.rule != STOP)),
        ("not where both stop", |l| also(l, |first, second| (first.rule, second.rule) != (STOP, STOP))),
        ("none in a schedule that is refused", |l| also(l, |_, _| l.reached.len() > l.bundle.steps.len())),
    ];
    each(&broken, |&(name, signs)| {
        let by_model = caught(SEEDS, |listing| signs(listing) != right(listing));
        let by_calls = caught(SEEDS, |listing| by_the_calls(&Library, listing, &signs(listing)).is_err());
        println!("{name}: seed {by_model:?}, by the calls {by_calls:?}");
        assert!(by_model.is_some() && by_calls.is_some(), "not caught: {name}");
    });
}

// A board does not step twice in a row.
struct NotAgain;

impl Outline for NotAgain {
    fn first_in(&self, bundle: &Bundle, left: &Configuration) -> Option<Step> {
        let last = bundle.steps.last().map(|step| step.board);
        Model.first_in(bundle, left).filter(|step| Some(step.board) != last)
    }
}

// What is not in transit does not count, and thresholds are looked at before it is refused.
struct ThresholdsFirst;

impl Outline for ThresholdsFirst {
    fn check(&self, bundle: &Bundle, before: &Configuration, step: Step) -> Result<(), u8> {
        match Model.check(bundle, before, step) {
            Err(24) => Model.check(bundle, before, Step { kind: 255, source: 255, ..step }).and(Err(24)),
            checked => checked,
        }
    }
}

// What the last step of a whole schedule changes is lost.
struct LastLost;

impl Outline for LastLost {
    fn run_steps(&self, bundle: &Bundle) -> (Configuration, Option<Refusal>) {
        match Model.run_steps(bundle) {
            (_, None) => {
                let steps = bundle.steps[..bundle.steps.len().saturating_sub(1)].to_vec();
                Model.run_steps(&Bundle { steps, ..bundle.clone() })
            }
            refused => refused,
        }
    }
}

#[test]
fn every_bench_that_minds_the_order_is_caught() {
    let broken: [(&str, &(dyn Bench + Sync)); 3] = [
        ("no board steps twice in a row", &NotAgain),
        ("thresholds before transit", &ThresholdsFirst),
        ("the last step is lost", &LastLost),
    ];
    each(&broken, |&(name, bench)| {
        let seed = caught(SEEDS, |listing| by_the_calls(bench, listing, &right(listing)).is_err());
        println!("{name}: seed {seed:?}");
        assert!(seed.is_some(), "not caught: {name}");
    });
    let sound = caught(part_of(SEEDS), |listing| by_the_calls(&Model, listing, &right(listing)).is_err());
    assert_eq!(sound, None);
}
