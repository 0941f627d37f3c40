//! What the program says of a refusal, of all possible steps, of a part of a trace, and as JSON: each figure is that of the
//! model, which shares no code with what says it.

mod reader;
mod start;

use judge::dice::{part_of, Dice};
use judge::drawings::{Drawing, Text};
use judge::makers::{bundles, sketches};
use judge::model::{read, read_table, Bundle, Configuration, Edition, Messages, Model, Outline};
use macaroosh::calls::Step;
use macaroosh::{Form, Refusal, ECHO, MOST_STEPS};
use reader::Json;
use start::given;
use std::collections::BTreeMap;
use std::fs;
use std::path::{Path, PathBuf};
use std::process::Output;

fn example(name: &str) -> Vec<u8> {
    fs::read(Path::new(env!("CARGO_MANIFEST_DIR")).join("../examples").join(name)).expect("an example")
}

fn text(bytes: &[u8]) -> &str {
    std::str::from_utf8(bytes).expect("text")
}

// What standard output says to an input.
fn output(words: &[&str], input: &[u8]) -> String {
    text(&given(words, input).stdout).to_string()
}

// The lines below a refusal; they are the same for each command that runs the bundle.
fn told(words: &[&str], input: &[u8], refusal: Refusal) -> Vec<String> {
    let got = given(words, input);
    assert_eq!(got.status.code(), Some(1));
    let mut lines = text(&got.stderr).lines().map(str::to_string);
    let first = lines.next().expect("a line");
    assert!(first.starts_with(&format!("refused {}", refusal.number)), "{first}");
    lines.collect()
}

// All numbers of a text, in order.
fn numbers(line: &str) -> Vec<usize> {
    line.split(|c: char| !c.is_ascii_digit()).filter_map(|digits| digits.parse().ok()).collect()
}

// What a threshold comes to as it is written: `n - t`, `-2·n + 3`, `(n + t + 1)/2 rounded up`, `n/2 rounded up`.
fn value(formula: &str, bundle: &Bundle) -> i64 {
    let (sum, e) = match formula.strip_suffix(" rounded up").and_then(|fraction| fraction.split_once('/')) {
        Some((sum, e)) => (sum, e.parse().expect("a divisor")),
        None => (formula, 1),
    };
    let inside = sum.strip_prefix('(').and_then(|sum| sum.strip_suffix(')'));
    let spaced = inside.unwrap_or(sum).replace(" - ", " -").replace(" + ", " ");
    assert_eq!(inside.is_some(), e > 1 && spaced.contains(' '), "{formula}");
    let sum: i64 = spaced.split(' ').map(|term| term_value(term, bundle)).sum();
    (sum + e - 1).div_euclid(e)
}

fn term_value(term: &str, bundle: &Bundle) -> i64 {
    let (sign, size) = term.strip_prefix('-').map_or((1, term), |size| (-1, size));
    let (times, letter) = size.split_once('·').map_or(("1", size), |(times, letter)| (times, letter));
    let factor = match letter {
        "n" => bundle.n as i64,
        "t" => bundle.t as i64,
        digits => digits.parse().expect("a number"),
    };
    sign * times.parse::<i64>().expect("a factor") * factor
}

fn total(messages: &Messages) -> usize {
    match messages {
        Messages::Set(set) => set.len(),
        Messages::Counts(correct, faulty) => correct + faulty,
        Messages::Count(count) => *count,
    }
}

/// A bundle whose last step alone the model refuses.
struct Refused {
    bytes: Vec<u8>,
    bundle: Bundle,
    before: Configuration,
    step: Step,
}

// One that is refused with a number beside the echo table, if dice find one.
fn refused_with(dice: &mut Dice, number: u8) -> Option<Refused> {
    let mut bytes = bundles::bundle(dice);
    let bundle = read(&bytes, &ECHO).expect("a bundle");
    let mut before = match Model.run_steps(&bundle) {
        (left, None) => left,
        _ => return None,
    };
    let step = if number == 24 && dice.once_in(2) {
        heard_to_the_last(dice, &mut bytes, &bundle, &mut before)?
    } else {
        let mut any = (0..3_000).map(|_| any_step(dice, &bundle, number));
        any.find(|&step| Model.check(&bundle, &before, step) == Err(number))?
    };
    let bytes = bundles::with(&bytes, step);
    let bundle = read(&bytes, &ECHO).expect("a bundle");
    Some(Refused { bytes, bundle, before, step })
}

// A board hears a message that it has heard before, so long as that is in transit; then the step in which it is not.
fn heard_to_the_last(dice: &mut Dice, bytes: &mut Vec<u8>, bundle: &Bundle, left: &mut Configuration) -> Option<Step> {
    let receipts: Vec<Step> = bundle.steps.iter().copied().filter(|step| !step.silent()).collect();
    let receipt = *receipts.get(dice.below(receipts.len()))?;
    let by_rule = || (0..bundle.table.rules.len() as u8).map(|rule| Step { rule, ..receipt });
    loop {
        let with = |left: &Configuration, answer| by_rule().find(|&step| Model.check(bundle, left, step) == answer);
        if let Some(step) = with(left, Err(24)) {
            return Some(step);
        }
        let step = with(left, Ok(()))?;
        *bytes = bundles::with(bytes, step);
        bundle.apply(left, step);
    }
}

fn any_step(dice: &mut Dice, bundle: &Bundle, number: u8) -> Step {
    if number < 22 || number == 23 {
        return bundles::wild(dice, bundle);
    }
    if number == 27 || number == 26 && dice.once_in(2) {
        return Step::stop(dice.below(bundle.correct()) as u8);
    }
    let silent = dice.once_in(3);
    let (kind, source) = (dice.below(bundle.table.types) as u8, dice.below(bundle.sources()) as u8);
    Step {
        board: dice.below(bundle.correct()) as u8,
        rule: dice.below(bundle.table.rules.len()) as u8,
        kind: if silent { 255 } else { kind },
        source: if silent { 255 } else { source },
    }
}

#[test]
fn a_refused_step_is_told_with_the_figures_of_the_model() {
    let mut seen = BTreeMap::new();
    for seed in 1..=part_of(2_000).max(310) {
        let dice = &mut Dice::new(seed);
        // Those of 24 are of two kinds, of which one is rare.
        let number = [20, 21, 22, 23, 24, 24, 24, 25, 26, 27][seed as usize % 10];
        if let Some(Refused { bytes, bundle, before, step }) = refused_with(dice, number) {
            let place = bundle.steps.len() as u32 - 1;
            let command = ["run", "trace", "first", "translate"][dice.below(4)];
            let lines = told(&[command, "-"], &bytes, Refusal { number, place });
            let message = match step.silent() {
                true => "no message".to_string(),
                false => format!("type {}, source {}", step.kind, step.source),
            };
            let stop = if step.rule == 254 { " (a stop)" } else { "" };
            assert_eq!(lines[0], format!("that step is board {}, rule {}{stop}, {message}", step.board, step.rule));
            explains(&bundle, &before, step, number, &lines[1..]);
            let again = lines[1].contains(" already, in step");
            *seen.entry((number, again, bundle.form)).or_insert(0) += 1;
        }
    }
    let kinds = (20..=27).map(|number| (number, false)).chain([(24, true)]);
    for (number, again) in kinds {
        for form in Form::ALL {
            let times = seen.get(&(number, again, form));
            assert!(times >= Some(&part_of(5)), "{number}, again {again}, {} form: {seen:?}", form.name());
        }
    }
}

// Whether the lines are what the model has for them.
fn explains(bundle: &Bundle, left: &Configuration, step: Step, number: u8, lines: &[String]) {
    let (p, r, m, q) = (step.board, usize::from(step.rule), usize::from(step.kind), usize::from(step.source));
    let one = |expected: String| assert_eq!(lines, [expected]);
    let (types, rules) = (bundle.table.types, bundle.table.rules.len());
    let counted = |count: usize, thing: &str| format!("{count} {thing}{}", if count == 1 { "" } else { "s" });
    match number {
        20 => one(format!("n - f is {}", bundle.correct())),
        21 => one(format!("the table has {}", counted(rules, "rule"))),
        22 => {
            let (state, from) = (left.states[usize::from(p)], bundle.table.rules[r].from);
            assert_ne!(state, from);
            one(format!("board {p} is in state {state}, rule {r} leaves state {from}"));
        }
        23 if step.rule == 254 => one("a stop has neither type nor source, which are both 255 then".to_string()),
        26 => {
            let stops = |other: &Step| (other.board, other.rule) == (p, 254);
            assert!(left.stopped.contains(&usize::from(p)));
            one(format!("board {p} has lost power in step {}", bundle.steps.iter().position(stops).expect("its stop")));
        }
        27 => {
            let (t, f, stopped) = (bundle.t, bundle.f, left.stopped.len());
            assert_eq!(t, f + stopped);
            let boards = match stopped {
                0 => "no board is".to_string(),
                1 => "1 board is".to_string(),
                _ => format!("{stopped} boards are"),
            };
            one(format!("t = {t}, f = {f}, and {boards} stopped already"));
        }
        23 => {
            let (types, sources) = (counted(types, "type"), counted(bundle.sources(), "source"));
            one(format!("the table has {types}, {} form has {sources}", bundle.form.name()));
        }
        24 => {
            assert_eq!(lines.len(), 1);
            explains_transit(bundle, left, (usize::from(p), m, q), &lines[0]);
        }
        _ => {
            let mut lines = lines.iter();
            for (kind, &coefficients) in bundle.table.rules[r].coefficients.iter().enumerate() {
                let heard_now = !step.silent() && kind == m;
                let has = total(&left.received[usize::from(p)][kind]) + usize::from(heard_now);
                let asked = Model.threshold(bundle, coefficients);
                if (has as i64) < asked {
                    let line = lines.next().expect("a line for each type");
                    let formula = line.split_once(" (").and_then(|(_, rest)| rest.split_once("), board "));
                    let formula = formula.expect("a formula").0;
                    assert_eq!(value(formula, bundle), asked, "{line}");
                    let this = if heard_now { ", this one included" } else { "" };
                    let said =
                        format!("rule {r} asks for {asked} of type {kind} ({formula}), board {p} has {has}{this}");
                    assert_eq!(*line, said);
                }
            }
            assert_eq!(lines.next(), None);
        }
    }
}

// Why a message is not in transit: the model has not seen it sent, or the steps that are named hear it, each of them.
fn explains_transit(bundle: &Bundle, left: &Configuration, (p, m, q): (usize, usize, usize), line: &str) {
    let hears: Vec<usize> = (0..bundle.steps.len() - 1)
        .filter(|&j| {
            let [board, _, kind, source] = bundle.steps[j].record().map(usize::from);
            (board, kind, source) == (p, m, q)
        })
        .collect();
    let steps = line.split_once(" in step").map(|(_, steps)| numbers(steps));
    let faulty = bundle.f;
    match (&left.received[p][m], &left.sent[m]) {
        (Messages::Set(got), Messages::Set(out)) if !got.contains(&q) => {
            assert!(q < bundle.correct() && !out.contains(&q));
            assert_eq!(line, format!("board {q} has not sent type {m} by then"));
        }
        (Messages::Set(_), _) => {
            let whom = if q < bundle.correct() { "board" } else { "faulty" };
            assert!(
                line.starts_with(&format!("board {p} has heard type {m} from {whom} {q} already, in step ")),
                "{line}"
            );
            assert_eq!((steps, hears.len()), (Some(hears), 1));
        }
        (Messages::Counts(0, _), Messages::Counts(0, _)) if q == 0 => {
            assert_eq!(line, format!("no correct board has sent type {m} by then"));
        }
        (Messages::Counts(..), _) if q == 1 && faulty == 0 => assert_eq!(line, "no board is faulty"),
        (Messages::Counts(correct, of_faulty), Messages::Counts(out, _)) => {
            let (count, whose) = match q {
                0 => (*out, "that correct boards have sent by then"),
                _ => (faulty, "that faulty boards can send"),
            };
            assert_eq!(count, [*correct, *of_faulty][q]);
            heard_all(line, count, whose, (p, m));
            assert_eq!((steps, hears.len()), (Some(hears), count));
        }
        (Messages::Count(0), _) => {
            assert_eq!((total(&left.sent[m]), faulty), (0, 0));
            assert_eq!(line, format!("no correct board has sent type {m} by then, and no board is faulty"));
        }
        (Messages::Count(got), Messages::Count(out)) => {
            assert_eq!(*got, out + faulty);
            let whose = format!("that there can be by then ({out} sent, {faulty} from faulty boards)");
            heard_all(line, *got, &whose, (p, m));
            assert_eq!((steps, hears.len()), (Some(hears), *got));
        }
        _ => unreachable!("one form at a time"),
    }
}

fn heard_all(line: &str, count: usize, whose: &str, (p, m): (usize, usize)) {
    let messages = if count == 1 { "one message".to_string() } else { format!("{count} messages") };
    let said = format!("board {p} has heard the {messages} of type {m} {whose} already, in step");
    assert!(line.starts_with(&said), "{line}");
}

#[test]
fn figures_are_told_to_people_alone() {
    let twice = example("w-echo-twice.bundle");
    let told = "\
refused 24 at step 4: the message is not in transit
that step is board 2, rule 5, type 0, source 0
board 2 has heard type 0 from board 0 already, in step 2
";
    assert_eq!(text(&given(&["run", "-"], &twice).stderr), told);
    for words in [["run", "--plain", "-"], ["run", "--json", "-"]] {
        assert_eq!(text(&given(&words, &twice).stderr), "");
    }
    let told = "\
refused 25 at step 0: a threshold is not met
that step is board 0, rule 1, type 0, source 3
rule 1 asks for 2 of type 0 (t + 1), board 0 has 1, this one included
";
    assert_eq!(text(&given(&["run", "-"], &example("one-echo.bundle")).stderr), told);
    let told = "\
refused 25 at step 5: a threshold is not met
that step is board 2, rule 5, type 0, source 2
rule 5 asks for 4 of type 0 ((n + t + 1)/2 rounded up), board 2 has 3, this one included
";
    assert_eq!(text(&given(&["run", "-"], &example("half.bundle")).stderr), told);
    // W's second step again, and its last one without a message.
    let again = |step| bundles::with(&example("w.bundle"), Step::of(step));
    let told = "\
refused 22 at step 5: the rule does not leave the board's state
that step is board 1, rule 3, no message
board 1 is in state 2, rule 3 leaves state 1
";
    assert_eq!(text(&given(&["run", "-"], &again([1, 3, 255, 255])).stderr), told);
    let told = "\
refused 25 at step 5: a threshold is not met
that step is board 1, rule 5, no message
rule 5 asks for 3 of type 0 (n - t), board 1 has 0
";
    assert_eq!(text(&given(&["first", "-"], &again([1, 5, 255, 255])).stderr), told);
}

#[test]
fn distances_are_told_as_they_are_and_as_they_would_have_to_be() {
    let mut w = example("w.bundle");
    w[23] = 24;
    let told = "\
refused 13: the step distance is no multiple of 4 or over 16,384, or the second distance is not that plus n - f
its trailer says that steps begin 24 bytes before it and starts 23
with 3 starts it would have to say 24 and 27 (6 steps) or 20 and 23 (5 steps)
";
    assert_eq!(text(&given(&["run", "-"], &w).stderr), told);
    let mut table = ECHO;
    table[43] = 42;
    let told = "\
refused 3: the table's distances disagree with its counts or its length
its trailer says that states begin 42 bytes before it and rules 35, and 43 are before it
4 states of 2 bytes and 7 rules of 5 make that 43, 35 and 43
";
    assert_eq!(text(&given(&["draw", "-"], &table).stderr), told);
    // Rules of the first edition under the types byte of the second.
    table[43] = 43;
    table[49] = 17;
    let told = "\
refused 3: the table's distances disagree with its counts or its length
its trailer says that states begin 43 bytes before it and rules 35, and 43 are before it
4 states of 2 bytes and 7 rules of 6 make that 50, 42 and 50
";
    assert_eq!(text(&given(&["draw", "-"], &table).stderr), told);
    table[49] = 21;
    let told = "\
refused 2: a count of the table (1 to 16 states, 1 to 64 rules, 1 to 4 types) or k (1 to 8) is out of range
its trailer says 4 states, 7 rules, 5 types (second edition), k = 3
";
    assert_eq!(text(&given(&["draw", "-"], &table).stderr), told);
}

#[test]
fn a_refused_schedule_is_told_with_its_figures() {
    let mut seen = BTreeMap::new();
    for seed in 1..=3_000 {
        let dice = &mut Dice::new(seed);
        let bytes = bundles::bundle(dice);
        let bytes = bundles::damaged(dice, bytes);
        let refusal = match read(&bytes, &ECHO) {
            Err(refusal) if (11..=14).contains(&refusal.number) && seen.get(&refusal.number) < Some(&part_of(40)) => {
                refusal
            }
            _ => continue,
        };
        let (before, trailer) = bytes.split_at(bytes.len() - 8);
        let distances = [0, 2].map(|at| usize::from(trailer[at]) + 256 * usize::from(trailer[at + 1]));
        let [n, t, f, form] = [4, 5, 6, 7].map(|at| usize::from(trailer[at]));
        let lines = told(&["run", "-"], &bytes, refusal);
        match refusal.number {
            11 => assert_eq!(numbers(&lines[0]), [distances[1], before.len()]),
            12 => {
                let front = &before[..before.len() - distances[1]];
                let factor = if front.is_empty() { ECHO[50] } else { front[front.len() - 1] };
                assert_eq!(numbers(&lines[0]), [n, t, f, usize::from(factor), form]);
            }
            13 => {
                assert_eq!(numbers(&lines[0]), distances);
                can_be_distances(&lines[1], distances, n - f);
            }
            _ => {
                let start = before[before.len() - distances[1] + refusal.place as usize];
                assert_eq!(lines, [format!("it starts in state {start}")]);
            }
        }
        assert_eq!(lines.len(), if refusal.number == 13 { 2 } else { 1 });
        *seen.entry(refusal.number).or_insert(0) += 1;
    }
    assert!((11..=14).all(|number| seen.get(&number) >= Some(&part_of(5))), "{seen:?}");
}

// What is said to be asked for is each pair that is allowed and keeps one of the two distances; or there is none.
fn can_be_distances(line: &str, found: [usize; 2], correct: usize) {
    let allowed = |[steps, starts]: [usize; 2]| steps % 4 == 0 && steps <= 16_384 && starts == steps + correct;
    assert!(!allowed(found));
    let by_first = [found[0], found[0] + correct];
    let by_second = [found[1].wrapping_sub(correct), found[1]];
    let pairs = [by_first, by_second].into_iter().filter(|&pair| allowed(pair));
    let said: Vec<usize> = pairs.flat_map(|[first, second]| [first, second, first / 4]).collect();
    assert_eq!(numbers(line), [vec![correct], said].concat(), "{line}");
}

#[test]
fn a_refused_table_is_told_with_its_figures() {
    let mut seen = BTreeMap::new();
    for seed in 1..=2_000 {
        let table = bundles::faulty_table(&mut Dice::new(seed));
        let refusal = match read_table(&table) {
            Err(refusal) if (2..=3).contains(&refusal.number) && seen.get(&refusal.number) < Some(&part_of(40)) => {
                refusal
            }
            _ => continue,
        };
        let (before, trailer) = table.split_at(table.len() - 8);
        let counts = [4, 5, 6, 7].map(|at| usize::from(trailer[at]));
        let (edition, types) = Edition::of(counts[2]);
        let lines = told(&["draw", "-"], &table, refusal);
        if refusal.number == 2 {
            let said = [counts[0], counts[1], types, counts[3]];
            assert_eq!((lines.len(), &numbers(&lines[0])[..]), (1, &said[..]));
            assert_eq!(lines[0].contains(" (second edition), k = "), edition == Edition::Second, "{}", lines[0]);
        } else {
            let distances = [0, 2].map(|at| usize::from(trailer[at]) + 256 * usize::from(trailer[at + 1]));
            assert_eq!(numbers(&lines[0]), [distances[0], distances[1], before.len()]);
            // With what is asked for, it is not refused for its distances.
            let asked = numbers(&lines[1]);
            let long = Model.rule_size(edition, types);
            assert_eq!(asked[..4], [counts[0], 2, counts[1], long], "{}", lines[1]);
            assert_eq!(lines.len(), 2);
            let mut mended = before.to_vec();
            mended.resize(asked[6], 0);
            mended.extend(bundles::little_endian(asked[4]));
            mended.extend(bundles::little_endian(asked[5]));
            mended.extend(&trailer[4..]);
            assert_ne!(read_table(&mended).err().map(|refusal| refusal.number), Some(3), "{}", lines[1]);
        }
        *seen.entry(refusal.number).or_insert(0) += 1;
    }
    assert!((2..=3).all(|number| seen.get(&number) >= Some(&part_of(20))), "{seen:?}");
}

// An empty folder for a test.
fn room(name: &str) -> PathBuf {
    let room = Path::new(env!("CARGO_TARGET_TMPDIR")).join(name);
    let _ = fs::remove_dir_all(&room);
    fs::create_dir_all(&room).expect("a folder");
    room
}

#[test]
fn which_table_is_refused_is_said() {
    let path = room("which-table").join("standing");
    let mut seen = [0, 0];
    for seed in 1..=part_of(600) {
        let (bundle, standing) = bundles::case(&mut Dice::new(seed));
        let refusal = match read(&bundle, &standing) {
            Err(refusal) if refusal.number <= 9 => refusal,
            _ => continue,
        };
        fs::write(&path, &standing).expect("a file");
        let lines = told(&["run", "-", "--standing", path.to_str().expect("a name")], &bundle, refusal);
        let trailer = &bundle[bundle.len() - 8..];
        let front = bundle.len() - 8 - usize::from(trailer[2]) - 256 * usize::from(trailer[3]);
        if lines[0].starts_with("this is ") {
            assert!(read_table(&bundle).is_ok() || Model.table(&bundle).is_ok());
        } else if front == 0 {
            assert_eq!(read_table(&standing).err(), Some(refusal));
            assert_eq!(lines[0], "that is the standing table, since the bundle has none of its own");
            seen[0] += 1;
        } else {
            assert_eq!(read_table(&bundle[..front]).err(), Some(refusal));
            let bytes = if front == 1 { "byte" } else { "bytes" };
            assert_eq!(lines[0], format!("that is the bundle's own table, its first {front} {bytes}"));
            seen[1] += 1;
        }
    }
    assert!(seen.iter().all(|&times| times >= part_of(20)), "{seen:?}");
    // A bundle in place of the standing table.
    fs::write(&path, example("ready.bundle")).expect("a file");
    let got = given(&["run", "-", "--standing", path.to_str().expect("a name")], &example("w.bundle"));
    let told = "\
refused 3: the table's distances disagree with its counts or its length
that is the standing table, since the bundle has none of its own
its file is a bundle; draw --of draws the table of one
";
    assert_eq!((got.status.code(), text(&got.stderr)), (Some(1), told));
}

// The last line of what is told of a refused input.
fn last_line(words: &[&str], input: &[u8]) -> String {
    let got = given(words, input);
    assert_eq!(got.status.code(), Some(1), "{words:?}");
    text(&got.stderr).lines().last().expect("a line").to_string()
}

#[test]
fn a_table_is_no_bundle_and_a_bundle_no_table_and_that_is_said() {
    for seed in 1..=part_of(60) {
        let dice = &mut Dice::new(seed);
        let (table, bundle) = (bundles::table(dice), bundles::bundle(dice));
        let drawing = Model.text(&Drawing::of(&read_table(&table).expect("a table"))).into_bytes();
        for command in ["run", "trace", "first", "translate"] {
            let said = "this is a table; a bundle is a table and then a schedule; see draw";
            assert_eq!(last_line(&[command, "-"], &table), said, "seed {seed}");
            assert_eq!(last_line(&[command, "-"], &drawing), "this is a drawing; see undraw", "seed {seed}");
        }
        assert_eq!(last_line(&["draw", "--of", "-"], &table).split(';').next(), Some("this is a table"), "seed {seed}");
        assert_eq!(last_line(&["draw", "-"], &drawing), "this is a drawing; see undraw", "seed {seed}");
        assert_eq!(last_line(&["undraw", "-"], &table), "this is a table; see draw", "seed {seed}");
        let starts = usize::from(bundle[bundle.len() - 6]) + 256 * usize::from(bundle[bundle.len() - 5]);
        let said = match bundle.len() - 8 - starts {
            0 => "this is a bundle, and without a table of its own",
            _ => "this is a bundle; draw --of draws the table of one",
        };
        assert_eq!(last_line(&["draw", "-"], &bundle), said, "seed {seed}");
        assert_eq!(last_line(&["undraw", "-"], &bundle), "this is a bundle; see run", "seed {seed}");
    }
    assert_eq!(text(&given(&["run", "--plain", "-"], &ECHO).stdout), "result 2 0 0\n");
}

#[test]
fn what_is_nothing_else_is_not_said_to_be() {
    for seed in 1..=part_of(200) {
        let dice = &mut Dice::new(seed);
        let inputs = [("run", bundles::any(dice)), ("draw", sketches::table(dice)), ("undraw", sketches::text(dice))];
        for (command, input) in inputs {
            let is = [read(&input, &ECHO).is_ok(), read_table(&input).is_ok(), Model.table(&input).is_ok()];
            let wanted = ["run", "draw", "undraw"].iter().position(|&word| word == command).expect("a command");
            let other = (0..3).any(|kind| kind != wanted && is[kind]);
            let said = text(&given(&[command, "-"], &input).stderr).contains("\nthis is ");
            assert_eq!(said, other && !is[wanted], "seed {seed}: {command}");
        }
    }
}

#[test]
fn the_table_of_a_bundle_is_drawn() {
    let mut with_table = 0;
    for seed in 1..=part_of(60) {
        let bundle = bundles::bundle(&mut Dice::new(seed));
        let starts = usize::from(bundle[bundle.len() - 6]) + 256 * usize::from(bundle[bundle.len() - 5]);
        let front = &bundle[..bundle.len() - 8 - starts];
        let got = given(&["draw", "--of", "-"], &bundle);
        if front.is_empty() {
            let told = "macaroosh: this bundle has no table of its own; it is read beside a standing table\n";
            assert_eq!((got.status.code(), &got.stdout[..], text(&got.stderr)), (Some(2), &[][..], told));
        } else {
            let drawing = Model.text(&Drawing::of(&read_table(front).expect("a table")));
            assert_eq!((got.status.code(), text(&got.stdout)), (Some(0), &drawing[..]), "seed {seed}");
            with_table += 1;
        }
    }
    assert!((part_of(10)..part_of(60)).contains(&with_table), "{with_table}");
    // What is not a bundle by its trailer, and a front that is no table.
    let got = given(&["draw", "--of", "-"], b"short");
    assert_eq!((got.status.code(), text(&got.stderr)), (Some(1), "refused 10: the bundle is under 8 bytes\n"));
    let got = given(&["draw", "--of", "--plain", "-"], b"\0\0\x09\0\x04\0\0\0");
    assert_eq!((got.status.code(), text(&got.stderr)), (Some(1), "result 11 0 0\n"));
    let broken = [&[7], &example("w.bundle")[..]].concat();
    let told = "refused 1: the table part is under 8 bytes\nthat is the bundle's own table, its first 1 byte\n";
    let got = given(&["draw", "--of", "-"], &broken);
    assert_eq!((got.status.code(), text(&got.stderr)), (Some(1), told));
}

// Every possible step by the model, in the order of the first-step question.
fn possible(bundle: &Bundle, left: &Configuration) -> Vec<Step> {
    let mut steps = Vec::new();
    for board in 0..bundle.correct() as u8 {
        for rule in 0..bundle.table.rules.len() as u8 {
            let none = [[board, rule, 255, 255]].into_iter();
            let messages = (0..bundle.table.types as u8)
                .flat_map(|kind| (0..bundle.sources() as u8).map(move |source| [board, rule, kind, source]));
            steps.extend(none.chain(messages).map(Step::of).filter(|&step| Model.possible(bundle, left, step)));
        }
    }
    steps
}

fn step_lines(steps: &[Step]) -> String {
    let lines = steps.iter().map(|step| {
        let [board, rule, kind, source] = step.record();
        format!("step {board} {rule} {kind} {source}\n")
    });
    lines.collect()
}

#[test]
fn all_possible_steps_are_those_of_the_model_and_begin_with_the_first() {
    let mut seen = BTreeMap::new();
    for seed in 1..=part_of(400).max(120) {
        let bytes = bundles::bundle(&mut Dice::new(seed));
        let bundle = read(&bytes, &ECHO).expect("a bundle");
        let all = output(&["first", "--all", "--plain", "-"], &bytes);
        let first = output(&["first", "--plain", "-"], &bytes);
        match Model.run_steps(&bundle) {
            (_, Some(_)) => assert_eq!(all, first, "seed {seed}"),
            (left, None) => {
                let steps = possible(&bundle, &left);
                let lines = if steps.is_empty() { "none\n".to_string() } else { step_lines(&steps) };
                assert_eq!(all, format!("result 0 0\n{lines}"), "seed {seed}");
                assert!(all.starts_with(&first), "seed {seed}");
                *seen.entry((bundle.form, steps.len().min(2))).or_insert(0) += 1;
            }
        }
    }
    for form in Form::ALL {
        assert!(seen.get(&(form, 0)) >= Some(&part_of(2)) && seen.get(&(form, 2)) >= Some(&part_of(5)), "{seen:?}");
    }
}

#[test]
fn all_possible_steps_for_people() {
    let shown = "\
counting form, n = 4, t = 1, f = 1: boards 0 to 2 are correct, 3 is faulty
after 5 steps: 5 possible steps, waits aside

board  rule  from -> to           receives                     as bytes
    0     4     2 -> 2            type 0 from a correct board  00 04 00 00
    0     4     2 -> 2            type 0 from a faulty board   00 04 00 01
    1     4     2 -> 2            type 0 from a correct board  01 04 00 00
    1     4     2 -> 2            type 0 from a faulty board   01 04 00 01
    2     6     3 -> 3 accepting  type 0 from a correct board  02 06 00 00
";
    assert_eq!(output(&["first", "--all", "-"], &example("w-counting.bundle")), shown);
    let quiet = "after 16 steps the run is quiet: no board can do anything but wait\n";
    assert_eq!(output(&["first", "--all", "-"], &example("quiet.bundle")), quiet);
    let got = given(&["first", "--all", "-"], &example("w-echo-twice.bundle"));
    assert_eq!((got.status.code(), text(&got.stdout)), (Some(1), ""));
    assert!(text(&got.stderr).starts_with("refused 24 at step 4: "));
}

// Board 0 sends its echo and waits: so many steps in all.
fn waiting(steps: usize) -> Vec<u8> {
    let all: Vec<Step> = std::iter::once([0, 3, 255, 255])
        .chain(std::iter::repeat([0, 4, 255, 255]))
        .map(Step::of)
        .take(steps)
        .collect();
    bundles::closed(&[1], &all, 1, [1, 0, 0, 0])
}

#[test]
fn of_the_longest_schedule_only_the_first_step_is_known() {
    let most = waiting(MOST_STEPS);
    let got = given(&["first", "--all", "-"], &most);
    let told = "macaroosh: --all runs each step as one more, and this schedule has 4096, the most that there can be; first without --all names the first\n";
    assert_eq!((got.status.code(), text(&got.stdout), text(&got.stderr)), (Some(2), "", told));
    assert_eq!(output(&["first", "--plain", "-"], &most), "result 0 0\nstep 0 4 0 0\n");
    let all = output(&["first", "--all", "--plain", "-"], &waiting(MOST_STEPS - 1));
    assert_eq!(all, "result 0 0\nstep 0 4 0 0\nstep 0 5 0 0\n");
}

// The lines of a trace for programs: the result and the start, then three for each step.
fn plain_trace(bytes: &[u8]) -> (String, Vec<String>) {
    let all = output(&["trace", "--plain", "-"], bytes);
    let lines: Vec<&str> = all.split_inclusive('\n').collect();
    let (head, steps) = lines.split_at(lines.len().min(2));
    (head.concat(), steps.chunks(4).map(|step| step.concat()).collect())
}

#[test]
fn a_part_of_a_trace_has_the_same_lines() {
    let mut shown = 0;
    for seed in 1..=part_of(100) {
        let dice = &mut Dice::new(seed);
        let bytes = bundles::bundle(dice);
        let (head, steps) = plain_trace(&bytes);
        let [a, b, p] = [dice.below(steps.len() + 1), dice.below(steps.len() + 1), dice.below(4)];
        let (from, to) = (a.min(b), a.max(b));
        let [from_word, to_word, board_word] = [from, to, p].map(|number| number.to_string());
        let of_board = |step: &String| numbers(step)[1] == p;
        for (with_board, with_from, with_to) in
            [(true, false, false), (false, true, false), (false, false, true), (true, true, true)]
        {
            let mut words = vec!["trace", "--plain", "-"];
            words.extend([["--board", &board_word]].into_iter().filter(|_| with_board).flatten());
            words.extend([["--from", &from_word]].into_iter().filter(|_| with_from).flatten());
            words.extend([["--to", &to_word]].into_iter().filter(|_| with_to).flatten());
            let chosen: Vec<String> = steps
                .iter()
                .enumerate()
                .filter(|(i, step)| {
                    (!with_from || from <= *i) && (!with_to || *i <= to) && (!with_board || of_board(step))
                })
                .map(|(_, step)| step.clone())
                .collect();
            shown += chosen.len();
            assert_eq!(output(&words, &bytes), head.clone() + &chosen.concat(), "seed {seed}: {words:?}");
        }
    }
    assert!(shown as u64 > part_of(1_000), "{shown}");
}

#[test]
fn a_part_of_a_trace_for_people() {
    let shown = "\
message form, n = 4, t = 1, f = 1: boards 0 to 2 are correct, 3 is faulty
boards start in states 1 1 1
only steps of board 2, from step 3, to step 9
after each step: what its board has (from correct + faulty boards), and what was sent

step  board  rule  from -> to           receives              sends  has type 0  sent type 0
   3      2     4     2 -> 2            type 0 from faulty 3                1+1            3
   4      2     5     2 -> 3 accepting  type 0 from board 1                 2+1            3
";
    let w = example("w.bundle");
    assert_eq!(output(&["trace", "-", "--board", "2", "--from", "3", "--to", "9"], &w), shown);
    let none = "boards start in states 1 1 1\nonly steps of board 3: there are none\n";
    assert!(output(&["trace", "-", "--board", "3"], &w).ends_with(none));
}

// A JSON answer in the words of `--plain`.
type AsPlain = fn(&Json) -> String;

fn as_run(json: &Json) -> String {
    let mut lines = format!("result{}\n", json.named(&["refusal", "place", "accepted"]));
    if json.has("states") {
        let boards = json.get("states").list().iter().zip(json.get("received").list()).enumerate();
        lines.extend(boards.map(|(p, (state, received))| format!("p {p}{}{}\n", state.flat(), received.flat())));
        lines += &format!("sent{}\nstopped {}\n", json.get("sent").flat(), stopped(json));
    }
    lines
}

fn as_run_with_receipts(json: &Json) -> String {
    as_run(json) + &format!("receipts{}\n", json.named(&["receipts", "sends"]))
}

// The word of the boards that are stopped.
fn stopped(json: &Json) -> u64 {
    let boards = json.get("stopped").flat();
    boards.split_whitespace().map(|board| 1 << board.parse::<u64>().expect("a board")).sum()
}

fn as_trace(json: &Json) -> String {
    let mut lines = format!("result{}\n", json.named(&["refusal", "place", "accepted"]));
    if json.has("steps") {
        lines += &format!("start{}\n", json.get("starts").flat());
        for step in json.get("steps").list() {
            let record = step.named(&["step", "board", "rule", "type", "source", "translated"]);
            let after = step.named(&["board", "state", "received"]);
            lines += &format!("step{record}\np{after}\nsent{}\nstopped {}\n", step.get("sent").flat(), stopped(step));
        }
    }
    lines
}

fn as_first(json: &Json) -> String {
    let steps = if json.has("steps") { json.get("steps").list() } else { std::slice::from_ref(json.get("step")) };
    let named = |step: &Json| format!("step{}\n", step.named(&["board", "rule", "type", "source"]));
    let lines: String = steps.iter().filter(|step| **step != Json::Null).map(named).collect();
    let lines = if lines.is_empty() { "none\n" } else { &lines };
    format!("result{}\n{lines}", json.named(&["refusal", "place"]))
}

#[test]
fn json_has_the_numbers_of_plain() {
    let mut refused = BTreeMap::new();
    for seed in 1..=part_of(150) {
        let bytes = bundles::any(&mut Dice::new(seed));
        let commands: [(&[&str], AsPlain); 6] = [
            (&["run"], as_run),
            (&["run", "--receipts"], as_run_with_receipts),
            (&["trace"], as_trace),
            (&["trace", "--from", "1", "--board", "0"], as_trace),
            (&["first"], as_first),
            (&["first", "--all"], as_first),
        ];
        for (words, as_plain) in commands {
            let [json, plain] = ["--json", "--plain"].map(|style| given(&[words, &[style, "-"]].concat(), &bytes));
            assert_eq!((json.status.code(), text(&json.stderr)), (plain.status.code(), ""), "seed {seed}: {words:?}");
            let read = Json::read(text(&json.stdout));
            assert_eq!(as_plain(&read), text(&plain.stdout), "seed {seed}: {words:?}");
            says_why(&read, &given(&[words, &["-"]].concat(), &bytes));
        }
        let json = Json::read(&output(&["run", "--json", "-"], &bytes));
        *refused.entry(json.number("refusal")).or_insert(0) += 1;
        if let Ok(bundle) = read(&bytes, &ECHO) {
            has_the_setting(&json, &bundle);
        }
    }
    assert!(refused.len() >= 8, "{refused:?}");
}

// The reason and its lines are those that people are told; without a refusal there are none.
fn says_why(json: &Json, for_people: &Output) {
    let refused = json.number("refusal") != 0;
    assert_eq!((json.has("reason"), json.has("why")), (refused, refused));
    if refused {
        let line = |json: &Json| match json {
            Json::Text(text) => text.clone(),
            _ => panic!("no text: {json:?}"),
        };
        let mut said = text(&for_people.stderr).lines();
        let first = said.next().expect("a line");
        assert_eq!(first.split_once(": ").map(|(_, reason)| reason.to_string()), Some(line(json.get("reason"))));
        assert_eq!(said.collect::<Vec<_>>(), json.get("why").list().iter().map(line).collect::<Vec<_>>());
    }
}

// Form, n, t, f, and in message form the sets of the model.
fn has_the_setting(json: &Json, bundle: &Bundle) {
    assert_eq!(*json.get("form"), Json::Text(bundle.form.name().to_string()));
    assert_eq!(["n", "t", "f"].map(|name| json.number(name) as usize), [bundle.n, bundle.t, bundle.f]);
    assert_eq!(json.has("received_from"), bundle.form == Form::Message);
    if bundle.form == Form::Message {
        let set = |messages: &Messages| match messages {
            Messages::Set(set) => Json::List(set.iter().map(|&q| Json::Number(q as u64)).collect()),
            _ => panic!("no set"),
        };
        let (left, _) = Model.run_steps(bundle);
        let received = left.received.iter().map(|types| Json::List(types.iter().map(set).collect())).collect();
        assert_eq!(*json.get("received_from"), Json::List(received));
        assert_eq!(*json.get("sent_by"), Json::List(left.sent.iter().map(set).collect()));
    }
}

#[test]
fn json_by_example() {
    let w = example("w.bundle");
    let run =
        "{\"refusal\":0,\"place\":0,\"accepted\":5,\"receipts\":3,\"sends\":3,\"form\":\"message\",\"n\":4,\"t\":1,\"f\":1,\
               \"states\":[2,2,3],\"received\":[[[0,0]],[[0,0]],[[2,1]]],\"sent\":[3],\"stopped\":[],\
               \"received_from\":[[[]],[[]],[[0,1,3]]],\"sent_by\":[[0,1,2]]}\n";
    assert_eq!(output(&["run", "--json", "-"], &w), run);
    let first = "{\"refusal\":0,\"place\":0,\"form\":\"message\",\"n\":4,\"t\":1,\"f\":1,\
                 \"step\":{\"board\":0,\"rule\":4,\"type\":0,\"source\":0}}\n";
    assert_eq!(output(&["first", "--json", "-"], &w), first);
    let refused = "{\"refusal\":10,\"place\":0,\"reason\":\"the bundle is under 8 bytes\",\"why\":[],\"accepted\":0,\
                   \"receipts\":0,\"sends\":0}\n";
    assert_eq!(output(&["run", "--json", "-"], b""), refused);
}

#[test]
fn wrong_words_are_told() {
    let mistakes: [(&[&str], &str); 14] = [
        (&["run", "x", "--json", "--plain"], "--plain and --json are two ways to give one answer; choose one"),
        (&["translate", "x", "--json"], "--json is for run, trace, first, replay, search and check alone"),
        (&["draw", "x", "--json"], "--json is for run, trace, first, replay, search and check alone"),
        (&["run", "x", "--all"], "--all is for first alone"),
        (&["undraw", "x", "--of"], "--of is for draw and check alone"),
        (&["draw", "--of", "x", "--standing", "y"], "--of draws a bundle's own table"),
        (&["run", "x", "--board", "1"], "--board and --from are for trace alone"),
        (&["first", "x", "--from", "1"], "--board and --from are for trace alone"),
        (&["run", "x", "--to", "1"], "--to is for translate, trace and edition alone"),
        (&["trace", "x", "--to", "plain"], "'plain' is no number of a board or a step"),
        (&["trace", "x", "--board=-1"], "'-1' is no number of a board or a step"),
        (&["trace", "x", "--from", "+1"], "'+1' is no number of a board or a step"),
        (&["trace", "x", "--from", "3", "--to", "2"], "--from 3 is after --to 2"),
        (&["trace", "x", "--board"], "--board needs a number after it"),
    ];
    for (words, told) in mistakes {
        let got = given(words, b"");
        assert_eq!((got.status.code(), text(&got.stdout)), (Some(2), ""), "{words:?}");
        assert!(text(&got.stderr).contains(told), "{}", text(&got.stderr));
    }
}
