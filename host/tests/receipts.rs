//! Receipts and sends: the library against the model on seeded bundles, every lent word; that neither number exceeds what is known
//! beforehand, and runs that reach it; that a translation has the same; and what the program shows. `RECEIPTS=n` tries more than
//! 20,000 bundles.

mod start;

use judge::compare::compare_receipts;
use judge::dice::{each_seed, part_of, seeds, Dice};
use judge::logs::log_of;
use judge::makers::bundles::{self, case, closed, with, without_steps};
use judge::model::{read, Bundle, Messages, Model, Outline};
use judge::receipts::ReceiptOutline;
use judge::{Bench, Counts, Library};
use macaroosh::calls::{Answer, Receipts, Step};
use macaroosh::{run, Form, ECHO, MOST_RECEIPTS, MOST_STEPS, MOST_WORDS};
use start::given;
use std::collections::{BTreeMap, BTreeSet};
use std::fs;
use std::path::{Path, PathBuf};

// Whoever counts, and answers the other questions.
trait Side: Bench + Counts {}

impl<S: Bench + Counts> Side for S {}

const SIDES: [(&str, &dyn Side); 2] = [("model", &Model), ("library", &Library)];

fn counted(side: &dyn Side, bundle: &[u8], standing: &[u8]) -> Receipts {
    side.receipts(bundle, standing, &mut [0; MOST_WORDS])
}

// Where nothing is refused.
fn of(receipts: usize, sends: usize) -> Receipts {
    Receipts { refusal: 0, place: 0, receipts: receipts as u32, sends: sends as u32 }
}

fn quiet(board: u8, rule: u8) -> Step {
    Step { board, rule, kind: 255, source: 255 }
}

fn heard(board: u8, rule: u8, source: u8) -> Step {
    Step { board, rule, kind: 0, source }
}

fn example(name: &str) -> Vec<u8> {
    fs::read(example_path(name)).expect("an example")
}

fn example_path(name: &str) -> PathBuf {
    Path::new(env!("CARGO_MANIFEST_DIR")).join("../examples").join(name)
}

// What no run of a bundle exceeds: each correct board hears each type of each board once, and sends each type once.
fn most(bundle: &Bundle) -> (usize, usize) {
    let sends = bundle.correct() * bundle.table.types;
    (sends * bundle.n, sends)
}

// What the boards of a bundle have received in all, and what was sent, as its run leaves it.
fn stands_in_what_is_left(bundle: &Bundle) -> (usize, usize) {
    let total = |messages: &Messages| match messages {
        Messages::Set(set) => set.len(),
        Messages::Counts(correct, faulty) => correct + faulty,
        Messages::Count(count) => *count,
    };
    let (left, _) = Model.run_steps(bundle);
    (left.received.iter().flatten().map(total).sum(), left.sent.iter().map(total).sum())
}

// ---- on seeded bundles

// What a seed's bundle comes to: of each length of lent words the answer; and where its steps were looked at its form, and what is
// among the accepted ones.
fn agrees(seed: u64) -> (Vec<Receipts>, Vec<String>) {
    let dice = &mut Dice::new(seed);
    let (bytes, standing) = case(dice);
    let answers = compare_receipts(&Model, &Library, &bytes, &standing, dice).unwrap_or_else(|difference| {
        panic!("seed {seed}: {difference}\nbundle {bytes:02x?}\nstanding {standing:02x?}")
    });
    // Refusal, place and words are those of the run.
    let (mut words, mut of_run) = ([9; MOST_WORDS], [9; MOST_WORDS]);
    let counted = Library.receipts(&bytes, &standing, &mut words);
    let Answer { refusal, place, count } = Library.run(&bytes, &standing, &mut of_run);
    assert_eq!((counted.refusal, counted.place, words), (refusal, place, of_run), "seed {seed}");
    let numbers = (counted.receipts as usize, counted.sends as usize);
    let bundle = match read(&bytes, &standing) {
        Ok(bundle) => bundle,
        Err(_) => {
            assert_eq!(numbers, (0, 0), "seed {seed}");
            return (answers, Vec::new());
        }
    };
    let (most_receipts, most_sends) = most(&bundle);
    assert!(numbers.0 <= most_receipts && numbers.1 <= most_sends, "seed {seed}: {numbers:?}");
    assert_eq!(numbers, stands_in_what_is_left(&bundle), "seed {seed}");
    let kinds = bundle.steps[..count as usize].iter().map(|&step| {
        let waits = bundle.rule(step).map_or(false, |rule| rule.from == rule.to);
        let receives = if Model.receives(&bundle, step) { "receives" } else { "receives nothing" };
        let does = match (step.rule, waits, Model.sends(&bundle, step)) {
            (254, ..) => "stops",
            (_, true, _) => "stays",
            (_, _, true) => "sends",
            (_, _, false) => "moves",
        };
        format!("{} form: {receives}, {does}", bundle.form.name())
    });
    let kinds = kinds.chain((refusal >= 20).then(|| format!("{} form: a step is refused", bundle.form.name())));
    (answers, kinds.collect())
}

#[test]
fn the_library_agrees_with_the_model() {
    let (answers, kinds): (Vec<_>, Vec<_>) = each_seed(seeds("RECEIPTS", part_of(20_000)), agrees).into_iter().unzip();
    let (answers, kinds) = (answers.concat(), kinds.concat());
    let refusals: BTreeSet<u8> = answers.iter().map(|answer| answer.refusal).collect();
    let expected: BTreeSet<u8> = (0..=14).chain(20..=27).chain([30]).collect();
    assert_eq!(refusals, expected);
    // Of steps that are refused, after receipts and sends; and of no other refusal are there any.
    let some = |answer: &&Receipts| answer.receipts > 0 && answer.sends > 0;
    assert!(answers.iter().filter(some).any(|answer| (20..=27).contains(&answer.refusal)));
    assert!(answers.iter().filter(some).all(|answer| answer.refusal == 0 || (20..=27).contains(&answer.refusal)));
    let mut seen: BTreeMap<String, usize> = BTreeMap::new();
    kinds.into_iter().for_each(|kind| *seen.entry(kind).or_default() += 1);
    for form in Form::ALL.map(Form::name) {
        let does = ["sends", "moves", "stays"];
        let both = does.iter().flat_map(|does| ["receives", "receives nothing"].map(|what| format!("{what}, {does}")));
        for kind in both.chain(["receives nothing, stops", "a step is refused"].map(str::to_string)) {
            assert!(seen.contains_key(&format!("{form} form: {kind}")), "{form} form: {kind}: {seen:?}");
        }
    }
}

#[test]
fn a_translation_has_the_same() {
    let translated = each_seed(seeds("RECEIPTS", part_of(6_000)), |seed| {
        let bytes = bundles::bundle(&mut Dice::new(seed));
        let own = counted(&Library, &bytes, &ECHO);
        let mut written = Vec::new();
        for form in Form::ALL.into_iter().filter(|form| bytes.last() != Some(&form.number())) {
            let mut other = bytes.clone();
            if Library.translate_to(&bytes, &ECHO, u64::from(form.number()), &mut other).refusal == 0 {
                assert_eq!(counted(&Library, &other, &ECHO), own, "seed {seed}, to {} form", form.name());
                written.push((bytes.last().copied(), form));
            }
        }
        written
    });
    let ways: BTreeSet<String> = translated.concat().into_iter().map(|way| format!("{way:?}")).collect();
    assert_eq!(ways.len(), 6, "{ways:?}");
}

// ---- at both bounds

// A table of T types, k = 1: by rule m a board goes on to a state that has sent type m too, and by rule T it stays in the last.
fn chain(types: u8) -> Vec<u8> {
    let states = (0..=types).flat_map(|sent| [u8::from(sent == 0), (1_u8 << sent) - 1]);
    let rules = (0..=types).flat_map(|from| {
        let ends = [from, types.min(from + 1)];
        ends.into_iter().chain(vec![0; 3 * usize::from(types)])
    });
    let (states, rules): (Vec<u8>, Vec<u8>) = (states.collect(), rules.collect());
    let distances = [states.len() + rules.len(), rules.len()].map(bundles::little_endian).concat();
    [states, rules, distances, vec![types + 1, types + 1, types, 1]].concat()
}

// A bundle of that table in a form, with n, t = f and T.
fn of_chain([n, f, types]: [u8; 3], form: Form, steps: &[Step]) -> Vec<u8> {
    let correct = usize::from(n - f);
    closed(&[chain(types), vec![0; correct]].concat(), steps, correct, [n, f, f, form.number()])
}

// All that its boards can send and hear, in message form: first all is sent, then each board hears each type of each board.
fn everything([n, f, types]: [u8; 3]) -> Vec<u8> {
    let sends = (0..n - f).flat_map(|board| (0..types).map(move |rule| quiet(board, rule)));
    let hears = (0..n - f).flat_map(|board| {
        let of_type = move |kind| (0..n).map(move |source| Step { board, rule: types, kind, source });
        (0..types).flat_map(of_type)
    });
    let steps: Vec<Step> = sends.chain(hears).take(MOST_STEPS).collect();
    of_chain([n, f, types], Form::Message, &steps)
}

// A bundle in message form, with a table of its own, as a side has it in a form.
fn in_form(side: &dyn Side, bytes: &[u8], form: Form) -> Vec<u8> {
    let mut out = bytes.to_vec();
    if form != Form::Message {
        assert_eq!(side.translate_to(bytes, &[], u64::from(form.number()), &mut out).refusal, 0);
    }
    out
}

#[test]
fn both_bounds_are_reached() {
    let sizes = [[1, 0, 1], [1, 0, 4], [2, 0, 2], [4, 1, 1], [5, 4, 1], [7, 3, 2], [20, 9, 3], [31, 0, 4], [63, 0, 1]];
    for numbers in sizes {
        let bytes = everything(numbers);
        for (who, side) in SIDES {
            for form in Form::ALL {
                let about = format!("{who}: n, f, T = {numbers:?} in {} form", form.name());
                let bytes = in_form(side, &bytes, form);
                let bundle = read(&bytes, &[]).expect("a bundle");
                let (receipts, sends) = most(&bundle);
                assert_eq!(bundle.steps.len(), receipts + sends, "{about}");
                assert_eq!(counted(side, &bytes, &[]), of(receipts, sends), "{about}");
                // One receipt less, and one send alone.
                let first = |length: usize| of_chain(numbers, form, &bundle.steps[..length]);
                assert_eq!(counted(side, &first(receipts + sends - 1), &[]), of(receipts - 1, sends), "{about}");
                assert_eq!(counted(side, &first(1), &[]), of(0, 1), "{about}");
                // No message is in transit any more, and a wait is neither.
                let last = numbers[2];
                for source in 0..bundle.sources() as u8 {
                    let once_more = with(&bytes, Step { board: 0, rule: last, kind: 0, source });
                    let refused = Receipts { refusal: 24, place: bundle.steps.len() as u32, ..of(receipts, sends) };
                    assert_eq!(counted(side, &once_more, &[]), refused, "{about}");
                }
                assert_eq!(counted(side, &with(&bytes, quiet(0, last)), &[]), of(receipts, sends), "{about}");
            }
        }
    }
}

#[test]
fn a_schedule_cannot_tell_the_most() {
    // 64 boards send 256 messages, and hear 3,840 of 16,384 before the schedule is full.
    let bytes = everything([64, 0, 4]);
    let bundle = read(&bytes, &[]).expect("a bundle");
    assert_eq!((bundle.steps.len(), most(&bundle)), (MOST_STEPS, (MOST_RECEIPTS, 256)));
    for (who, side) in SIDES {
        for form in Form::ALL {
            let bytes = in_form(side, &bytes, form);
            assert_eq!(counted(side, &bytes, &[]), of(MOST_STEPS - 256, 256), "{who}, {} form", form.name());
        }
        // 43 boards hear 21 faulty ones, and nothing is sent: all steps may be receipts.
        let hears =
            (0..43).flat_map(|board| (0..84).map(move |i| Step { board, rule: 0, kind: i / 21, source: 43 + i % 21 }));
        let stays = [&[1, 0][..], &[0; 14], &[16, 0, 14, 0, 1, 1, 4, 3]].concat();
        let bytes = closed(&[stays, vec![0; 43]].concat(), &hears.collect::<Vec<Step>>(), 43, [64, 21, 21, 0]);
        assert_eq!(counted(side, &bytes, &[]), of(43 * 84, 0), "{who}");
    }
}

#[test]
fn what_is_neither_does_not_count() {
    let starts = [1, 1, 1, 1];
    let cases: [(&str, Vec<Step>, Receipts); 9] = [
        ("nothing", vec![], of(0, 0)),
        ("a wait", vec![quiet(0, 3), quiet(0, 4), quiet(0, 4)], of(0, 1)),
        ("a wait with a message", vec![quiet(0, 3), heard(0, 4, 0)], of(1, 1)),
        ("a stop", vec![quiet(0, 3), Step::stop(0)], of(0, 1)),
        ("a stop of a board that has not sent", vec![Step::stop(3), quiet(0, 3)], of(0, 1)),
        ("a step that receives and sends", vec![quiet(0, 3), heard(1, 3, 0)], of(1, 2)),
        (
            "a step to a state that has sent nothing more",
            vec![quiet(0, 3), heard(1, 3, 0), heard(2, 3, 0), heard(2, 4, 1), heard(2, 5, 2)],
            of(4, 3),
        ),
        ("a refused receipt", vec![quiet(0, 3), heard(1, 3, 2)], Receipts { refusal: 24, place: 1, ..of(0, 1) }),
        ("a refused send", vec![quiet(0, 3), quiet(0, 3)], Receipts { refusal: 22, place: 1, ..of(0, 1) }),
    ];
    for (name, steps, expected) in cases {
        let bytes = closed(&starts, &steps, 4, [4, 1, 0, 0]);
        for (who, side) in SIDES {
            assert_eq!(counted(side, &bytes, &ECHO), expected, "{who}: {name}");
        }
    }
    // Nor does anything where no step was looked at.
    let few = Library.receipts(&example("w.bundle"), &ECHO, &mut [0; 7]);
    assert_eq!(few, Receipts { refusal: 30, place: 0, receipts: 0, sends: 0 });
    assert_eq!(counted(&Library, &example("w.bundle"), &[]), Receipts { refusal: 1, place: 0, receipts: 0, sends: 0 });
}

// ---- the program

fn output(words: &[&str], input: &[u8]) -> String {
    String::from_utf8(given(words, input).stdout).expect("text")
}

// The line that people read.
fn shown(words: &[&str], input: &[u8]) -> String {
    let shown = output(words, input);
    let lines: Vec<&str> = shown.lines().filter(|line| line.contains(" of at most ")).collect();
    assert_eq!(lines.len(), 1, "{shown}");
    lines[0].to_string()
}

#[test]
fn a_run_shows_both_with_their_bounds() {
    for (name, told) in [
        ("w.bundle", "3 of at most 12 receipts, 3 of at most 3 sends"),
        ("w-counting.bundle", "3 of at most 12 receipts, 3 of at most 3 sends"),
        ("w-plain.bundle", "3 of at most 12 receipts, 3 of at most 3 sends"),
        ("w-echo-twice.bundle", "2 of at most 12 receipts, 3 of at most 3 sends"),
        ("w-empty.bundle", "0 of at most 12 receipts, 0 of at most 3 sends"),
        ("quiet.bundle", "12 of at most 12 receipts, 3 of at most 3 sends"),
        ("ready.bundle", "18 of at most 70 receipts, 7 of at most 10 sends"),
    ] {
        assert_eq!(shown(&["run", "-"], &example(name)), told, "{name}");
    }
    let alone = closed(&[1], &[quiet(0, 3), heard(0, 5, 0)], 1, [1, 0, 0, 0]);
    assert_eq!(shown(&["run", "-"], &alone), "1 of at most 1 receipt, 1 of at most 1 send");
    let most = "3,840 of at most 16,384 receipts, 256 of at most 256 sends";
    assert_eq!(shown(&["run", "-"], &everything([64, 0, 4])), most);
    // A bundle that is not read has no such line.
    assert_eq!(output(&["run", "-"], b""), "");
    // A replay shows what its bundle's run does.
    let (empty, twice) = (example_path("w-empty.bundle"), example("echo-twice.log"));
    let words = ["replay", empty.to_str().expect("a name"), "-"];
    assert_eq!(shown(&words, &twice), "2 of at most 12 receipts, 3 of at most 3 sends");
}

#[test]
fn programs_are_told_where_they_ask() {
    let w = example("w.bundle");
    let plain = output(&["run", "--plain", "-"], &w);
    assert!(!plain.contains("receipts"), "{plain}");
    assert_eq!(output(&["run", "--plain", "--receipts", "-"], &w), plain + "receipts 3 3\n");
    let twice = given(&["run", "--receipts", "-", "--plain"], &example("w-echo-twice.bundle"));
    assert_eq!(twice.status.code(), Some(1));
    assert!(twice.stdout.ends_with(b"stopped 0\nreceipts 2 3\n"), "{twice:?}");
    assert_eq!(output(&["run", "--plain", "--receipts", "-"], b""), "result 10 0 0\nreceipts 0 0\n");
    // People and JSON have them without asking, and asking changes nothing.
    for style in [&[][..], &["--json"]] {
        let asked = output(&[&["run", "-", "--receipts"], style].concat(), &w);
        assert_eq!(asked, output(&[&["run", "-"], style].concat(), &w));
    }
    let empty = example_path("w-empty.bundle");
    let replay = |words: &[&str], log: &[u8]| {
        let words = [&["replay", empty.to_str().expect("a name"), "-", "--plain", "--receipts"], words].concat();
        output(&words, log)
    };
    assert!(replay(&[], &example("w.log")).ends_with("\nreceipts 3 3\n"));
    assert_eq!(replay(&[], b"no line"), "result 50 0 0\nreceipts 0 0\n");
    // The bundle has steps of its own, which are not run.
    let log = example_path("w.log");
    let words = ["replay", "-", log.to_str().expect("a name"), "--plain", "--receipts"];
    assert_eq!(output(&words, &w), "result 52 0 0\nreceipts 0 0\n");
}

#[test]
fn elsewhere_it_is_bad_use() {
    let wrong: [&[&str]; 8] = [
        &["trace", "x"],
        &["first", "x"],
        &["translate", "x"],
        &["log", "x"],
        &["search", "x", "--depth", "1"],
        &["check", "x", "--of", "y"],
        &["replay", "x", "y", "--trace"],
        &["replay", "x", "y", "--follow"],
    ];
    for words in wrong {
        let got = given(&[words, &["--receipts"]].concat(), b"");
        assert_eq!((got.status.code(), &got.stdout[..]), (Some(2), &b""[..]), "{words:?}");
        let told = "macaroosh: --receipts is for run alone, and for replay without --trace and --follow\n";
        assert!(got.stderr.starts_with(told.as_bytes()), "{got:?}");
    }
}

#[test]
fn the_numbers_are_those_of_the_model() {
    let seen = each_seed(part_of(400).max(120), |seed| {
        let bytes = bundles::any(&mut Dice::new(seed));
        let Receipts { refusal, receipts, sends, .. } = counted(&Model, &bytes, &ECHO);
        let line = format!("receipts {receipts} {sends}");
        let plain = output(&["run", "-", "--plain", "--receipts"], &bytes);
        assert_eq!(plain.lines().last(), Some(&line[..]), "seed {seed}");
        let bundle = match read(&bytes, &ECHO) {
            Ok(bundle) => bundle,
            Err(_) => return false,
        };
        // The bounds are shown in words, and without their commas they are the numbers.
        let (most_receipts, most_sends) = most(&bundle);
        let told = shown(&["run", "-"], &bytes).replace("receipt,", "receipts,").replace(',', "");
        let told = if told.ends_with('d') { told + "s" } else { told };
        let expected = format!("{receipts} of at most {most_receipts} receipts {sends} of at most {most_sends} sends");
        assert_eq!(told, expected, "seed {seed}");
        // The typed call has them too, and so has the replay of what the log says.
        let ran = run(&bytes, &ECHO).map_or_else(|refused| refused.before, Some).expect("steps were looked at");
        assert_eq!((ran.receipts as u32, ran.sends as u32), (receipts, sends), "seed {seed}");
        if bundle.form == Form::Message && refusal == 0 {
            let log = log_of(&bundle.steps);
            let replayed = macaroosh::replay(&without_steps(&bytes), &ECHO, log).expect("it runs");
            assert_eq!(replayed.run, ran, "seed {seed}");
        }
        receipts > 0 && sends > 0
    });
    assert!(seen.iter().filter(|&&some| some).count() as u64 > part_of(40), "{seen:?}");
}
