//! Boards that stop: the figures of a stop in each form, on the model, the library and the fast version; that a stop never helps, on
//! seeded bundles; and what the program shows of stops. `STOPS=n` tries more than 6,000 bundles.

mod start;

use judge::dice::{each_seed, part_of, seeds, Dice};
use judge::fast::Fast;
use judge::logs::log_of;
use judge::makers::bundles::{self, closed, with, without_steps};
use judge::makers::searches;
use judge::model::{read, report, Model};
use judge::{Bench, Library, Limits, Replays, Searches};
use macaroosh::calls::{Answer, Step};
use macaroosh::{Form, Refusal, ECHO, MOST_DEPTH, MOST_WORDS};
use start::given;
use std::collections::BTreeSet;
use std::fs;
use std::path::Path;

// Whoever answers all questions.
trait Side: Bench + Searches + Replays {}

impl<S: Bench + Searches + Replays> Side for S {}

const SIDES: [(&str, &dyn Side); 3] = [("model", &Model), ("library", &Library), ("fast", &Fast)];

fn quiet(board: u8, rule: u8) -> Step {
    Step { board, rule, kind: 255, source: 255 }
}

fn heard(board: u8, rule: u8, source: u8) -> Step {
    Step { board, rule, kind: 0, source }
}

// Boards of the echo table that have an echo to send, in message form.
fn of(numbers: [u8; 3], steps: &[Step]) -> Vec<u8> {
    let [n, t, f] = numbers;
    let correct = usize::from(n - f);
    closed(&vec![1; correct], steps, correct, [n, t, f, 0])
}

// The same in a form; a schedule that is refused is without messages, so that it is the same in each.
fn in_form(bundle: &[u8], form: Form) -> Vec<u8> {
    [&bundle[..bundle.len() - 1], &[form.number()]].concat()
}

#[test]
fn refusals_of_a_step_have_their_order() {
    let four = [4, 1, 0];
    let stopped = [Step::stop(0)];
    let after = |step: Step| [&stopped[..], &[step]].concat();
    let none: [Step; 0] = [];
    let cases: [(&str, [u8; 3], Vec<Step>, u8); 21] = [
        ("a stop", four, stopped.to_vec(), 0),
        ("no step", four, none.to_vec(), 0),
        ("a stop of no board", four, vec![Step::stop(4)], 20),
        ("a stop of a faulty board", [4, 1, 1], vec![Step::stop(3)], 20),
        ("a stop of no board with a message", four, vec![Step { kind: 0, ..Step::stop(255) }], 20),
        ("a stop where f is t", [4, 1, 1], vec![Step::stop(0)], 27),
        ("a stop where t is 0", [4, 0, 0], vec![Step::stop(0)], 27),
        ("one stop too many", four, after(Step::stop(1)), 27),
        ("a second stop", four, after(Step::stop(0)), 26),
        ("a second stop with a message", four, after(Step { kind: 0, source: 0, ..Step::stop(0) }), 26),
        ("a step of a stopped board", four, after(quiet(0, 3)), 26),
        ("no rule of a stopped board", four, after(quiet(0, 7)), 26),
        ("rule 255 of a stopped board", four, after(quiet(0, 255)), 26),
        ("another state's rule of a stopped board", four, after(quiet(0, 0)), 26),
        ("no type of a stopped board", four, after(Step { kind: 9, source: 0, ..quiet(0, 3) }), 26),
        ("a stop with a message", four, vec![Step { kind: 0, source: 0, ..Step::stop(0) }], 23),
        ("a stop with a type alone", four, vec![Step { kind: 0, ..Step::stop(0) }], 23),
        ("a stop with a source alone", four, vec![Step { source: 0, ..Step::stop(0) }], 23),
        ("a message before one stop too many", four, after(Step { kind: 0, source: 0, ..Step::stop(1) }), 23),
        ("rule 253", four, vec![quiet(0, 253)], 21),
        ("another board's step", four, after(quiet(1, 3)), 0),
    ];
    for (name, numbers, steps, refusal) in &cases {
        for form in Form::ALL {
            let bundle = in_form(&of(*numbers, steps), form);
            let place = if *refusal == 0 { 0 } else { steps.len() as u32 - 1 };
            let count = if *refusal == 0 { steps.len() as u32 } else { place };
            for (who, side) in SIDES {
                let about = format!("{who}: {name}, {} form", form.name());
                let mut words = [9; MOST_WORDS];
                let answer = side.run(&bundle, &ECHO, &mut words);
                assert_eq!(answer, Answer { refusal: *refusal, place, count }, "{about}");
                let first = side.first_step(&bundle, &ECHO);
                let refused = Some(Refusal { number: *refusal, place }).filter(|_| *refusal != 0);
                assert_eq!(first.err(), refused, "{about}");
                let mut out = vec![0xAA; bundle.len()];
                let answer = side.translate(&bundle, &ECHO, &mut out);
                let written = if *refusal == 0 { bundle.len() as u32 } else { 0 };
                assert_eq!(answer, Answer { refusal: *refusal, place, count: written }, "{about}");
                assert!(*refusal == 0 || out.iter().all(|&byte| byte == 0xAA), "{about}");
            }
        }
    }
}

fn example(name: &str) -> Vec<u8> {
    fs::read(Path::new(env!("CARGO_MANIFEST_DIR")).join("../examples").join(name)).expect("an example")
}

// A bundle in message form as a side has it in a form.
fn translated(side: &dyn Side, bytes: &[u8], form: Form) -> Vec<u8> {
    let mut out = bytes.to_vec();
    if form != Form::Message {
        let answer = side.translate_to(bytes, &ECHO, u64::from(form.number()), &mut out);
        assert_eq!(answer, Answer { refusal: 0, place: 0, count: bytes.len() as u32 });
    }
    out
}

#[test]
fn what_a_stopped_board_has_sent_stays_sent() {
    let words: [(Form, &[u64]); 3] = [
        (Form::Message, &[2, 3, 2, 1, 0, 7, 1, 0, 7, 1]),
        (Form::Counting, &[2, 3, 2, 1, 0, 0, 3, 0, 1, 0, 0, 0, 3, 1]),
        (Form::Plain, &[2, 3, 2, 1, 0, 3, 1, 0, 3, 1]),
    ];
    // Board 0 sends its echo and stops; board 1 hears it, its own and that of board 2, and accepts.
    let bundle = example("stop.bundle");
    let steps = [quiet(0, 3), Step::stop(0), heard(1, 3, 0), heard(2, 3, 0), heard(1, 4, 1), heard(1, 5, 2)];
    assert_eq!(bundle, of([4, 1, 0], &steps));
    assert_eq!(report(&bundle), "result 0 0 6\np 0 2 0 0\np 1 3 3 0\np 2 2 1 0\np 3 1 0 0\nsent 3\nstopped 1\n");
    for (who, side) in SIDES {
        for (form, words) in words {
            let about = format!("{who}: {} form", form.name());
            let bundle = translated(side, &bundle, form);
            assert_eq!(read(&bundle, &ECHO).expect("a bundle").steps[1], Step::stop(0), "{about}");
            let mut left = vec![9; words.len() + 1];
            assert_eq!(side.run(&bundle, &ECHO, &mut left), Answer { refusal: 0, place: 0, count: 6 }, "{about}");
            assert_eq!(left, [words, &[9]].concat(), "{about}");
            // One word less is too little.
            let few = side.run(&bundle, &ECHO, &mut vec![9; words.len() - 1]);
            assert_eq!(few, Answer { refusal: 30, place: 0, count: 0 }, "{about}");
            // Board 0 could hear its own echo, were it not stopped, and board 1 has heard all.
            let first = side.first_step(&bundle, &ECHO).map(|step| step.map(|step| (step.board, step.rule)));
            assert_eq!(first, Ok(Some((2, 4))), "{about}");
        }
        let (mut out, mut left) = (vec![0; bundle.len()], vec![9; 10]);
        let answer = side.replay(&without_steps(&bundle), &ECHO, log_of(&steps).as_bytes(), &mut out, &mut left);
        assert_eq!((answer, out, &left[..]), (Answer { refusal: 0, place: 0, count: 6 }, bundle.clone(), words[0].1));
    }
}

#[test]
fn the_set_has_a_bit_for_each_of_64_boards() {
    // Of 64 boards 21 may stop, the last of them first; the table has the most rules, and rule 254 is none of them.
    let stops: Vec<Step> = (43..64).rev().map(Step::stop).collect();
    let table = [&[1, 0][..], &[0; 64 * 5], &[66, 1, 64, 1, 1, 64, 1, 3]].concat();
    let bundle = |steps: &[Step]| closed(&[&table[..], &[0; 64]].concat(), steps, 64, [64, 21, 0, 0]);
    for (who, side) in SIDES {
        for form in Form::ALL {
            for count in 0..=stops.len() {
                let mut words = [9; MOST_WORDS];
                let answer = side.run(&in_form(&bundle(&stops[..count]), form), &[], &mut words);
                assert_eq!(answer, Answer { refusal: 0, place: 0, count: count as u32 }, "{who}");
                let last = 64 + 64 * form.wide() + 1;
                assert_eq!(words[last], !(u64::MAX >> count), "{who}: {count} stops");
                assert!(words[..last].iter().all(|&word| word == 0), "{who}");
            }
            let past =
                [(Step::stop(0), 27), (Step::stop(50), 26), (quiet(0, 64), 21), (quiet(63, 64), 26), (quiet(0, 63), 0)];
            for (step, refusal) in past {
                let steps = [&stops[..], &[step]].concat();
                let answer = side.run(&in_form(&bundle(&steps), form), &[], &mut [0; MOST_WORDS]);
                assert_eq!(answer.refusal, refusal, "{who}: {step:?}");
            }
        }
    }
}

#[test]
fn a_search_tries_a_stopped_boards_steps_and_no_stops() {
    // Three of four boards can't accept without the fourth, but for what that has sent.
    let four = |steps: &[Step]| in_form(&of([4, 1, 0], steps), Form::Counting);
    let searched = |side: &dyn Side, bundle: &[u8], depth: u64| {
        let (mut out, mut tried) = ([0; 4 * MOST_DEPTH as usize], 0);
        let answer = side.search(bundle, &ECHO, Limits { depth, budget: u64::MAX }, &mut out, &mut tried);
        (answer.count, tried, out)
    };
    for depth in 0..=4 {
        let bundles = [four(&[]), four(&[Step::stop(0)]), four(&[quiet(0, 3), Step::stop(0)]), four(&[Step::stop(3)])];
        for bundle in bundles {
            let model = searched(&Model, &bundle, depth);
            for (who, side) in SIDES {
                assert_eq!(searched(side, &bundle, depth), model, "{who}: depth {depth}");
            }
        }
    }
    // With one step each try is refused, and counts whether or not its board is stopped.
    assert_eq!(searched(&Library, &four(&[]), 1).1, searched(&Library, &four(&[Step::stop(2)]), 1).1);
    // A stopped board that is in an accepting state counts: board 1 stops once it has accepted.
    let steps = [quiet(0, 3), heard(1, 3, 0), heard(2, 3, 0), heard(1, 4, 0), heard(1, 5, 0), Step::stop(1)];
    for (who, side) in SIDES {
        assert_eq!(searched(side, &four(&steps), 4), (0, 0, [0; 4 * MOST_DEPTH as usize]), "{who}");
    }
}

// ---- a stop never helps

// A seed's bundle up to its first refused step, and the same without its stops.
fn without_stops(seed: u64) -> [Vec<u8>; 2] {
    let bytes = bundles::bundle(&mut Dice::new(seed));
    let accepted = Model.run(&bytes, &ECHO, &mut [0; MOST_WORDS]).count as usize;
    let steps = read(&bytes, &ECHO).expect("a bundle").steps;
    let of_steps = |keeps: fn(&Step) -> bool| {
        let kept = steps[..accepted].iter().filter(|step| keeps(step));
        kept.fold(without_steps(&bytes), |bytes, &step| with(&bytes, step))
    };
    [of_steps(|_| true), of_steps(|step| step.rule != 254)]
}

#[test]
fn an_accepted_schedule_without_its_stops_comes_to_the_same() {
    let stops = each_seed(seeds("STOPS", part_of(6_000)), |seed| {
        let both = without_stops(seed);
        let [whole, fewer] = [&both[0], &both[1]].map(|bytes| read(bytes, &ECHO).expect("a bundle").steps.len());
        for (who, side) in SIDES {
            let [ours, theirs] = [&both[0], &both[1]].map(|bytes| {
                let mut words = vec![0; read(bytes, &ECHO).expect("a bundle").start().words().len()];
                (side.run(bytes, &ECHO, &mut words), words)
            });
            assert_eq!(ours.0, Answer { refusal: 0, place: 0, count: whole as u32 }, "{who}, seed {seed}");
            assert_eq!(theirs.0, Answer { refusal: 0, place: 0, count: fewer as u32 }, "{who}, seed {seed}");
            // States, counts or sets, and sent; the stopped boards alone are others.
            let last = ours.1.len() - 1;
            assert_eq!(ours.1[..last], theirs.1[..last], "{who}, seed {seed}");
            assert_eq!((ours.1[last].count_ones() as usize, theirs.1[last]), (whole - fewer, 0), "{who}, seed {seed}");
        }
        let form = read(&both[0], &ECHO).expect("a bundle").form;
        (form, whole - fewer)
    });
    for form in Form::ALL {
        let seen = stops.iter().filter(|(of, stops)| *of == form && *stops > 0).count();
        assert!(seen as u64 > part_of(100), "{seen} schedules with stops in {} form", form.name());
    }
}

// What a search finds after stops, it could be asked for without them.
#[test]
fn what_is_found_after_stops_is_accepted_without_them() {
    let found = each_seed(seeds("STOPS", 6_000), |seed| {
        let asked = searches::any(&mut Dice::new(seed));
        let (bytes, standing) = (&asked.bundle, &asked.standing);
        let bundle = read(bytes, standing).ok()?;
        let (mut out, mut tried) = ([0; 4 * MOST_DEPTH as usize], 0);
        let limits = Limits { depth: asked.depth, budget: 3_000 };
        let answer = Library.search(bytes, standing, limits, &mut out, &mut tried);
        let stops = bundle.steps.iter().any(|step| step.rule == 254);
        if answer.refusal != 0 || answer.count > 8 || !stops {
            return None;
        }
        let more = out.chunks(4).take(answer.count as usize).map(|s| Step::of([s[0], s[1], s[2], s[3]]));
        let kept: Vec<Step> = bundle.steps.iter().copied().filter(|step| step.rule != 254).chain(more).collect();
        assert!(kept.iter().all(|step| step.rule != 254), "seed {seed}: a stop is found");
        let fewer = kept.iter().fold(without_steps(bytes), |bytes, &step| with(&bytes, step));
        let mut words = [0; MOST_WORDS];
        assert_eq!(Library.run(&fewer, standing, &mut words).refusal, 0, "seed {seed}");
        let accepting = |state: &u64| bundle.table.states[*state as usize].accepting;
        assert!(words[..bundle.correct()].iter().any(accepting), "seed {seed}");
        Some(answer.count)
    });
    let found: BTreeSet<u32> = found.into_iter().flatten().collect();
    assert!((0..4).all(|length| found.contains(&length)), "{found:?}");
}

// ---- the program

fn output(words: &[&str], input: &[u8]) -> (Option<i32>, String, String) {
    let got = given(words, input);
    let text = |bytes: Vec<u8>| String::from_utf8(bytes).expect("text");
    (got.status.code(), text(got.stdout), text(got.stderr))
}

fn shows(words: &[&str], input: &[u8], shown: &str) {
    assert_eq!(output(words, input), (Some(0), shown.to_string(), String::new()), "{words:?}");
}

const FOUR: &str = "message form, n = 4, t = 1, f = 0: boards 0 to 3 are correct\n";

#[test]
fn a_run_shows_which_boards_are_stopped() {
    let shown = "\
after 6 steps: what each board has (from correct + faulty boards), and what was sent
4 of at most 16 receipts, 3 of at most 4 sends

board  state        has type 0
    0  2, stopped          0+0
    1  3 accepting         3+0
    2  2                   1+0
    3  1                   0+0
 sent                        3
";
    let bundle = example("stop.bundle");
    shows(&["run", "-"], &bundle, &format!("{FOUR}{shown}"));
    shows(&["run", "-", "--plain"], &bundle, &report(&bundle));
    let json = "{\"refusal\":0,\"place\":0,\"accepted\":6,\"receipts\":4,\"sends\":3,\
                \"form\":\"message\",\"n\":4,\"t\":1,\"f\":0,\
                \"states\":[2,3,2,1],\"received\":[[[0,0]],[[3,0]],[[1,0]],[[0,0]]],\"sent\":[3],\"stopped\":[0],\
                \"received_from\":[[[]],[[0,1,2]],[[0]],[[]]],\"sent_by\":[[0,1,2]]}\n";
    shows(&["run", "-", "--json"], &bundle, json);
    // A stopped board may be in an accepting state.
    let steps = [quiet(0, 3), heard(1, 3, 0), heard(2, 3, 0), heard(1, 4, 1), heard(1, 5, 2), Step::stop(1)];
    let (_, shown, _) = output(&["run", "-"], &of([4, 1, 0], &steps));
    assert!(shown.contains("\n    1  3 accepting, stopped         3+0\n"), "{shown}");
}

#[test]
fn a_trace_says_that_a_board_loses_power() {
    let head = "\
boards start in states 1 1 1 1
after each step: what its board has (from correct + faulty boards), and what was sent
";
    let rows = "\
^ this line and the one above it can be exchanged: the configuration after both is the same

step    board  rule  from -> to           receives             sends   has type 0  sent type 0
   0        0     3     1 -> 2            no message           type 0         0+0            1
   1        0   254     2 loses power                                         0+0            1
   2 ^      1     3     1 -> 2            type 0 from board 0  type 0         1+0            2
   3 ^      2     3     1 -> 2            type 0 from board 0  type 0         1+0            3
   4 ^      1     4     2 -> 2            type 0 from board 1                 2+0            3
   5        1     5     2 -> 3 accepting  type 0 from board 2                 3+0            3
";
    let bundle = example("stop.bundle");
    shows(&["trace", "-"], &bundle, &format!("{FOUR}{head}{rows}"));
    let plain = "\
result 0 0 6
start 1 1 1 1
step 0 0 3 255 255 255
p 0 2 0 0
sent 1
stopped 0
step 1 0 254 255 255 255
p 0 2 0 0
sent 1
stopped 1
";
    let (_, shown, _) = output(&["trace", "-", "--plain", "--to", "1"], &bundle);
    assert_eq!(shown, plain);
    let stop = "{\"step\":1,\"board\":0,\"rule\":254,\"type\":255,\"source\":255,\"translated\":255,\"from\":2,\"sends\":null,\
                \"state\":2,\"received\":[[0,0]],\"sent\":[1],\"stopped\":[0],\"swaps_with_previous\":false}";
    let (_, shown, _) = output(&["trace", "-", "--json"], &bundle);
    assert!(shown.contains(stop), "{shown}");
    // As each line comes in, there is the same, with its place for a sign.
    let log = log_of(&read(&bundle, &ECHO).expect("a bundle").steps);
    let folder = Path::new(env!("CARGO_TARGET_TMPDIR")).join("stops");
    fs::create_dir_all(&folder).expect("a folder");
    let empty = folder.join("empty");
    fs::write(&empty, without_steps(&bundle)).expect("a bundle");
    let empty = empty.to_str().expect("a name");
    let squeezed = |text: &str| text.split_whitespace().collect::<Vec<&str>>().join(" ");
    let (_, followed, _) = output(&["replay", empty, "-", "--follow"], log.as_bytes());
    assert_eq!(squeezed(&followed), squeezed(&format!("{FOUR}{head}{rows}")));
    shows(&["replay", empty, "-", "--trace"], log.as_bytes(), &format!("{FOUR}{head}{rows}"));
    let got = output(&["log", "-"], &bundle);
    assert_eq!((got.0, &got.1), (Some(0), &log));
    // And as text, there and back.
    let (_, text, _) = output(&["unpack", "-"], &bundle);
    assert!(text.contains("\nboard 0 rule 254\n"), "{text}");
    assert_eq!(given(&["pack", "-"], text.as_bytes()).stdout, bundle);
}

#[test]
fn refusals_of_stops_are_told() {
    let told = |steps: &[Step], numbers: [u8; 3]| output(&["run", "-"], &of(numbers, steps)).2;
    let cases = [
        (
            told(&[Step::stop(0), quiet(1, 3), quiet(0, 3)], [4, 1, 0]),
            "refused 26 at step 2: the board is stopped\n\
             that step is board 0, rule 3, no message\n\
             board 0 has lost power in step 0\n",
        ),
        (
            told(&[Step::stop(0), Step::stop(1)], [4, 1, 0]),
            "refused 27 at step 1: no more boards may stop: f and the stopped ones may not exceed t\n\
             that step is board 1, rule 254 (a stop), no message\n\
             t = 1, f = 0, and 1 board is stopped already\n",
        ),
        (
            told(&[Step::stop(0)], [4, 1, 1]),
            "refused 27 at step 0: no more boards may stop: f and the stopped ones may not exceed t\n\
             that step is board 0, rule 254 (a stop), no message\n\
             t = 1, f = 1, and no board is stopped already\n",
        ),
        (
            told(&[heard(0, 254, 1)], [4, 1, 0]),
            "refused 23 at step 0: type or source is out of range, only one of the two is 255, or a stop has a message\n\
             that step is board 0, rule 254 (a stop), type 0, source 1\n\
             a stop has neither type nor source, which are both 255 then\n",
        ),
    ];
    for (got, expected) in cases {
        assert_eq!(got, expected);
    }
}

#[test]
fn no_stop_is_offered_and_no_step_of_a_stopped_board() {
    let bundle = of([4, 1, 0], &[quiet(0, 3), Step::stop(0)]);
    let (_, shown, _) = output(&["first", "-", "--all", "--plain"], &bundle);
    let boards: Vec<&str> = shown.lines().skip(1).map(|line| &line[..7]).collect();
    assert_eq!(boards, ["step 1 ", "step 1 ", "step 2 ", "step 2 ", "step 3 ", "step 3 "], "{shown}");
}
