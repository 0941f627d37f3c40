//! Logs: the library and the hand-written fast version against the model on seeded logs, every lent byte and word; and a bundle's
//! log over the bundle without its steps, which is the bundle again. `LOGS=n` tries more than 10,000.

use judge::compare::compare_replay;
use judge::dice::{bytes_at, each_seed, each_seed_and, part_of, seeds, Dice};
use judge::fast::Fast;
use judge::logs::{can_be_said, log_of};
use judge::makers::bundles::{in_message_form, without_steps};
use judge::makers::cases::cases;
use judge::makers::logs::{any, kinds, Replay};
use judge::model::{read, Model};
use judge::{Bench, Library, Replays};
use macaroosh::calls::{Answer, Step};
use macaroosh::terms::refusals;
use macaroosh::{Form, ECHO};
use std::collections::BTreeMap;

const REPLAYERS: [(&str, &dyn Replays); 3] = [("model", &Model), ("library", &Library), ("fast", &Fast)];

// W without its steps, and its log.
const EMPTY: [u8; 11] = [1, 1, 1, 0, 0, 3, 0, 4, 1, 1, 0];
const LOG: &str = include_str!("../../examples/w.log");

// Agrees with the model on every seed, and the seeds come to every refusal and every kind of log.
fn agrees_on_seeds(replayer: &(dyn Replays + Sync)) {
    let seeds = seeds("LOGS", part_of(10_000));
    let mut seen: BTreeMap<u8, usize> = BTreeMap::new();
    let mut made: BTreeMap<&str, usize> = BTreeMap::new();
    // Refusals 6, 10 and 5 are rare.
    for (kind, refusals) in each_seed_and(&[1_417, 1_895, 2_029], seeds, |seed| agrees(replayer, seed)) {
        *made.entry(kind).or_default() += 1;
        refusals.into_iter().for_each(|number| *seen.entry(number).or_default() += 1);
    }
    println!("{seeds} logs, calls by refusal: {seen:?}; kinds: {made:?}");
    for kind in kinds() {
        assert!(made.contains_key(kind), "no log is {kind}: {made:?}");
    }
    // 31 is of translations, 32 and 33 are of editions, 34 and 35 of searches, 40 is the report program's own, 60 and 61 are of
    // drawings, those from 70 on of lists.
    let of_logs = |number: u8| number < 60 && ![31, 32, 33, 34, 35, 40].contains(&number);
    for line in refusals::ALL.iter().filter(|line| of_logs(line.number)) {
        assert!(seen.contains_key(&line.number), "no log was refused with {}: {seen:?}", line.number);
    }
    assert!(seen.contains_key(&0), "no log was accepted: {seen:?}");
}

// The kind of the seed's log, and the refusals that came up on it.
fn agrees(replayer: &dyn Replays, seed: u64) -> (&'static str, Vec<u8>) {
    let dice = &mut Dice::new(seed);
    let replay = any(dice);
    let refusals = compare_replay(&Model, replayer, &replay, dice);
    (replay.kind, refusals.unwrap_or_else(|difference| panic!("seed {seed}: {difference}\n{}", shown(&replay))))
}

fn shown(replay: &Replay) -> String {
    let Replay { kind, bundle, standing, log } = replay;
    format!("{kind}\nbundle {bundle:02x?}\nstanding {standing:02x?}\nlog {:?}", String::from_utf8_lossy(log))
}

#[test]
fn the_library_agrees_with_the_model() {
    agrees_on_seeds(&Library);
}

#[test]
fn the_fast_version_agrees_with_the_model() {
    agrees_on_seeds(&Fast);
}

// What a replay answers, writes and leaves; bytes and words past those needed stay as they were.
fn replayed(who: &dyn Replays, replay: &Replay, bytes: usize, room: usize) -> (Answer, Vec<u8>, Vec<u64>) {
    let (mut out, mut words) = (vec![0xAA; bytes + 3], vec![u64::MAX; room + 3]);
    let answer = who.replay(&replay.bundle, &replay.standing, &replay.log, &mut out, &mut words);
    let past = (out.split_off(bytes), words.split_off(room));
    assert_eq!(past, (vec![0xAA; 3], vec![u64::MAX; 3]));
    (answer, out, words)
}

// A bundle that is read, whose steps a line can say, is made again from its log, with the answer and the words of its run.
#[track_caller]
fn there_and_back(bundle: &[u8], standing: &[u8]) -> Answer {
    let parts = read(bundle, standing).expect("a bundle that is read");
    let log = log_of(&parts.steps).into_bytes();
    let replay = Replay { kind: "its own", bundle: without_steps(bundle), standing: standing.to_vec(), log };
    let mut words = vec![0; parts.start().words().len()];
    let answer = Model.run(bundle, standing, &mut words);
    for (who, replayer) in REPLAYERS {
        let back = replayed(replayer, &replay, bundle.len(), words.len());
        assert_eq!(back, (answer, bundle.to_vec(), words.clone()), "{who}: {}", shown(&replay));
    }
    answer
}

#[test]
fn a_bundle_comes_back_from_its_log() {
    let back = each_seed(seeds("LOGS", part_of(10_000)), |seed| {
        let (bundle, standing) = in_message_form(&mut Dice::new(seed));
        let steps = read(&bundle, &standing).expect("a bundle that is read").steps;
        steps.into_iter().all(can_be_said).then(|| there_and_back(&bundle, &standing).refusal)
    });
    let mut seen: BTreeMap<u8, usize> = BTreeMap::new();
    back.into_iter().flatten().for_each(|number| *seen.entry(number).or_default() += 1);
    println!("bundles by refusal: {seen:?}");
    assert_eq!(seen.into_keys().collect::<Vec<u8>>(), [0, 20, 21, 22, 23, 24, 25, 26, 27]);
}

#[test]
fn what_is_measured_comes_back_from_its_log() {
    for case in cases().into_iter().filter(|case| case.form == Form::Message) {
        assert_eq!(there_and_back(&case.bundle, &ECHO).refusal, 0, "{}", case.name);
    }
}

// What a replay over W without its steps answers, writes and leaves; of a log that is refused, nothing.
#[track_caller]
fn over_w(who: &dyn Replays, log: &[u8]) -> (Answer, Vec<u8>, Vec<u64>) {
    let replay = Replay { kind: "any", bundle: EMPTY.to_vec(), standing: ECHO.to_vec(), log: log.to_vec() };
    let lines = log.iter().filter(|&&byte| byte == b'\n').count();
    replayed(who, &replay, EMPTY.len() + 4 * lines, 8)
}

#[test]
fn the_log_of_w_makes_w() {
    let w = include_bytes!("../../examples/w.bundle");
    let ran = Answer { refusal: 0, place: 0, count: 5 };
    for (who, replayer) in REPLAYERS {
        let back = over_w(replayer, LOG.as_bytes());
        assert_eq!(back, (ran, w.to_vec(), vec![2, 2, 3, 0, 0, 11, 7, 0]), "{who}");
    }
    assert_eq!(without_steps(w), EMPTY);
    assert_eq!(log_of(&read(w, &ECHO).expect("W").steps), LOG);
}

// Lines that say a step, by its record.
const RIGHT: [(&str, [u8; 4]); 7] = [
    ("board 0 rule 0", [0, 0, 255, 255]),
    ("board 0 rule 3", [0, 3, 255, 255]),
    ("board 254 rule 254", [254, 254, 255, 255]),
    ("board 0 rule 0 type 0 from 0", [0, 0, 0, 0]),
    ("board 254 rule 254 type 254 from 254", [254, 254, 254, 254]),
    ("board 9 rule 10 type 99 from 100", [9, 10, 99, 100]),
    ("board 199 rule 200 type 209 from 250", [199, 200, 209, 250]),
];

// Lines that say none.
const WRONG: [&str; 52] = [
    "",
    " ",
    "\r",
    "board",
    "board ",
    "board 0",
    "board 0 ",
    "board 0 rule",
    "board 0 rule ",
    "board 0 rule 3 ",
    " board 0 rule 3",
    "board  0 rule 3",
    "board 0  rule 3",
    "board 0 rule  3",
    "board\t0 rule 3",
    "board 0\trule 3",
    "board 0 rule 3\t",
    "board 0 rule 3\r",
    "board 0 rule 3\0",
    "board 0 rule 3\u{a0}",
    "Board 0 rule 3",
    "BOARD 0 RULE 3",
    "board 0 rules 3",
    "rule 3 board 0",
    "0 3",
    "board 00 rule 3",
    "board 01 rule 3",
    "board 0 rule 03",
    "board 0 rule 003",
    "board 0 rule 0254",
    "board 255 rule 3",
    "board 256 rule 3",
    "board 0 rule 255",
    "board 0 rule 260",
    "board 0 rule 300",
    "board 0 rule 999",
    "board 0 rule 2540",
    "board 0 rule 1000",
    "board 0 rule 65536",
    "board 0 rule 18446744073709551616",
    "board -0 rule 3",
    "board +1 rule 3",
    "board 0 rule 3.",
    "board 0x0 rule 3",
    "board 0 rule 3 type 0",
    "board 0 rule 3 type 0 from",
    "board 0 rule 3 type 0 from ",
    "board 0 rule 3 from 0 type 0",
    "board 0 rule 3 type 255 from 255",
    "board 0 rule 3 type 0 from 255",
    "board 0 rule 3 type 0 from 0 ",
    "board 0 rule 3 type 0 from 0 type 0 from 0",
];

#[test]
fn lines_say_a_step_or_none() {
    for (who, replayer) in REPLAYERS {
        for (line, record) in RIGHT {
            let (answer, out, _) = over_w(replayer, format!("{line}\n").as_bytes());
            assert_ne!(answer.refusal, 50, "{who}: {line}");
            assert_eq!(out, [&EMPTY[..3], &record, &[4, 0, 7, 0, 4, 1, 1, 0]].concat(), "{who}: {line}");
            // Without its line feed it is of another shape, whatever comes before it.
            let (answer, ..) = over_w(replayer, format!("{LOG}{line}").as_bytes());
            assert_eq!(answer, Answer { refusal: 50, place: 5, count: 0 }, "{who}: {line}");
        }
        for line in WRONG {
            for after in ["", LOG] {
                let log = format!("{LOG}{line}\n{after}");
                let (answer, out, words) = over_w(replayer, log.as_bytes());
                assert_eq!(answer, Answer { refusal: 50, place: 5, count: 0 }, "{who}: {line}");
                assert!(out.iter().all(|&byte| byte == 0xAA), "{who}: {line}");
                assert!(words.iter().all(|&word| word == u64::MAX), "{who}: {line}");
            }
        }
    }
}

// The fast version and the library answer, write and leave what the model does, which is given.
#[track_caller]
fn all_agree(log: &[u8]) -> Answer {
    let told = over_w(&Model, log);
    for (who, replayer) in &REPLAYERS[1..] {
        assert_eq!(over_w(*replayer, log), told, "{who}: {}", String::from_utf8_lossy(log));
    }
    told.0
}

#[test]
fn all_agree_on_every_number_in_every_place() {
    let plain = (0..1_100).map(|number| (number.to_string(), number <= 254));
    let zeros = (0..100).map(|number| (format!("0{number}"), false));
    for (text, right) in plain.chain(zeros) {
        let lines = [
            format!("board {text} rule 3\n"),
            format!("board 0 rule {text}\n"),
            format!("board {text} rule 3 type 0 from 0\n"),
            format!("board 0 rule {text} type 0 from 0\n"),
            format!("board 0 rule 3 type {text} from 0\n"),
            format!("board 0 rule 3 type 0 from {text}\n"),
        ];
        for line in lines {
            assert_eq!(all_agree(line.as_bytes()).refusal != 50, right, "{line}");
        }
    }
}

#[test]
fn all_agree_on_every_change_of_one_byte() {
    for log in [LOG, "board 254 rule 25\nboard 0 rule 3 type 100 from 19\n"] {
        for at in 0..=log.len() {
            let (before, after) = log.as_bytes().split_at(at);
            let others = after.get(1..).unwrap_or(&[]);
            all_agree(before);
            all_agree(&[before, others].concat());
            for byte in bytes_at(at) {
                all_agree(&[before, &[byte], after].concat());
                all_agree(&[before, &[byte], others].concat());
            }
        }
    }
}

#[test]
fn checks_go_in_their_order() {
    let w = include_bytes!("../../examples/w.bundle");
    let start = [&[1, 2, 1][..], &EMPTY[3..10], &[1]].concat();
    let counting = [&EMPTY[..10], &[1]].concat();
    let right = |lines: usize| log_of(&vec![Step { board: 0, rule: 3, kind: 255, source: 255 }; lines]);
    // Each with the fault that is refused and all that come after it: bytes and words are lent by these numbers.
    let cases = [
        ("a start", &start[..], "x".to_string(), 0, 0, (14, 1, 0)),
        ("steps", w, "x".to_string(), 0, 0, (52, 0, 0)),
        ("steps, a log that is right", w, LOG.to_string(), 99, 8, (52, 0, 0)),
        ("another form", &counting, "x".to_string(), 0, 0, (52, 0, 0)),
        ("another form, no log", &counting, String::new(), 99, 11, (52, 0, 0)),
        ("a line before line 4,096", &EMPTY, right(4_095) + "x\n" + &right(9), 0, 0, (50, 4_095, 0)),
        ("line 4,096", &EMPTY, right(4_096) + "x", 0, 0, (51, 4_096, 0)),
        ("line 4,096, with room", &EMPTY, right(4_097), 20_000, 8, (51, 4_096, 0)),
        ("lines past 4,096", &EMPTY, right(9_000), 0, 0, (51, 4_096, 0)),
        ("no line feed at the end of line 4,095", &EMPTY, right(4_096).trim_end().to_string(), 0, 0, (50, 4_095, 0)),
        ("a line before room", &EMPTY, format!("{LOG}\n"), 0, 0, (50, 5, 0)),
        ("a line before a step", &EMPTY, right(2) + "x\n", 99, 8, (50, 2, 0)),
        ("bytes", &EMPTY, right(2), 18, 8, (30, 0, 0)),
        ("words", &EMPTY, right(2), 19, 7, (30, 0, 0)),
        ("neither", &EMPTY, right(2), 0, 0, (30, 0, 0)),
        ("bytes without lines", &EMPTY, String::new(), 10, 8, (30, 0, 0)),
        ("a step", &EMPTY, right(2), 19, 8, (22, 1, 1)),
        ("4,096 lines", &EMPTY, right(4_096), 11 + 4 * 4_096, 8, (22, 1, 1)),
        ("nothing", &EMPTY, String::new(), 11, 8, (0, 0, 0)),
        ("nothing more", &EMPTY, LOG.to_string(), 31, 8, (0, 0, 5)),
    ];
    for (who, replayer) in REPLAYERS {
        for (name, bundle, log, bytes, words, (refusal, place, count)) in &cases {
            let (mut out, mut words) = (vec![0xAA; *bytes], vec![9; *words]);
            let answer = replayer.replay(bundle, &ECHO, log.as_bytes(), &mut out, &mut words);
            assert_eq!(answer, Answer { refusal: *refusal, place: *place, count: *count }, "{who}: {name}");
            let untouched = (out.iter().all(|&byte| byte == 0xAA), words.iter().all(|&word| word == 9));
            let left = answer.left_a_configuration();
            assert_eq!(untouched, (!left, !left), "{who}: {name}");
        }
    }
}
