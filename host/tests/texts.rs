//! Bundles as text: what `unpack` writes `pack` reads back to the same bytes, and a mistake in a text is told where it is.
//! `TEXTS=n` tries more than 7,500 seeds.

mod start;

use judge::dice::{each_seed, each_seed_and, part_of, seeds, Dice};
use judge::makers::bundles::{bundle, case, closed};
use judge::makers::sketches;
use judge::model::read;
use macaroosh::calls::{run, Step};
use macaroosh::parts::Parts;
use macaroosh::terms::refusals;
use macaroosh::{Form, ECHO, MOST_WORDS};
use start::{given, program};
use std::collections::{BTreeMap, BTreeSet};
use std::fs;
use std::path::{Path, PathBuf};

fn example(name: &str) -> PathBuf {
    Path::new(env!("CARGO_MANIFEST_DIR")).join("../examples").join(name)
}

fn bytes(name: &str) -> Vec<u8> {
    fs::read(example(name)).expect("an example")
}

// An empty folder for a test.
fn room(name: &str) -> PathBuf {
    let room = Path::new(env!("CARGO_TARGET_TMPDIR")).join(name);
    let _ = fs::remove_dir_all(&room);
    fs::create_dir_all(&room).expect("a folder");
    room
}

fn shown(bytes: &[u8]) -> &str {
    std::str::from_utf8(bytes).expect("text")
}

// The text of a bundle that is read beside the echo table.
fn unpacked(bundle: &[u8]) -> String {
    let got = given(&["unpack", "-"], bundle);
    assert_eq!(got.status.code(), Some(0), "{}", shown(&got.stderr));
    shown(&got.stdout).to_string()
}

// The bundle of a text that is read beside the echo table.
fn packed(text: &str) -> Vec<u8> {
    let got = given(&["pack", "-"], text.as_bytes());
    assert_eq!(got.status.code(), Some(0), "{}\n{text}", shown(&got.stderr));
    got.stdout
}

const W: &str = "\
n 4 t 1 f 1 form message
start 1 1 1
board 0 rule 3
board 1 rule 3
board 2 rule 3 type 0 from 0
board 2 rule 4 type 0 from 3
board 2 rule 5 type 0 from 1
";

const COUNTING: &str = "\
n 4 t 1 f 1 form counting
start 1 1 1
board 0 rule 3
board 1 rule 3
board 2 rule 3 type 0 from correct
board 2 rule 4 type 0 from faulty
board 2 rule 5 type 0 from correct
";

const PLAIN: &str = "\
n 4 t 1 f 1 form plain
start 1 1 1
board 0 rule 3
board 1 rule 3
board 2 rule 3 type 0
board 2 rule 4 type 0
board 2 rule 5 type 0
";

const FORMS: [(&str, &str, &str); 3] =
    [("w.bundle", "message", W), ("w-counting.bundle", "counting", COUNTING), ("w-plain.bundle", "plain", PLAIN)];

#[test]
fn each_form_has_its_text() {
    for (name, form, text) in FORMS {
        let got = given(&["unpack", "-"], &bytes(name));
        assert_eq!((got.status.code(), shown(&got.stdout)), (Some(0), text));
        let told = format!("wrote {} bytes: the text of a bundle in {form} form with 5 steps\n", text.len());
        assert_eq!(shown(&got.stderr), told);
        let got = given(&["pack", "-"], text.as_bytes());
        assert_eq!((got.status.code(), got.stdout), (Some(0), bytes(name)));
        assert_eq!(shown(&got.stderr), format!("wrote 31 bytes: a bundle in {form} form with 5 steps\n"));
    }
}

#[test]
fn a_table_of_its_own_is_drawn_in_front() {
    let own = [bytes("echo.table"), bytes("w.bundle")].concat();
    let text = format!("{}{W}", shown(&bytes("echo.dot")));
    assert_eq!(unpacked(&own), text);
    assert_eq!(packed(&text), own);
    // The same table beside it is not written.
    assert_eq!(unpacked(&bytes("w.bundle")), W);
    // With divisors too.
    let own = [bytes("majority.table"), bytes("w.bundle")].concat();
    let text = format!("{}{W}", shown(&given(&["draw", "-"], &bytes("majority.table")).stdout));
    assert!(text.contains("T=17; k=3;\n") && text.contains("s2 -> s3 [label=\"1 1 1 2\"];\n"), "{text}");
    assert_eq!(unpacked(&own), text);
    assert_eq!(packed(&text), own);
}

#[test]
fn files_are_written_and_programs_are_told_in_numbers() {
    let room = room("texts-files");
    let (text, bundle) = (room.join("w.text"), room.join("w.bundle"));
    let words = |command, from: &Path, to: &Path| {
        program().args([command, "--plain", "-o"]).arg(to).arg(from).output().expect("the program starts")
    };
    let got = words("unpack", &example("w.bundle"), &text);
    assert_eq!((got.status.code(), shown(&got.stdout), shown(&got.stderr)), (Some(0), "", "result 0 0 154\n"));
    let got = words("pack", &text, &bundle);
    assert_eq!((got.status.code(), shown(&got.stdout), shown(&got.stderr)), (Some(0), "", "result 0 0 31\n"));
    assert_eq!(
        (fs::read_to_string(&text).expect("the text"), fs::read(&bundle).expect("it")),
        (W.into(), bytes("w.bundle"))
    );
    let got = program().arg("pack").arg(&text).arg("-o").arg(&bundle).output().expect("the program starts");
    let told = format!("wrote 31 bytes to {}: a bundle in message form with 5 steps\n", bundle.display());
    assert_eq!(shown(&got.stderr), told);
    // What is refused or mistaken leaves the file as it was.
    for wrong in [W.replace("start 1", "start 2"), W.replace("rule 5", "rule five")] {
        fs::write(&text, wrong).expect("a file");
        assert_eq!(words("pack", &text, &bundle).status.code(), Some(1));
        assert_eq!(fs::read(&bundle).expect("the bundle"), bytes("w.bundle"));
    }
    assert_eq!(fs::read_dir(&room).expect("the folder").count(), 2);
}

#[test]
fn the_examples_are_read_back() {
    let names: Vec<PathBuf> = fs::read_dir(example("")).expect("a folder").map(|e| e.expect("a file").path()).collect();
    let bundles: Vec<&PathBuf> =
        names.iter().filter(|path| path.extension().map_or(false, |e| e == "bundle")).collect();
    assert!(bundles.len() >= 7, "{bundles:?}");
    for path in bundles {
        let bundle = fs::read(path).expect("an example");
        assert_eq!(packed(&unpacked(&bundle)), bundle, "{}", path.display());
    }
}

// As many steps as a bundle has room for, with each type and source that there is, and all boards and rules.
#[test]
fn every_record_survives_in_every_form() {
    for form in Form::ALL {
        // Where it is emulated, the lowest types and the highest.
        for sixteenth in (0..16).filter(|sixteenth| u64::from(sixteenth % 15) < part_of(15)) {
            let record = |i: u32| Step::of([i as u8, (i / 7) as u8, (16 * sixteenth + i / 256) as u8, i as u8]);
            let steps: Vec<Step> = (0..4_096).map(record).collect();
            let bundle = closed(&[1, 0], &steps, 2, [2, 0, 0, form.number()]);
            assert_eq!(packed(&unpacked(&bundle)), bundle, "{} form, types from {}", form.name(), 16 * sixteenth);
        }
    }
}

#[test]
fn where_words_cannot_say_a_step_numbers_stand() {
    let steps =
        [[9, 64, 255, 255], [0, 1, 255, 7], [255, 255, 0, 9], [0, 1, 3, 0], [0, 1, 3, 1], [0, 1, 0, 255]].map(Step::of);
    let lines = [
        "board 9 rule 64\nboard 0 rule 1 type 255 from 7\nboard 255 rule 255 type 0 from 9\n\
         board 0 rule 1 type 3 from 0\nboard 0 rule 1 type 3 from 1\nboard 0 rule 1 type 0 from 255\n",
        "board 9 rule 64\nboard 0 rule 1 type 255 from 7\nboard 255 rule 255 type 0 from 9\n\
         board 0 rule 1 type 3 from correct\nboard 0 rule 1 type 3 from faulty\nboard 0 rule 1 type 0 from 255\n",
        "board 9 rule 64\nboard 0 rule 1 type 255 from 7\nboard 255 rule 255 type 0 from 9\n\
         board 0 rule 1 type 3\nboard 0 rule 1 type 3 from 1\nboard 0 rule 1 type 0 from 255\n",
    ];
    for (form, lines) in Form::ALL.into_iter().zip(lines) {
        let bundle = closed(&[1], &steps, 1, [1, 0, 0, form.number()]);
        let text = format!("n 1 t 0 f 0 form {}\nstart 1\n{lines}", form.name());
        assert_eq!(unpacked(&bundle), text);
        assert_eq!(packed(&text), bundle);
    }
    // Numbers may stand where the words leave them out, and mean the same.
    let silent = closed(&[1], &[Step::of([0, 3, 255, 255])], 1, [1, 0, 0, 2]);
    assert_eq!(packed("n 1 t 0 f 0 form plain\nstart 1\nboard 0 rule 3 type 255 from 255\n"), silent);
    let heard = closed(&[1], &[Step::of([0, 3, 0, 0])], 1, [1, 0, 0, 2]);
    assert_eq!(packed("n 1 t 0 f 0 form plain\nstart 1\nboard 0 rule 3 type 0 from 0\n"), heard);
}

// A bundle of any kind and its standing table; often with step bytes that are any.
fn made(dice: &mut Dice) -> (Vec<u8>, Vec<u8>) {
    let (mut bundle, standing) = if dice.once_in(2) { case(dice) } else { (bundle(dice), ECHO.to_vec()) };
    let length = Parts::of(&bundle, &standing).map_or(0, |parts| parts.length());
    if length > 0 && read(&bundle, &standing).is_ok() && dice.once_in(2) {
        let first = bundle.len() - 8 - 4 * length;
        for _ in 0..dice.between(1, 6) {
            let (at, any) = (first + dice.below(4 * length), dice.below(256) as u8);
            bundle[at] = dice.one_of(&[any, any, 0, 1, 2, 255]);
        }
    }
    (bundle, standing)
}

// What became of a bundle: its form, whether it has a table and whether its run is refused; or reading's refusal.
fn there_and_back(room: &Path, seed: u64) -> Result<(Form, bool, bool), u8> {
    let (bundle, standing) = made(&mut Dice::new(seed));
    let beside = room.join(seed.to_string());
    let mut words = vec!["-"];
    if standing != ECHO {
        fs::write(&beside, &standing).expect("a file");
        words.extend(["--standing", beside.to_str().expect("a name")]);
    }
    let got = given(&[&["unpack"], &words[..]].concat(), &bundle);
    let reading = read(&bundle, &standing);
    match &reading {
        Err(refusal) => {
            // As a run says it.
            let ran = given(&[&["run"], &words[..]].concat(), &bundle);
            let said = (got.status.code(), shown(&got.stdout), shown(&got.stderr));
            assert_eq!(said, (Some(1), "", shown(&ran.stderr)), "seed {seed}");
            assert!(said.2.starts_with(&(refusals::told(*refusal) + "\n")), "seed {seed}: {}", said.2);
        }
        Ok(_) => {
            assert_eq!(got.status.code(), Some(0), "seed {seed}: {}", shown(&got.stderr));
            let back = given(&[&["pack"], &words[..]].concat(), &got.stdout);
            assert_eq!(back.status.code(), Some(0), "seed {seed}: {}", shown(&back.stderr));
            assert_eq!(back.stdout, bundle, "seed {seed}: {}", shown(&got.stdout));
        }
    }
    let _ = fs::remove_file(&beside);
    let refused = run(&bundle, &standing, &mut [0; MOST_WORDS]).refusal != 0;
    let own = Parts::of(&bundle, &standing).map_or(false, |parts| !parts.front.is_empty());
    reading.map(|read| (read.form, own, refused)).map_err(|refusal| refusal.number)
}

#[test]
fn unpacked_and_packed_is_the_same() {
    let room = room("texts-seeds");
    // Refusals 11 and 10 are rare.
    let all = each_seed_and(&[162, 448], seeds("TEXTS", part_of(part_of(7_500))), |seed| there_and_back(&room, seed));
    let mut read: BTreeMap<(Form, bool, bool), usize> = BTreeMap::new();
    for &kind in all.iter().flatten() {
        *read.entry(kind).or_default() += 1;
    }
    assert!(3 * read.values().sum::<usize>() >= 2 * all.len(), "{read:?}");
    assert!(read.len() == 12 && read.values().all(|&count| 75 * count >= all.len()), "{read:?}");
    let refused: BTreeSet<u8> = all.iter().filter_map(|kind| kind.err()).collect();
    assert!((1..=8).chain([10, 11, 12, 13, 14]).all(|number| refused.contains(&number)), "{refused:?}");
}

// The text as a person may have edited it: other blanks, empty lines, comments.
fn edited(dice: &mut Dice, text: &str) -> String {
    let (drawing, lines) = text.split_at(text.find('}').map_or(0, |brace| brace + 2));
    let blanks = |dice: &mut Dice| [" ", "\t", "  ", " \t "][dice.below(4)];
    let comment = |dice: &mut Dice| ["", "", " # a } of [x] -> y;", "#", "\t#n 4 \u{e9}"][dice.below(5)];
    let mut edited = ["", "\n \n", "# digraph {\n", "\t"][dice.below(4)].to_string();
    for token in sketches::tokens(drawing) {
        let blank =
            if token == "digraph" || dice.once_in(3) { ["\n", "\n\n", blanks(dice)][dice.below(3)] } else { "" };
        edited += &(token + blank);
    }
    edited += if drawing.is_empty() { "" } else { "\n" };
    for line in lines.lines() {
        edited += ["", "", "\n", "   # board 9\n", " \t\n"][dice.below(5)];
        edited += ["", "", blanks(dice)][dice.below(3)];
        let words: Vec<&str> = line.split(' ').collect();
        edited += words[0];
        for word in &words[1..] {
            edited += blanks(dice);
            edited += word;
        }
        edited += ["", blanks(dice)][dice.below(2)];
        edited += comment(dice);
        edited += "\n";
    }
    edited + ["", "# the end\n", "\n\n"][dice.below(3)]
}

#[test]
fn an_edited_text_gives_the_same_bundle_and_the_same_text_again() {
    each_seed(part_of(300), |seed| {
        let dice = &mut Dice::new(seed);
        let bundle = bundle(dice);
        let text = unpacked(&bundle);
        let edited = edited(dice, &text);
        let again = packed(&edited);
        assert_eq!(again, bundle, "seed {seed}: {edited}");
        assert_eq!(unpacked(&again), text, "seed {seed}");
    });
}

// A text, and what is told of it to people and to programs.
#[track_caller]
fn told(text: &[u8], told: &str, plain: &str) {
    let got = given(&["pack", "-"], text);
    assert_eq!((got.status.code(), shown(&got.stdout), shown(&got.stderr)), (Some(1), "", told));
    let got = given(&["pack", "-", "--plain"], text);
    assert_eq!((got.status.code(), shown(&got.stdout), shown(&got.stderr)), (Some(1), "", plain));
}

// One of the texts with a piece of it in another way.
#[track_caller]
fn wrong(text: &str, from: &str, to: &str, what: &str, plain: &str) {
    assert!(text.contains(from), "{from}");
    told(text.replacen(from, to, 1).as_bytes(), what, plain);
}

// The same where a mistake is told: its line and column, what was expected there, that line, and the mark.
#[track_caller]
fn mistaken(text: &str, from: &str, to: &str, (line, column): (usize, usize), expected: &str, shown: &str) {
    let mark = " ".repeat(column - 1);
    let what = format!("line {line}, column {column}: {expected}\n{shown}\n{mark}^\n");
    wrong(text, from, to, &what, &format!("mistake {line} {column}\n"));
}

#[test]
fn a_mistake_is_told_with_its_line_and_a_mark() {
    let what = "\
line 3, column 14: a rule's number was expected, 0 to 255
board 0 rule three  # V1 to SE
             ^
";
    wrong(W, "rule 3", "rule three  # V1 to SE", what, "mistake 3 14\n");
}

#[test]
fn a_mistake_in_the_first_line_is_told() {
    let mistake = |from: &str, to: &str, column: usize, expected: &str, shown: &str| {
        mistaken(W, from, to, (1, column), expected, shown);
    };
    mistake("n 4", "graph\nn 4", 1, "'digraph' or 'n' was expected", "graph");
    mistake("n 4", "N 4", 1, "'digraph' or 'n' was expected", "N 4 t 1 f 1 form message");
    mistake("n 4", "n four", 3, "the number n was expected, 0 to 255", "n four t 1 f 1 form message");
    mistake("t 1 f 1", "f 1 t 1", 5, "'t' was expected", "n 4 f 1 t 1 form message");
    mistake("t 1", "t -1", 7, "the number t was expected, 0 to 255", "n 4 t -1 f 1 form message");
    mistake(" f 1", "", 9, "'f' was expected", "n 4 t 1 form message");
    mistake("f 1", "f 256", 11, "the number f was expected, 0 to 255", "n 4 t 1 f 256 form message");
    mistake("form", "#", 13, "'form' was expected", "n 4 t 1 f 1 # message");
    mistake("message", "0", 18, "a form was expected: message, counting or plain", "n 4 t 1 f 1 form 0");
    mistake(" message", "", 17, "a form was expected: message, counting or plain", "n 4 t 1 f 1 form");
    mistake("\nstart", " start", 26, "the line's end was expected", "n 4 t 1 f 1 form message start 1 1 1");
}

#[test]
fn a_mistake_in_the_starts_is_told() {
    let mistake = |from: &str, to: &str, column: usize, expected: &str, shown: &str| {
        mistaken(W, from, to, (2, column), expected, shown);
    };
    mistake("start 1 1 1\n", "", 1, "'start' was expected", "board 0 rule 3");
    let again = "n 4 t 1 f 1 form message";
    mistake("start", &format!("{again}\nstart"), 1, "'start' was expected", again);
    mistake("1 1 1", "1 x 1", 9, "a start state's number was expected, 0 to 255", "start 1 x 1");
    mistake("1 1 1", "01 1 1", 7, "a start state's number was expected, 0 to 255", "start 01 1 1");
    // Of a long line what is near is shown.
    let what = format!(
        "line 2, column 517: the line's end was expected: at most 255 boards start\n...{}1\n{}^\n",
        "1 ".repeat(30),
        " ".repeat(63)
    );
    wrong(W, " 1 1 1", &" 1".repeat(256), &what, "mistake 2 517\n");
}

#[test]
fn a_mistake_in_a_step_is_told() {
    mistaken(W, "board 0", "bord 0", (3, 1), "'board' was expected", "bord 0 rule 3");
    mistaken(W, "board 1", "start 1 1 1\nboard 1", (4, 1), "'board' was expected", "start 1 1 1");
    let mistake = |from: &str, to: &str, column: usize, expected: &str, shown: &str| {
        mistaken(W, from, to, (3, column), expected, shown);
    };
    mistake("board 0", "board 300", 7, "a board's number was expected, 0 to 255", "board 300 rule 3");
    mistake("board 0", "board 0,", 7, "a board's number was expected, 0 to 255", "board 0, rule 3");
    mistake("0 rule", "0 by rule", 9, "'rule' was expected", "board 0 by rule 3");
    mistake("0 rule 3", "0", 8, "'rule' was expected", "board 0");
    mistake("rule 3", "rule +3", 14, "a rule's number was expected, 0 to 255", "board 0 rule +3");
    mistake("rule 3", "rule  # 3", 15, "a rule's number was expected, 0 to 255", "board 0 rule  # 3");
    let mistake = |from: &str, to: &str, column: usize, expected: &str, shown: &str| {
        mistaken(W, from, to, (5, column), expected, shown);
    };
    mistake("type 0 ", "", 16, "'type' or the line's end was expected", "board 2 rule 3 from 0");
    mistake("type 0", "type", 21, "a type's number was expected, 0 to 255", "board 2 rule 3 type from 0");
    mistake("from 0", "from 0 1", 30, "the line's end was expected", "board 2 rule 3 type 0 from 0 1");
}

#[test]
fn a_mistake_in_a_source_is_told_as_the_form_has_it() {
    let mistake = |text: &str, from: &str, to: &str, column: usize, expected: &str| {
        let line = text.lines().nth(4).expect("a line with a message").replace(from, to);
        mistaken(text, from, to, (5, column), expected, &line);
    };
    mistake(W, " from 0", "", 22, "'from' was expected");
    mistake(COUNTING, " from correct", "", 22, "'from' was expected");
    mistake(W, "from 0", "from correct", 28, "a sender's number was expected, 0 to 255");
    // The lines of a service log would mean another thing.
    let expected = "'correct', 'faulty' or another source was expected, 2 to 255";
    mistake(COUNTING, "from correct", "from 0", 28, expected);
    mistake(COUNTING, "from correct", "from 1", 28, expected);
    mistake(COUNTING, "from correct", "from", 27, expected);
    mistake(PLAIN, "type 0", "type 0 to 3", 23, "'from' or the line's end was expected");
    mistake(PLAIN, "type 0", "type 0 from faulty", 28, "a source's number was expected, 0 to 255");
    mistake(PLAIN, "type 0", "type 0 from 7 board", 30, "the line's end was expected");
}

#[test]
fn a_text_that_ends_too_early_is_told() {
    let what = "line 1, column 1, where the text ends: 'digraph' or 'n' was expected\n\n^\n";
    told(b"", what, "mistake 1 1\n");
    let what = "line 3, column 1, where the text ends: 'digraph' or 'n' was expected\n\n^\n";
    told(b"# nothing\n\n", what, "mistake 3 1\n");
    let what = "line 2, column 1, where the text ends: 'start' was expected\n\n^\n";
    told(b"n 4 t 1 f 1 form message\n", what, "mistake 2 1\n");
    let drawing = bytes("echo.dot");
    let what = "line 15, column 1, where the text ends: 'n' was expected\n\n^\n";
    told(&drawing, what, "mistake 15 1\n");
    let what = "line 14, column 2, where the text ends: 'n' was expected\n}\n ^\n";
    told(&drawing[..drawing.len() - 1], what, "mistake 14 2\n");
    // A cut number would be another one.
    let what = "\
line 7, column 28, where the text ends: a line feed was expected, which ends every line
board 2 rule 5 type 0 from
                           ^
";
    told(&W.as_bytes()[..W.len() - 2], what, "mistake 7 28\n");
}

#[test]
fn bytes_that_are_no_text_are_told() {
    const RETURN: &str = "a line ends with a line feed alone, without a carriage return";
    mistaken(W, "1 1 1\n", "1 1 1\r\n", (2, 12), RETURN, "start 1 1 1");
    // In a drawing too.
    let both = format!("{}{W}", shown(&bytes("echo.dot"))).replace('\n', "\r\n");
    mistaken(&both, "", "", (1, 12), RETURN, "digraph t {");
    for wrong in [&b"\xff"[..], b"\xc3(", b"\xed\xa0\x80", b"\xe2\x82"] {
        let text = [W.as_bytes(), b"# caf\xc3\xa9 ", wrong, b"\n"].concat();
        let line = format!("# caf?? {}", wrong.iter().map(|b| if *b == b'(' { '(' } else { '?' }).collect::<String>());
        let what = format!("line 8, column 9: text in UTF-8 was expected\n{line}\n        ^\n");
        told(&text, &what, "mistake 8 9\n");
    }
    // The lower one of the two.
    told(b"n\xff\r\n", "line 1, column 2: text in UTF-8 was expected\nn?\n ^\n", "mistake 1 2\n");
    told(b"n\r\xff\n", &format!("line 1, column 2: {RETURN}\nn ?\n ^\n"), "mistake 1 2\n");
}

#[test]
fn the_first_step_too_many_is_told() {
    let text = |steps: usize| format!("# long\nn 1 t 0 f 0 form plain\nstart 1\n{}", "board 0 rule 3\n".repeat(steps));
    assert_eq!(packed(&text(4_096)).len(), 1 + 4 * 4_096 + 8);
    const END: &str = "the text's end was expected: a schedule has at most 4,096 steps";
    mistaken(&text(4_097), "", "", (4_100, 1), END, "board 0 rule 3");
    // Before what is wrong with it.
    mistaken(&(text(4_096) + " nonsense\n"), "", "", (4_100, 2), END, " nonsense");
    let comments = text(4_096) + "# the end\n\n";
    assert_eq!(packed(&comments).len(), 1 + 4 * 4_096 + 8);
}

// W with the echo table's drawing in front, after a comment with signs of its own; a piece of it in another way.
#[track_caller]
fn wrong_drawing(from: &str, to: &str, what: &str, plain: &str) {
    let text = format!("# [0] -> s; }}\n\n  {}{W}", shown(&bytes("echo.dot")));
    wrong(&text, from, to, what, plain);
}

#[test]
fn a_refused_drawing_is_marked_in_the_text() {
    let what = "\
refused 60 at byte 37: the text is no drawing; up to there it could be one
line 4, column 9:
T=1; k=03;
        ^
";
    wrong_drawing("k=3", "k=03", what, "result 60 37 0\n");
    let what = "\
refused 60 at byte 24: the text is no drawing; up to there it could be one
line 3, column 10:
  digraphs t {
         ^
";
    wrong_drawing("digraph ", "digraphs ", what, "result 60 24 0\n");
    // Without its closing brace it goes on.
    let what = "\
refused 60 at byte 296: the text is no drawing; up to there it could be one
line 17, column 1:
n 4 t 1 f 1 form message
^
";
    wrong_drawing(";\n}\n", ";\n\n", what, "result 60 296 0\n");
    let cut = shown(&bytes("echo.dot"))[..100].to_string() + "\n";
    let what = "\
refused 60 at byte 101: the text is no drawing; up to there it could be one
line 8, column 1, where the text ends:

^
";
    told(cut.as_bytes(), what, "result 60 101 0\n");
    // Comments are the text's, not the drawing's.
    let what = "\
refused 60 at byte 29: the text is no drawing; up to there it could be one
line 3, column 15:
  digraph t { # ours
              ^
";
    wrong_drawing("{\n", "{ # ours\n", what, "result 60 29 0\n");
}

#[test]
fn a_table_that_a_drawing_may_not_show_is_refused_as_undraw_does() {
    let what = "\
refused 4 at state 1: the state has a flag above bit 1, a sent bit for no type, or is initial and has already sent
line 6, column 1:
s1 [label=\"1 1\"];
^
";
    wrong_drawing("s1 [label=\"1 0\"]", "s1 [label=\"1 1\"]", what, "result 4 1 0\n");
    let what = "\
refused 6 at rule 2: the rule's from or to is no state
line 12, column 3:
  s0 -> s4 [label=\"1 -1 0\"];
  ^
";
    wrong_drawing("s0 -> s3", "\n\t s0 -> s4", what, "result 6 2 0\n");
    let what = "\
refused 7 at rule 4: the rule forgets a sent type
line 13, column 1:
s2 -> s0 [label=\"0 0 0\"];
^
";
    wrong_drawing("s2 -> s2", "s2 -> s0", what, "result 7 4 0\n");
    let (initial, not) = ("s0 [label=\"1 0\"];\ns1 [label=\"1 0\"]", "s0 [label=\"0 0\"];\ns1 [label=\"0 0\"]");
    wrong_drawing(initial, not, "refused 5: no state is initial\n", "result 5 0 0\n");
    let what =
        "refused 2: a count of the table (1 to 16 states, 1 to 64 rules, 1 to 4 types) or k (1 to 8) is out of range\n";
    wrong_drawing("k=3", "k=9", what, "result 2 0 0\n");
    let two = "digraph t {T=2;k=1; s0 [label=\"1 0\"]; s1 [label=\"0 3\"];\ns0 -> s1 [label=\"0 0 0, 0 0 0\"]; }\n";
    let what = "\
refused 8 at rule 0: the rule sends two new types
line 2, column 1:
s0 -> s1 [label=\"0 0 0, 0 0 0\"]; }
^
";
    told((two.to_string() + W).as_bytes(), what, "result 8 0 0\n");
    let divided =
        "digraph t {T=17;k=1; s0 [label=\"1 0\"];\ns0 -> s0 [label=\"0 0 0 8\"];\ns0 -> s0 [label=\"0 0 0 9\"]; }\n";
    let what = "\
refused 9 at rule 1: the rule has a divisor that is not 1 to 8
line 3, column 1:
s0 -> s0 [label=\"0 0 0 9\"]; }
^
";
    told((divided.to_string() + W).as_bytes(), what, "result 9 1 0\n");
}

#[test]
fn after_a_drawing_a_line_begins() {
    let what = "line 16, column 3: the line's end was expected\n} n 4 t 1 f 1 form message\n  ^\n";
    wrong_drawing("}\nn", "} n", what, "mistake 16 3\n");
    let what = "line 17, column 1: 'n' was expected\ndigraph t {\n^\n";
    wrong_drawing("}\nn", "}\ndigraph t {\nn", what, "mistake 17 1\n");
    let text = format!("{}{W}", shown(&bytes("echo.dot"))).replace("}\n", "}# the echo table\n\n");
    assert_eq!(packed(&text), [bytes("echo.table"), bytes("w.bundle")].concat());
}

#[test]
fn what_reading_refuses_is_not_packed() {
    let what = "\
refused 12: n, t, f are not admitted (n in 1 to 64, n > k·t, f ≤ t), or the form is over 2
line 1, column 1:
n 3 t 1 f 1 form message
^
";
    wrong(W, "n 4", "n 3", what, "result 12 0 0\n");
    for sizes in ["n 0 t 0 f 0", "n 65 t 1 f 1", "n 4 t 1 f 2", "n 255 t 255 f 255"] {
        wrong(W, "n 4 t 1 f 1", sizes, &what.replace("n 3 t 1 f 1", sizes), "result 12 0 0\n");
    }
    let what = "\
refused 13: the step distance is no multiple of 4 or over 16,384, or the second distance is not that plus n - f
line 2, column 1: 2 starts for n - f = 3 boards
start 1 1
^
";
    wrong(W, "start 1 1 1", "start 1 1", what, "result 13 0 0\n");
    let none = what.replace("start 1 1", "start").replace("2 starts", "0 starts");
    wrong(W, "start 1 1 1", "start", &none, "result 13 0 0\n");
    let what = "\
refused 14 at board 2: the board's start is not an initial state
line 2, column 12:
start 1 0\t 2  # SE
           ^
";
    wrong(W, "start 1 1 1", "start 1 0\t 2  # SE", &what.replace('\t', " "), "result 14 2 0\n");
    wrong(
        W,
        "start 1 1 1",
        "start 1 1 255",
        "\
refused 14 at board 2: the board's start is not an initial state
line 2, column 11:
start 1 1 255
          ^
",
        "result 14 2 0\n",
    );
}

#[test]
fn a_refused_step_is_packed() {
    let twice = W.replace("from 1", "from 0");
    assert_eq!(packed(&twice), bytes("w-echo-twice.bundle"));
    let wild = W.replace("board 0 rule 3", "board 200 rule 201 type 202 from 203");
    assert_eq!(unpacked(&packed(&wild)), wild);
}

#[test]
fn both_read_beside_the_standing_table() {
    let room = room("texts-standing");
    let (none, other) = (room.join("none.table"), room.join("other.table"));
    fs::write(&none, b"").expect("a file");
    // States 0 and 1 in each other's place: state 2 is initial, 1 is not.
    let mut table = bytes("echo.table");
    table[..8].copy_from_slice(&[1, 0, 0, 0, 0, 1, 2, 1]);
    fs::write(&other, table).expect("a file");
    let beside = |command, table: &Path, input: &[u8]| {
        given(&[command, "-", "--standing", table.to_str().expect("a name")], input)
    };
    for (command, input) in [("unpack", bytes("w.bundle")), ("pack", W.as_bytes().to_vec())] {
        let got = beside(command, &none, &input);
        let told = "refused 1: the table part is under 8 bytes\n\
                    that is the standing table, since the bundle has none of its own\n";
        assert_eq!((got.status.code(), shown(&got.stdout), shown(&got.stderr)), (Some(1), "", told), "{command}");
        let got = beside(command, &other, &input);
        assert_eq!((got.status.code(), shown(&got.stdout)), (Some(1), ""), "{command}");
        assert!(shown(&got.stderr).starts_with("refused 14 at board 0: "), "{command}: {}", shown(&got.stderr));
        // The echo table, named.
        assert_eq!(beside(command, &example("echo.table"), &input).status.code(), Some(0), "{command}");
    }
    // A table of its own is read instead.
    let own = [bytes("echo.table"), bytes("w.bundle")].concat();
    assert_eq!(beside("pack", &none, &beside("unpack", &none, &own).stdout).stdout, own);
}

#[test]
fn what_reading_refuses_is_not_unpacked() {
    let got = given(&["unpack", "-"], b"");
    let told = "refused 10: the bundle is under 8 bytes\n";
    assert_eq!((got.status.code(), shown(&got.stdout), shown(&got.stderr)), (Some(1), "", told));
    let got = given(&["unpack", "-", "--plain"], &bytes("w.bundle")[1..]);
    assert_eq!((got.status.code(), shown(&got.stdout), shown(&got.stderr)), (Some(1), "", "result 11 0 0\n"));
    // A text that was not packed yet.
    assert_eq!(given(&["unpack", "-"], W.as_bytes()).status.code(), Some(1));
}

#[test]
fn wrong_words_are_told() {
    let mistakes: [(&[&str], &str); 6] = [
        (&["pack"], "which text? Name a file, or '-' for standard input"),
        (&["unpack"], "which bundle? Name a file, or '-' for standard input"),
        (&["pack", "a", "b"], "one text at a time: 'b' is one word too many"),
        (&["pack", "-", "--standing", "-"], "only one of text and standing table can come from standard input"),
        (&["unpack", "-", "--standing", "-"], "only one of bundle and standing table can come from standard input"),
        (&["unpakc", "-"], "draw, undraw, unpack, pack"),
    ];
    for (words, what) in mistakes {
        let got = given(words, b"");
        assert_eq!((got.status.code(), shown(&got.stdout)), (Some(2), ""));
        assert!(shown(&got.stderr).contains(what), "{}", shown(&got.stderr));
    }
    let got = given(&["pack", "-"], "#".repeat((1 << 20) + 1).as_bytes());
    let most = "a text without comments and blanks of its own has at most 174449";
    let what = format!("macaroosh: standard input is over 1048576 bytes; {most}\n");
    assert_eq!((got.status.code(), shown(&got.stderr)), (Some(2), &*what));
    let help = given(&["--help"], b"").stdout;
    assert!(["  macaroosh unpack FILE ", "  macaroosh pack TEXT "].iter().all(|line| shown(&help).contains(line)));
}

// The text with some bytes changed, put in, left out, or cut at its end.
fn damaged(dice: &mut Dice, mut text: Vec<u8>) -> Vec<u8> {
    const KNOWN: &[u8] = b"0123456789 \t\n\r#{}[]-nftbrm\xc3\xff";
    for _ in 0..dice.between(1, 2) {
        let at = dice.below(text.len() + 1);
        let byte = if dice.once_in(3) { dice.below(256) as u8 } else { dice.one_of(KNOWN) };
        let range = at..text.len().min(at + dice.between(1, 40));
        match dice.below(8) {
            // Another digit, which may give another bundle.
            0 => {
                if let Some(digit) = text[at..].iter_mut().find(|byte| byte.is_ascii_digit()) {
                    *digit = dice.one_of(b"0123");
                }
            }
            1 => text.splice(at..text.len().min(at + 1), [byte]).for_each(drop),
            2 => text.get_mut(at).map_or((), |byte| *byte ^= 1 << dice.below(8)),
            3 => text.insert(at, byte),
            4 => text.drain(range).for_each(drop),
            5 => {
                let again = text[range].to_vec();
                text.splice(at..at, again).for_each(drop);
            }
            6 => text.splice(at..at, random_line(dice)).for_each(drop),
            _ => text.truncate(at),
        }
    }
    text
}

// Words of texts in any order.
fn random_line(dice: &mut Dice) -> Vec<u8> {
    const WORDS: [&str; 24] = [
        "board", "rule", "type", "from", "start", "n", "t", "f", "form", "message", "counting", "plain", "correct",
        "faulty", "digraph", "}", "#", "0", "1", "3", "255", "256", "00", "\u{e9}",
    ];
    let words: Vec<&str> = (0..dice.below(9)).map(|_| WORDS[dice.below(WORDS.len())]).collect();
    let end = if dice.once_in(8) { "" } else { "\n" };
    (words.join(" ") + end).into_bytes()
}

#[test]
fn no_text_makes_it_stumble() {
    let statuses = each_seed(part_of(1_000).max(160), |seed| {
        let dice = &mut Dice::new(seed);
        let text = if dice.once_in(5) {
            (0..dice.below(12)).flat_map(|_| random_line(dice)).collect()
        } else {
            let sound = unpacked(&bundle(dice)).into_bytes();
            damaged(dice, sound)
        };
        let got = given(&["pack", "-"], &text);
        let (status, told) = (got.status.code(), shown(&got.stderr));
        match status {
            Some(0) => assert_eq!(packed(&unpacked(&got.stdout)), got.stdout, "seed {seed}"),
            Some(1) => {
                assert!(got.stdout.is_empty() && (told.starts_with("line ") || told.starts_with("refused ")), "{told}");
                let plain = given(&["pack", "-", "--plain"], &text);
                assert_eq!(plain.status.code(), status, "seed {seed}");
                let numbers = shown(&plain.stderr);
                let kind = if told.starts_with("line ") { "mistake " } else { "result " };
                assert!(numbers.starts_with(kind) && numbers.lines().count() == 1, "seed {seed}: {numbers}");
            }
            _ => panic!("seed {seed}: {told}"),
        }
        status
    });
    let of = |status| statuses.iter().filter(|&&one| one == Some(status)).count() as u64;
    assert!(of(0) >= part_of(30) && of(1) >= part_of(500), "{} answered, {} refused", of(0), of(1));
}
