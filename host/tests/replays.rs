//! Service logs at the command line: `replay` shows what `run` and `trace` show of the bundle that it makes, marks the first wrong
//! byte of a line, and follows a log that is still being written; `log` writes what `replay` reads back to the same bytes.

mod start;

use judge::dice::{each_seed, part_of, Dice};
use judge::logs::{can_be_said, log_of};
use judge::makers::bundles::{bundle, closed, without_steps};
use judge::makers::logs::any;
use macaroosh::calls::{replay, Step};
use macaroosh::parts::Parts;
use macaroosh::{translate, Form, ECHO, MOST_BYTES, MOST_WORDS};
use start::{given, program};
use std::fs;
use std::io::{BufRead, BufReader, Read, Write};
use std::path::{Path, PathBuf};
use std::process::{Child, ChildStdin, ChildStdout, Output, Stdio};
use std::thread::sleep;
use std::time::Duration;

const STYLES: [&[&str]; 3] = [&[], &["--plain"], &["--json"]];

fn example(name: &str) -> PathBuf {
    Path::new(env!("CARGO_MANIFEST_DIR")).join("../examples").join(name)
}

fn bytes(name: &str) -> Vec<u8> {
    fs::read(example(name)).expect("an example")
}

fn name(path: &Path) -> &str {
    path.to_str().expect("a name")
}

fn text(bytes: &[u8]) -> &str {
    std::str::from_utf8(bytes).expect("text")
}

// An empty folder for a test.
fn room(name: &str) -> PathBuf {
    let room = Path::new(env!("CARGO_TARGET_TMPDIR")).join("replays").join(name);
    let _ = fs::remove_dir_all(&room);
    fs::create_dir_all(&room).expect("a folder");
    room
}

// What the replay of a log over W without its steps says.
fn replayed(words: &[&str], log: &[u8]) -> Output {
    let empty = example("w-empty.bundle");
    given(&[&["replay", name(&empty), "-"], words].concat(), log)
}

#[track_caller]
fn is(got: &Output, status: i32, output: &str, told: &str) {
    assert_eq!((got.status.code(), text(&got.stdout), text(&got.stderr)), (Some(status), output, told));
}

const W: &str = "\
board 0 rule 3
board 1 rule 3
board 2 rule 3 type 0 from 0
board 2 rule 4 type 0 from 3
board 2 rule 5 type 0 from 1
";

const TWICE: &str = "\
refused 24 at step 4: the message is not in transit
that step is board 2, rule 5, type 0, source 0
board 2 has heard type 0 from board 0 already, in step 2
step 4 is line 5 of the log, as an editor counts from 1
";

#[test]
fn the_examples_are_what_they_are_said_to_be() {
    assert_eq!(bytes("w-empty.bundle"), without_steps(&bytes("w.bundle")));
    assert_eq!(given(&["pack", "-"], b"n 4 t 1 f 1 form message\nstart 1 1 1\n").stdout, bytes("w-empty.bundle"));
    assert_eq!(text(&bytes("w.log")), W);
    assert_eq!(text(&bytes("echo-twice.log")), W.replace("from 1", "from 0"));
    assert_eq!(text(&bytes("crlf.log")), W.replace('\n', "\r\n"));
}

#[test]
fn a_replay_shows_what_run_shows() {
    for (log, made, status, told) in [("w.log", "w.bundle", 0, ""), ("echo-twice.log", "w-echo-twice.bundle", 1, TWICE)]
    {
        for (command, rows) in [("run", &[][..]), ("trace", &["--trace"])] {
            for style in &STYLES[..2] {
                let (run, got) = (
                    given(&[&[command, "-"], *style].concat(), &bytes(made)),
                    replayed(&[rows, *style].concat(), &bytes(log)),
                );
                is(&got, status, text(&run.stdout), if style.is_empty() { told } else { "" });
            }
        }
    }
    // As JSON too; the lines that explain a refusal are those that people are told.
    for (command, rows) in [("run", &[][..]), ("trace", &["--trace"])] {
        let of = |log: &str| text(&replayed(&[rows, &["--json"]].concat(), &bytes(log)).stdout).to_string();
        let by = |made: &str| text(&given(&[command, "-", "--json"], &bytes(made)).stdout).to_string();
        assert_eq!(of("w.log"), by("w.bundle"));
        let more = "in step 2\",\"step 4 is line 5 of the log, as an editor counts from 1\"]";
        assert_eq!(of("echo-twice.log"), by("w-echo-twice.bundle").replace("in step 2\"]", more));
    }
    // No lines leave the starts.
    is(&replayed(&["--plain"], b""), 0, "result 0 0 0\np 0 1 0 0\np 1 1 0 0\np 2 1 0 0\nsent 0\nstopped 0\n", "");
}

#[test]
fn any_input_may_come_from_standard_input() {
    let (empty, log, echo) = (example("w-empty.bundle"), example("w.log"), example("echo.table"));
    let shown = text(&given(&["run", "-", "--plain"], &bytes("w.bundle")).stdout).to_string();
    let words = [
        (vec!["replay", "--plain", "-", name(&log)], "w-empty.bundle"),
        (vec!["replay", "--plain", name(&empty), "-"], "w.log"),
        (vec!["replay", "--plain", name(&empty), name(&log), "--standing", "-"], "echo.table"),
        (vec!["--plain", "replay", name(&empty), "--standing", name(&echo), "-"], "w.log"),
    ];
    for (words, input) in words {
        is(&given(&words, &bytes(input)), 0, &shown, "");
    }
    // Another standing table is another answer.
    let asks_t = example("asks-t.table");
    let nobody = closed(&[0, 0, 0], &[], 3, [4, 1, 1, 0]);
    let path = room("standing").join("nobody.bundle");
    fs::write(&path, nobody).expect("a file");
    let log = b"board 0 rule 1 type 0 from 3\n";
    let got = given(&["replay", name(&path), "-"], log);
    assert!(text(&got.stderr).starts_with("refused 25 at step 0: "), "{}", text(&got.stderr));
    assert_eq!(given(&["replay", name(&path), "-", "--standing", name(&asks_t)], log).status.code(), Some(0));
}

#[test]
fn the_bundle_is_kept_also_where_a_step_is_refused() {
    let room = room("kept");
    let out = room.join("out");
    let wrote = format!("wrote 31 bytes to {}: a bundle in message form with 5 steps\n", out.display());
    for (log, made, status, told) in [("w.log", "w.bundle", 0, ""), ("echo-twice.log", "w-echo-twice.bundle", 1, TWICE)]
    {
        for rows in [&[][..], &["--trace"], &["--follow"]] {
            let _ = fs::remove_file(&out);
            let shown = text(&replayed(rows, &bytes(log)).stdout).to_string();
            is(
                &replayed(&[rows, &["-o", name(&out)]].concat(), &bytes(log)),
                status,
                &shown,
                &format!("{told}{wrote}"),
            );
            assert_eq!(fs::read(&out).expect("the bundle"), bytes(made), "{log} {rows:?}");
        }
        let _ = fs::remove_file(&out);
        let got = replayed(&["--plain", "-o", name(&out)], &bytes(log));
        assert_eq!((got.status.code(), text(&got.stderr)), (Some(status), ""));
        assert_eq!(fs::read(&out).expect("the bundle"), bytes(made), "{log}");
    }
    assert_eq!(fs::read_dir(&room).expect("the folder").count(), 1);
}

#[test]
fn any_other_refusal_writes_no_file() {
    let out = room("not-kept").join("out");
    let many = format!("board 0 rule 3\n{}", "board 0 rule 4\n".repeat(4_096));
    let (w, empty) = (example("w.bundle"), example("w-empty.bundle"));
    for rows in [&[][..], &["--trace"], &["--follow"], &["--plain"]] {
        let refused = |bundle: &Path, log: &[u8], number: u8| {
            let got = given(&[&["replay", name(bundle), "-", "-o", name(&out)], rows].concat(), log);
            assert_eq!(got.status.code(), Some(1), "{number} {rows:?}");
            let says = [text(&got.stdout), text(&got.stderr)].concat();
            assert!(
                says.contains(&format!("refused {number}")) || says.contains(&format!("result {number} ")),
                "{says}"
            );
        };
        let all = |there: bool| {
            refused(&w, W.as_bytes(), 52);
            refused(&empty, b"board 0\n", 50);
            refused(&empty, many.as_bytes(), 51);
            refused(Path::new("/dev/null"), W.as_bytes(), 10);
            assert_eq!(out.exists(), there);
        };
        all(false);
        fs::write(&out, "as it was").expect("a file");
        all(true);
        assert_eq!(fs::read(&out).expect("the file"), b"as it was");
        fs::remove_file(&out).expect("removed");
    }
    // What can't be written is told, and nothing is shown.
    let got = replayed(&["-o", name(&out.join("nothing"))], W.as_bytes());
    assert_eq!((got.status.code(), text(&got.stdout)), (Some(2), ""));
    assert!(text(&got.stderr).contains("cannot write"), "{}", text(&got.stderr));
}

// A log with a wrong line, where and why it is wrong, and what is shown; columns count from 1.
#[track_caller]
fn marked(log: &str, (line, column): (usize, usize), wrong: &str, shown: &str) {
    let told = format!(
        "refused 50 at line {}: the line has another shape, or a number over 254\n\
         line {line}, column {column}, as an editor counts from 1: {wrong}\n{shown}\n{}^\n",
        line - 1,
        " ".repeat(column - 1)
    );
    is(&replayed(&[], log.as_bytes()), 1, "", &told);
    is(&replayed(&["--trace"], log.as_bytes()), 1, "", &told);
    is(&replayed(&["--plain"], log.as_bytes()), 1, &format!("result 50 {} 0\n", line - 1), "");
    let got = replayed(&["--follow"], log.as_bytes());
    assert_eq!((got.status.code(), text(&got.stderr)), (Some(1), &*told));
}

#[test]
fn a_line_of_another_shape_is_marked_at_its_first_wrong_byte() {
    let mistake = |from: &str, to: &str, place: (usize, usize), wrong: &str| {
        assert!(W.contains(from), "{from}");
        let log = W.replacen(from, to, 1);
        marked(&log, place, wrong, log.lines().nth(place.0 - 1).expect("a line").trim_end());
    };
    mistake("board 1 rule 3", "board 01 rule 3", (2, 8), "a number has no leading zeros");
    mistake("rule 4 type 0", "rule 4 type 00", (4, 22), "a number has no leading zeros");
    mistake("board 1", "board 255", (2, 9), "a number is at most 254");
    mistake("from 3", "from 2540", (4, 31), "a number is at most 254");
    mistake("from 3", "from 1000", (4, 31), "a number is at most 254");
    mistake("from 3", "from 300", (4, 30), "a number is at most 254");
    mistake("board 1", "board  1", (2, 7), "a number was expected, 0 to 254");
    mistake("1 rule", "1  rule", (2, 9), "'rule' was expected");
    mistake("board 1 rule", "board 1", (2, 9), "'rule' was expected");
    mistake("type 0 from 0", "type 0", (3, 22), "a blank and 'from' was expected");
    mistake("rule 3 type 0 from 0", "rule 3 from 0", (3, 16), "'type' was expected");
    mistake("rule 3 type 0 from 0", "rule", (3, 13), "a blank was expected after 'rule'");
    mistake("board 2 rule 5", "Board 2 rule 5", (5, 1), "'board' was expected");
    mistake("board 2 rule 5", " board 2 rule 5", (5, 1), "'board' was expected");
    mistake("board 1 rule 3\n", "board 1 rule 3 \n", (2, 16), "'type' was expected");
    mistake("from 3\n", "from 3 \n", (4, 29), "the line's end was expected");
    mistake("board 1 rule 3\n", "board 1 rule 3\t\n", (2, 15), "a blank and 'type', or the line's end, was expected");
    mistake("board 1", "board -1", (2, 7), "a number was expected, 0 to 254");
    marked(&W.replace("board 1", "\nboard 1"), (2, 1), "the line is empty", "");
    marked("\n", (1, 1), "the line is empty", "");
    marked(&format!("{W}\n"), (6, 1), "the line is empty", "");
}

#[test]
fn a_carriage_return_and_a_missing_line_feed_are_told() {
    let both = "the line ends with a carriage return and a line feed; lines end with a line feed alone";
    marked(text(&bytes("crlf.log")), (1, 15), both, "board 0 rule 3");
    marked(&W.replace("from 3\n", "from 3\r\n"), (4, 29), both, "board 2 rule 4 type 0 from 3");
    marked(
        "board 0\r rule 3\n",
        (1, 8),
        "there is a carriage return; lines end with a line feed alone",
        "board 0  rule 3",
    );
    marked(
        "board 0 rule 3\r",
        (1, 15),
        "there is a carriage return; lines end with a line feed alone",
        "board 0 rule 3",
    );
    let cut = "the log ends here without a line feed, and every line ends with one";
    marked(&W[..W.len() - 1], (5, 29), cut, "board 2 rule 5 type 0 from 1");
    marked(&W[..W.len() - 2], (5, 28), cut, "board 2 rule 5 type 0 from");
    marked(&W[..W.len() - 20], (5, 10), cut, "board 2 r");
    // What is wrong before the end comes first.
    marked("board 0 rule x", (1, 14), "a number was expected, 0 to 254", "board 0 rule x");
}

#[test]
fn bytes_that_act_on_a_terminal_are_not_shown() {
    let log = b"board 0 \x1b[31m\xff\x00\x07rule 3\n";
    let told = "\
refused 50 at line 0: the line has another shape, or a number over 254
line 1, column 9, as an editor counts from 1: 'rule' was expected
board 0 ?[31m???rule 3
        ^
";
    is(&replayed(&[], log), 1, "", told);
    let long = format!("board 0 rule 3{}\n", " ".repeat(100_000));
    let got = replayed(&[], long.as_bytes());
    assert!(got.stderr.len() < 400 && text(&got.stderr).contains("line 1, column 16,"), "{}", text(&got.stderr));
    // A file that is something else.
    let got = replayed(&[], &bytes("w.bundle"));
    assert!(text(&got.stderr).ends_with("\nthis is a bundle; see run\n"), "{}", text(&got.stderr));
    let (empty, log) = (example("w-empty.bundle"), example("w.log"));
    let got = given(&["replay", name(&log), name(&empty)], b"");
    assert!(text(&got.stderr).ends_with("\nthis is a log; see replay\n"), "{}", text(&got.stderr));
}

#[test]
fn other_refusals_are_told_as_json() {
    let told = "{\"refusal\":50,\"place\":0,\"reason\":\"the line has another shape, or a number over 254\",\
                \"why\":[\"line 1, column 15, as an editor counts from 1: the line ends with a carriage return and a line feed; \
                lines end with a line feed alone\",\"board 0 rule 3\",\"              ^\"],\"accepted\":0";
    is(&replayed(&["--json"], &bytes("crlf.log")), 1, &format!("{told},\"receipts\":0,\"sends\":0}}\n"), "");
    is(&replayed(&["--json", "--trace"], &bytes("crlf.log")), 1, &format!("{told}}}\n"), "");
    let told = "{\"refusal\":52,\"place\":0,\"reason\":\"the bundle has steps, or is not in message form\",\
                \"why\":[\"it has 5 steps\"],\"accepted\":0,\"receipts\":0,\"sends\":0}\n";
    is(&given(&["replay", "--json", "-", name(&example("w.log"))], &bytes("w.bundle")), 1, told, "");
}

// Whether some right line begins with these bytes, by the library alone: what they lack is the end of one of two lines.
fn begins_a_line(piece: &[u8]) -> bool {
    let ends = ["board 0 rule 0\n", "board 0 rule 0 type 0 from 0\n"].map(str::as_bytes);
    let mut rests = ends.iter().flat_map(|line| (0..line.len()).map(move |at| &line[at..]));
    rests.any(|rest| {
        let log = [piece, rest].concat();
        // One line, so that a line feed among the bytes begins no other.
        log.iter().filter(|&&byte| byte == b'\n').count() == 1 && has_right_lines(&log)
    })
}

// Whether the library refuses a log for no line's shape.
fn has_right_lines(log: &[u8]) -> bool {
    replay(&bytes("w-empty.bundle"), &ECHO, log, &mut [0; MOST_BYTES], &mut [0; MOST_WORDS]).refusal != 50
}

#[test]
fn the_mark_is_where_the_library_says_that_no_line_goes_on() {
    let shapes = each_seed(part_of(600).max(300), |seed| {
        let log = any(&mut Dice::new(seed)).log;
        // The later seeds are there for columns that are rare.
        if seed > part_of(600) && has_right_lines(&log) {
            return None;
        }
        let got = replayed(&[], &log);
        let said = String::from_utf8_lossy(&got.stderr).into_owned();
        if !said.starts_with("refused 50 ") {
            return None;
        }
        let numbers: Vec<usize> = said.split(|c: char| !c.is_ascii_digit()).filter_map(|n| n.parse().ok()).collect();
        let (place, line, column) = (numbers[1], numbers[3], numbers[4]);
        assert_eq!(line, place + 1, "seed {seed}");
        let from: usize = log.split_inclusive(|&byte| byte == b'\n').take(place).map(<[u8]>::len).sum();
        let rest = &log[from..];
        let right = &rest[..column - 1];
        assert!(begins_a_line(right), "seed {seed}: {said}");
        // The byte after it, which may be the line feed; at the log's end there is none.
        match rest.get(column - 1) {
            Some(b'\n') => assert!(!begins_a_line(&[right, b"\n"].concat()) && !whole(right), "seed {seed}: {said}"),
            Some(&byte) => assert!(!begins_a_line(&[right, &[byte]].concat()), "seed {seed}: {said}"),
            None => assert!(said.contains("the log ends here"), "seed {seed}: {said}"),
        }
        let mark = said.lines().nth(3).expect("a mark");
        assert_eq!(mark, " ".repeat(column - 1) + "^", "seed {seed}: {said}");
        Some(column.min(30))
    });
    let mut columns: Vec<usize> = shapes.into_iter().flatten().collect();
    columns.sort_unstable();
    columns.dedup();
    assert!(columns.len() >= 20, "{columns:?}");
}

// Whether the library takes these bytes and a line feed for a line.
fn whole(line: &[u8]) -> bool {
    has_right_lines(&[line, b"\n"].concat())
}

#[test]
fn too_many_lines_and_another_bundle_are_told_with_figures() {
    let many = "board 0 rule 0\n".repeat(4_099) + "nonsense";
    let told = "\
refused 51 at line 4096: the log has more lines than a schedule has steps, 4,096
4100 lines came in; the first too many is line 4097, as an editor counts from 1
";
    is(&replayed(&[], many.as_bytes()), 1, "", told);
    is(&replayed(&["--plain"], many.as_bytes()), 1, "result 51 4096 0\n", "");
    let most = format!("board 0 rule 3\n{}", "board 0 rule 4\n".repeat(4_095));
    assert!(text(&replayed(&["--plain"], most.as_bytes()).stdout).starts_with("result 0 0 4096\n"));
    let other = |bundle: &[u8], figures: &str| {
        let path = room("another-bundle").join("bundle");
        fs::write(&path, bundle).expect("a file");
        let told = format!("refused 52: the bundle has steps, or is not in message form\n{figures}\n");
        // Before any line is looked at.
        for log in [W.as_bytes(), b"nonsense", b""] {
            is(&given(&["replay", name(&path), "-"], log), 1, "", &told);
        }
    };
    other(&bytes("w.bundle"), "it has 5 steps");
    other(&bytes("one-echo.bundle"), "it has 1 step");
    other(&bytes("w-counting.bundle"), "it is in counting form and has 5 steps");
    other(&closed(&[1], &[], 1, [1, 0, 0, 2]), "it is in plain form");
    // A refusal of reading is told as of a run.
    let got = given(&["replay", "/dev/null", "-"], W.as_bytes());
    is(&got, 1, "", "refused 10: the bundle is under 8 bytes\n");
}

// The log of a bundle by the program, and the bundle that its replay makes over its message form without steps.
fn there_and_back(room: &Path, bundle: &[u8], messages: &[u8]) -> (String, Vec<u8>) {
    let [log, empty, out] = ["log", "empty", "out"].map(|name| room.join(name));
    let got = given(&["log", "-", "-o", name(&log)], bundle);
    assert_eq!((got.status.code(), text(&got.stdout)), (Some(0), ""), "{}", text(&got.stderr));
    fs::write(&empty, without_steps(messages)).expect("a file");
    let _ = fs::remove_file(&out);
    let got = given(&["replay", name(&empty), name(&log), "-o", name(&out)], b"");
    assert!(matches!(got.status.code(), Some(0 | 1)), "{}", text(&got.stderr));
    let read = |path: &Path| fs::read(path).expect("what was written");
    (text(&read(&log)).to_string(), read(&out))
}

fn in_message_form(bundle: &[u8]) -> Option<Vec<u8>> {
    match Form::of_bundle(bundle) {
        Some(Form::Message) => Some(bundle.to_vec()),
        _ => translate(bundle, &ECHO, Form::Message).ok(),
    }
}

#[test]
fn the_log_of_each_example_replays_to_the_same_bytes() {
    let room = room("examples");
    let all = fs::read_dir(example("")).expect("a folder").map(|entry| entry.expect("a file").path());
    let bundles: Vec<PathBuf> = all.filter(|path| path.extension().map_or(false, |e| e == "bundle")).collect();
    assert!(bundles.len() >= 8, "{bundles:?}");
    for path in bundles {
        let bundle = fs::read(&path).expect("an example");
        let messages = in_message_form(&bundle).expect("its translation");
        let (log, made) = there_and_back(&room, &bundle, &messages);
        assert_eq!(made, messages, "{}", path.display());
        assert_eq!(log, log_of(&steps(&messages)), "{}", path.display());
    }
}

#[test]
fn the_log_of_any_bundle_replays_to_the_same_bytes() {
    let room = room("seeds");
    let kinds = each_seed(part_of(300), |seed| {
        let bundle = bundle(&mut Dice::new(seed));
        let form = Form::of_bundle(&bundle).expect("a form");
        let room = room.join(seed.to_string());
        fs::create_dir_all(&room).expect("a folder");
        match in_message_form(&bundle) {
            Some(messages) if steps(&messages).iter().all(|step| can_be_said(*step)) => {
                let (log, made) = there_and_back(&room, &bundle, &messages);
                assert_eq!(made, messages, "seed {seed}");
                assert_eq!(log, log_of(&steps(&messages)), "seed {seed}");
                traces_alike(&room, &messages, &log);
                Some(form)
            }
            Some(messages) => {
                let got = given(&["log", "-", "--plain"], &bundle);
                let first = steps(&messages).iter().position(|step| !can_be_said(*step)).expect("a step");
                is(&got, 1, "", &format!("unsaid {first}\n"));
                None
            }
            // As running refuses it.
            None => {
                let (log, run) = (given(&["log", "-"], &bundle), given(&["run", "-"], &bundle));
                is(&log, 1, "", text(&run.stderr));
                None
            }
        }
    });
    for form in Form::ALL {
        assert!(kinds.iter().flatten().filter(|&&kind| kind == form).count() as u64 >= part_of(30), "{}", form.name());
    }
}

fn steps(bundle: &[u8]) -> Vec<Step> {
    Parts::of(bundle, &ECHO).expect("its parts").steps().collect()
}

// That what is shown of each line is what `trace` shows of the bundle that is made; for programs line by line as it comes too.
fn traces_alike(room: &Path, made: &[u8], log: &str) {
    let empty = room.join("empty");
    let replay = |words: &[&str]| given(&[&["replay", name(&empty), "-"], words].concat(), log.as_bytes());
    let [people, whole] = [STYLES[0], STYLES[1]].map(|style| {
        let (trace, got) = (given(&[&["trace", "-"], style].concat(), made), replay(&[&["--trace"], style].concat()));
        assert_eq!((got.status, text(&got.stdout)), (trace.status, text(&trace.stdout)));
        got
    });
    let come = replay(&["--follow", "--plain"]);
    let (result, rows) = text(&whole.stdout).split_once('\n').expect("a line");
    assert_eq!((come.status, text(&come.stdout)), (whole.status, &*format!("{rows}{result}\n")));
    // For people the columns may be wider, and the sign is told before it is known whether it comes.
    let words = |output: &Output| {
        let lines = text(&output.stdout).lines().map(|line| line.split_whitespace().collect::<Vec<_>>().join(" "));
        (lines.filter(|line| !line.starts_with("^ ")).collect::<Vec<String>>(), text(&output.stderr).to_string())
    };
    assert_eq!(words(&replay(&["--follow"])), words(&people));
}

#[test]
fn the_log_of_another_form_is_that_of_its_translation() {
    let wrote = "wrote 117 bytes: the log of a bundle, 5 lines\n";
    for (bundle, log) in [
        ("w.bundle", W.to_string()),
        ("w-counting.bundle", W.to_string()),
        ("w-plain.bundle", W.replace("from 1", "from 2").replace("from 3", "from 1")),
    ] {
        is(&given(&["log", "-"], &bytes(bundle)), 0, &log, wrote);
        is(&given(&["log", "-", "--plain"], &bytes(bundle)), 0, &log, "result 0 0 117\n");
    }
    // A message bundle that does not run has a log; of another form the translation is refused.
    is(&given(&["log", "-"], &bytes("w-echo-twice.bundle")), 0, &W.replace("from 1", "from 0"), wrote);
    let mut counting = bytes("w-counting.bundle");
    counting[4] = 9;
    let told = "\
refused 21 at step 0: the rule is not in the table
that step is board 0, rule 9, no message
the table has 7 rules
";
    is(&given(&["log", "-"], &counting), 1, "", told);
    is(&given(&["log", "-", "--plain"], &counting), 1, "", "result 21 0 0\n");
    is(&given(&["log", "-"], b""), 1, "", "refused 10: the bundle is under 8 bytes\n");
    // Beside another standing table.
    let asks_t = example("asks-t.table");
    let beside = ["--standing", name(&asks_t)];
    let counting = given(&[&["translate", "-"], &beside[..]].concat(), &bytes("one-echo.bundle")).stdout;
    assert_eq!(
        text(&given(&[&["log", "-"], &beside[..]].concat(), &counting).stdout),
        "board 0 rule 1 type 0 from 3\n"
    );
    assert!(text(&given(&["log", "-"], &counting).stderr).starts_with("refused 25 at step 0: "));
    // An empty log is a log, and replaces an old one.
    is(&given(&["log", "-"], &bytes("w-empty.bundle")), 0, "", "wrote 0 bytes: the log of a bundle, 0 lines\n");
    let out = room("empty-log").join("out");
    fs::write(&out, W).expect("a file");
    assert_eq!(given(&["log", "-", "-o", name(&out)], &bytes("w-empty.bundle")).status.code(), Some(0));
    assert_eq!(fs::read(&out).expect("the file"), b"");
}

#[test]
fn a_step_that_no_line_says_is_named_and_nothing_is_written() {
    let out = room("unsaid").join("out");
    let right = [[0, 3, 255, 255], [254, 254, 254, 254]];
    for (record, words) in [
        ([255, 3, 0, 0], "board 255, rule 3, type 0, source 0"),
        ([0, 255, 255, 255], "board 0, rule 255, no message"),
        ([0, 3, 255, 7], "board 0, rule 3, type 255, source 7"),
        ([0, 3, 0, 255], "board 0, rule 3, type 0, source 255"),
    ] {
        let steps = [right[0], right[1], record, [255; 4]].map(Step::of);
        let bundle = closed(&[1], &steps, 1, [1, 0, 0, 0]);
        let told = format!("no line of a log says step 2: {words}\nthe numbers of a line go to 254\n");
        is(&given(&["log", "-", "-o", name(&out)], &bundle), 1, "", &told);
        is(&given(&["log", "-", "--plain", "-o", name(&out)], &bundle), 1, "", "unsaid 2\n");
        assert!(!out.exists());
    }
    let bundle = closed(&[1], &right.map(Step::of), 1, [1, 0, 0, 0]);
    let log = "board 0 rule 3\nboard 254 rule 254 type 254 from 254\n";
    assert_eq!(text(&given(&["log", "-"], &bundle).stdout), log);
}

/// The program, following a log.
struct Following {
    child: Child,
    log: ChildStdin,
    rows: BufReader<ChildStdout>,
}

impl Following {
    fn of(bundle: &str, words: &[&str]) -> Following {
        let mut command = program();
        command.arg("replay").arg(example(bundle)).args(["-", "--follow"]).args(words);
        command.stdin(Stdio::piped()).stdout(Stdio::piped()).stderr(Stdio::piped());
        let mut child = command.spawn().expect("the program starts");
        let log = child.stdin.take().expect("its input");
        let rows = BufReader::new(child.stdout.take().expect("its output"));
        Following { child, log, rows }
    }

    fn send(&mut self, piece: &str) {
        self.log.write_all(piece.as_bytes()).expect("the program reads");
    }

    // So many lines, which are waited for.
    fn rows(&mut self, count: usize) -> String {
        let mut rows = String::new();
        for _ in 0..count {
            assert!(self.rows.read_line(&mut rows).expect("text") > 0, "it has ended after: {rows}");
        }
        rows
    }

    // The rest of its rows, what it tells and its status, while its input stays open.
    fn ends_by_itself(mut self) -> (String, String, Option<i32>) {
        let (mut rows, mut told) = (String::new(), String::new());
        self.rows.read_to_string(&mut rows).expect("text");
        self.child.stderr.take().expect("its words").read_to_string(&mut told).expect("text");
        let status = self.child.wait().expect("its end").code();
        // Only now.
        drop(self.log);
        (rows, told, status)
    }

    // The same, where its input ends.
    fn ends_with_its_input(self) -> (String, String, Option<i32>) {
        let Following { mut child, log, mut rows } = self;
        drop(log);
        let (mut rest, mut told) = (String::new(), String::new());
        rows.read_to_string(&mut rest).expect("text");
        child.stderr.take().expect("its words").read_to_string(&mut told).expect("text");
        (rest, told, child.wait().expect("its end").code())
    }
}

// The lines of W's trace, from one to another.
fn trace_of_w(from: usize, to: usize) -> String {
    let trace = given(&["trace", "-"], &bytes("w.bundle")).stdout;
    text(&trace).split_inclusive('\n').skip(from).take(to - from).collect()
}

#[test]
fn a_row_comes_as_soon_as_its_line_has_come_in() {
    let mut following = Following::of("w-empty.bundle", &[]);
    // What is so before any line.
    assert_eq!(following.rows(2), trace_of_w(0, 2));
    following.send("board 0 ru");
    following.send("le 3\nboard");
    assert_eq!(following.rows(5), trace_of_w(2, 7));
    following.send(" 1 rule 3");
    following.send("\n");
    assert_eq!(following.rows(1), trace_of_w(7, 8));
    // Two lines and a piece of a third in one.
    following.send("board 2 rule 3 type 0 from 0\nboard 2 rule 4 type 0 from 3\nboard 2 rule 5 type 0 fro");
    assert_eq!(following.rows(2), trace_of_w(8, 10));
    following.send("m 1\n");
    assert_eq!(following.rows(1), trace_of_w(10, 11));
    assert_eq!(following.ends_with_its_input(), (String::new(), String::new(), Some(0)));
}

#[test]
fn each_byte_may_come_alone() {
    let mut following = Following::of("w-empty.bundle", &["--plain"]);
    assert_eq!(following.rows(1), "start 1 1 1\n");
    let trace = given(&["trace", "-", "--plain"], &bytes("w.bundle")).stdout;
    let lines: Vec<&str> = text(&trace).split_inclusive('\n').skip(2).collect();
    for (line, rows) in W.split_inclusive('\n').zip(lines.chunks(4)) {
        for at in 0..line.len() {
            following.send(&line[at..=at]);
        }
        assert_eq!(following.rows(4), rows.concat());
    }
    assert_eq!(following.ends_with_its_input(), ("result 0 0 5\n".to_string(), String::new(), Some(0)));
}

#[test]
fn it_ends_at_a_refused_line_while_the_writer_stays_open() {
    let out = room("stays-open").join("out");
    let mut following = Following::of("w-empty.bundle", &["-o", name(&out)]);
    following.send("board 0 rule 3\nboard 1 rule 3\nboard 2 rule 3 type 0 from 0\n");
    assert_eq!(following.rows(9).lines().count(), 9);
    // The line after the refused one is not looked at, though it has come in with it.
    following.send("board 2 rule 4 type 0 from 0\nnonsense\n");
    let (rows, told, status) = following.ends_by_itself();
    let expected = format!(
        "refused 24 at step 3: the message is not in transit\n\
         that step is board 2, rule 4, type 0, source 0\n\
         board 2 has heard type 0 from board 0 already, in step 2\n\
         step 3 is line 4 of the log, as an editor counts from 1\n\
         wrote 27 bytes to {}: a bundle in message form with 4 steps\n",
        out.display()
    );
    assert_eq!((rows, told, status), (String::new(), expected, Some(1)));
    assert_eq!(fs::read(&out).expect("the bundle").len(), 27);
}

#[test]
fn it_ends_at_a_line_of_another_shape_while_the_writer_stays_open() {
    let shape = "refused 50 at line 1: the line has another shape, or a number over 254\n";
    // With its line feed, and as soon as no line can go on so.
    for wrong in ["board 1 rule x\n", "board 1 rule x", "board 1 rule 3\r", "\n", "board 01"] {
        let mut following = Following::of("w-empty.bundle", &[]);
        following.send("board 0 rule 3\n");
        assert_eq!(following.rows(7), trace_of_w(0, 7));
        following.send(wrong);
        let (rows, told, status) = following.ends_by_itself();
        assert_eq!((&*rows, status), ("", Some(1)), "{wrong}");
        assert!(told.starts_with(shape), "{told}");
    }
    let mut following = Following::of("w-empty.bundle", &["--plain"]);
    following.send("board 0 rule 3\nboard 1 rulee");
    let (rows, told, status) = following.ends_by_itself();
    assert!(rows.ends_with("sent 1\nstopped 0\nresult 50 1 0\n"), "{rows}");
    assert_eq!((&*told, status), ("", Some(1)));
}

#[test]
fn a_refused_bundle_is_told_before_any_line() {
    let following = Following::of("w.bundle", &[]);
    let told = "refused 52: the bundle has steps, or is not in message form\nit has 5 steps\n";
    assert_eq!(following.ends_by_itself(), (String::new(), told.to_string(), Some(1)));
    let following = Following::of("echo.table", &["--plain"]);
    assert_eq!(following.ends_by_itself(), ("result 2 0 0\n".to_string(), String::new(), Some(1)));
}

#[test]
fn a_line_too_many_ends_it() {
    let mut following = Following::of("w-empty.bundle", &["--plain"]);
    following.send("board 0 rule 3\n");
    following.rows(5);
    for _ in 1..4_096 {
        following.send("board 0 rule 4\n");
        following.rows(4);
    }
    // Whatever it would be.
    following.send("b");
    assert_eq!(following.ends_by_itself(), ("result 51 4096 0\n".to_string(), String::new(), Some(1)));
}

#[test]
fn at_the_end_of_its_input_a_piece_is_a_line_of_another_shape() {
    let mut following = Following::of("w-empty.bundle", &[]);
    following.send("board 0 rule 3\nboard 1 rule 3");
    assert_eq!(following.rows(7), trace_of_w(0, 7));
    let told = "\
refused 50 at line 1: the line has another shape, or a number over 254
line 2, column 15, as an editor counts from 1: the log ends here without a line feed, and every line ends with one
board 1 rule 3
              ^
";
    assert_eq!(following.ends_with_its_input(), (String::new(), told.to_string(), Some(1)));
    // No lines at all: as a trace of no steps.
    let following = Following::of("w-empty.bundle", &[]);
    let shown = text(&replayed(&["--trace"], b"").stdout).to_string();
    assert_eq!(following.ends_with_its_input(), (shown, String::new(), Some(0)));
}

#[test]
fn a_later_line_may_change_the_answer_of_the_whole_log() {
    let log = W.replace("from 1", "from 0") + "nonsense\n";
    let [come, whole] =
        [&["--follow", "--plain"][..], &["--trace", "--plain"]].map(|words| replayed(words, log.as_bytes()));
    assert!(text(&come.stdout).ends_with("sent 3\nstopped 0\nresult 24 4 4\n"), "{}", text(&come.stdout));
    assert_eq!(text(&whole.stdout), "result 50 5 0\n");
    assert_eq!((come.status.code(), whole.status.code()), (Some(1), Some(1)));
}

// The status with which it ends at the first row that nobody reads; none where it goes on.
fn ended_unread() -> Option<i32> {
    let mut following = Following::of("w-empty.bundle", &[]);
    following.rows(2);
    let Following { mut child, mut log, rows } = following;
    drop(rows);
    log.write_all(b"board 0 rule 3\n").expect("the program reads");
    for _ in 0..500 {
        if let Some(status) = child.try_wait().expect("its end") {
            return status.code();
        }
        sleep(Duration::from_millis(10));
    }
    child.kill().expect("its end");
    child.wait().expect("its end");
    None
}

#[test]
fn a_reader_that_has_seen_enough_ends_it() {
    // A program that another test starts just then may hold the pipe too, so that the row can still be written: then once more.
    assert_eq!((0..5).find_map(|_| ended_unread()), Some(0));
}

#[test]
fn wrong_words_are_told() {
    let (empty, log) = (example("w-empty.bundle"), example("w.log"));
    let (empty, log) = (name(&empty), name(&log));
    let mistakes: [(&[&str], &str); 15] = [
        (&["replay"], "which bundle? Name a file, or '-' for standard input"),
        (&["replay", empty], "which log? Name a file, or '-' for standard input"),
        (&["replay", empty, log, "x"], "one bundle and one log at a time: 'x' is one word too many"),
        (&["replay", "-", "-"], "only one of bundle and log can come from standard input"),
        (&["replay", empty, "-", "--standing", "-"], "only one of log and standing table can come from standard input"),
        (&["replay", empty, log, "-o", "-"], "-o keeps its bundle; name a file"),
        (&["replay", empty, log, "--follow", "--json"], "--json is one object, and --follow gives rows as they come"),
        (&["replay", empty, log, "--partial"], "--partial is for run and trace alone"),
        (&["replay", empty, log, "--board", "1"], "--board and --from are for trace alone"),
        (&["run", empty, "--trace"], "--trace and --follow are for replay alone"),
        (&["trace", empty, "--follow"], "--trace and --follow are for replay alone"),
        (&["log", empty, log], "one bundle at a time: "),
        (&["log", empty, "--json"], "--json is for run, trace, first, replay, search and check alone"),
        (&["log", "-", "--standing", "-"], "only one of bundle and standing table can come from standard input"),
        (&["replay", empty, "nothing.log", "--follow"], "cannot read 'nothing.log': No such file"),
    ];
    for (words, told) in mistakes {
        let got = given(words, b"");
        assert_eq!((got.status.code(), text(&got.stdout)), (Some(2), ""), "{words:?}");
        assert!(text(&got.stderr).contains(told), "{}", text(&got.stderr));
    }
    let got = replayed(&[], "board 0 rule 3\n".repeat(100_000).as_bytes());
    let most = "macaroosh: standard input is over 1048576 bytes; a log has at most 151552\n";
    is(&got, 2, "", most);
    let help = given(&["--help"], b"").stdout;
    for line in ["  macaroosh replay FILE LOG ", "  macaroosh log FILE ", "  --trace ", "  --follow "] {
        assert!(text(&help).contains(line), "{line}");
    }
}
