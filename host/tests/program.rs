//! The program: its commands, its refusals in words, mistakes of its user, and what becomes of files.

mod start;

use judge::dice::{part_of, Dice};
use judge::drawings::Text;
use judge::editions::EditionOutline;
use judge::makers::bundles::any;
use judge::makers::{shelf, sketches};
use judge::model::{read_table, report, Edition, Model};
use macaroosh::{Form, MOST_BYTES};
use start::{given, program, PROGRAM};
use std::ffi::OsStr;
use std::fs::{self, File};
use std::io::Read;
use std::path::{Path, PathBuf};
use std::process::{Command, Output, Stdio};

fn example(name: &str) -> PathBuf {
    Path::new(env!("CARGO_MANIFEST_DIR")).join("../examples").join(name)
}

// An empty folder for a test.
fn room(name: &str) -> PathBuf {
    let room = Path::new(env!("CARGO_TARGET_TMPDIR")).join(name);
    let _ = fs::remove_dir_all(&room);
    fs::create_dir_all(&room).expect("a folder");
    room
}

fn asked<S: AsRef<OsStr>>(words: &[S]) -> Output {
    program().args(words).stdin(Stdio::null()).output().expect("the program starts")
}

fn text(bytes: &[u8]) -> &str {
    std::str::from_utf8(bytes).expect("text")
}

#[track_caller]
fn says(words: &[&str], bundle: &str, status: i32, output: &str, error: &str) {
    let path = example(bundle);
    let mut all: Vec<&OsStr> = words.iter().map(OsStr::new).collect();
    all.push(path.as_os_str());
    let got = asked(&all);
    assert_eq!((got.status.code(), text(&got.stdout), text(&got.stderr)), (Some(status), output, error));
}

const TWICE: &str = "\
refused 24 at step 4: the message is not in transit
that step is board 2, rule 5, type 0, source 0
board 2 has heard type 0 from board 0 already, in step 2
";

#[test]
fn run_shows_the_configuration() {
    let shown = "\
message form, n = 4, t = 1, f = 1: boards 0 to 2 are correct, 3 is faulty
after 5 steps: what each board has (from correct + faulty boards), and what was sent
3 of at most 12 receipts, 3 of at most 3 sends

board  state        has type 0
    0  2                   0+0
    1  2                   0+0
    2  3 accepting         2+1
 sent                        3
";
    says(&["run"], "w.bundle", 0, shown, "");
    says(&["run"], "w-counting.bundle", 0, &shown.replace("message form", "counting form"), "");
    let plain = "result 0 0 5\np 0 2 0 0\np 1 2 0 0\np 2 3 2 1\nsent 3\nstopped 0\n";
    says(&["run", "--plain"], "w.bundle", 0, plain, "");
    says(&["--plain", "run"], "w-counting.bundle", 0, plain, "");
    let shown = "\
plain form, n = 4, t = 1, f = 1: boards 0 to 2 are correct, 3 is faulty
after 5 steps: what each board has (from correct and faulty boards together), and what was sent
3 of at most 12 receipts, 3 of at most 3 sends

board  state        has type 0
    0  2                     0
    1  2                     0
    2  3 accepting           3
 sent                        3
";
    says(&["run"], "w-plain.bundle", 0, shown, "");
    says(&["run", "--plain"], "w-plain.bundle", 0, "result 0 0 5\np 0 2 0\np 1 2 0\np 2 3 3\nsent 3\nstopped 0\n", "");
}

#[test]
fn a_refused_run_shows_what_it_left() {
    let shown = "\
message form, n = 4, t = 1, f = 1: boards 0 to 2 are correct, 3 is faulty
after 4 steps: what each board has (from correct + faulty boards), and what was sent
2 of at most 12 receipts, 3 of at most 3 sends

board  state  has type 0
    0  2             0+0
    1  2             0+0
    2  2             1+1
 sent                  3
";
    says(&["run"], "w-echo-twice.bundle", 1, shown, TWICE);
    let plain = "result 24 4 4\np 0 2 0 0\np 1 2 0 0\np 2 2 1 1\nsent 3\nstopped 0\n";
    says(&["run", "--plain"], "w-echo-twice.bundle", 1, plain, "");
}

#[test]
fn trace_shows_each_step() {
    let shown = "\
message form, n = 4, t = 1, f = 1: boards 0 to 2 are correct, 3 is faulty
boards start in states 1 1 1
after each step: what its board has (from correct + faulty boards), and what was sent
^ this line and the one above it can be exchanged: the configuration after both is the same

step    board  rule  from -> to           receives              sends   has type 0  sent type 0
   0        0     3     1 -> 2            no message            type 0         0+0            1
   1 ^      1     3     1 -> 2            no message            type 0         0+0            2
   2 ^      2     3     1 -> 2            type 0 from board 0   type 0         1+0            3
   3        2     4     2 -> 2            type 0 from faulty 3                 1+1            3
   4        2     5     2 -> 3 accepting  type 0 from board 1                  2+1            3
";
    says(&["trace"], "w.bundle", 0, shown, "");
    // For a counting schedule the tag, and the sender that the translation chooses.
    let counting = text(&asked(&[OsStr::new("trace"), example("w-counting.bundle").as_os_str()]).stdout).to_string();
    let senders = [("no message", ""), ("no message", ""), ("board 0", "0 correct"), ("faulty 3", "1 faulty")];
    for (line, (sender, tag)) in counting.lines().skip(7).zip(senders) {
        assert!(line.contains(sender) && line.contains(tag), "{line}");
    }
    assert_eq!(counting.lines().count(), 12);
    // For a plain one the sender alone, and one count.
    let shown = "\
plain form, n = 4, t = 1, f = 1: boards 0 to 2 are correct, 3 is faulty
boards start in states 1 1 1
after each step: what its board has (from correct and faulty boards together), and what was sent
senders are those that the translation chooses
^ this line and the one above it can be exchanged: the configuration after both is the same

step    board  rule  from -> to           receives             sends   has type 0  sent type 0
   0        0     3     1 -> 2            no message           type 0           0            1
   1 ^      1     3     1 -> 2            no message           type 0           0            2
   2 ^      2     3     1 -> 2            type 0 from board 0  type 0           1            3
   3        2     4     2 -> 2            type 0 from board 1                   2            3
   4        2     5     2 -> 3 accepting  type 0 from board 2                   3            3
";
    says(&["trace"], "w-plain.bundle", 0, shown, "");
}

#[test]
fn trace_for_programs_has_the_translated_source() {
    let start = "start 1 1 1\nstep 0 0 3 255 255 255\np 0 2 0 0\nsent 1\nstopped 0\nstep 1 1 3 255 255 255\np 1 2 0 0\nsent 2\nstopped 0\n";
    let message = "step 2 2 3 0 0 0\np 2 2 1 0\nsent 3\nstopped 0\nstep 3 2 4 0 3 1\np 2 2 1 1\nsent 3\nstopped 0\n";
    let counting = message.replace("step 3 2 4 0 3 1", "step 3 2 4 0 1 3");
    let accepts = "p 2 3 2 1\nsent 3\nstopped 0\n";
    let all = format!("result 0 0 5\n{start}{message}step 4 2 5 0 1 0\n{accepts}");
    says(&["trace", "--plain"], "w.bundle", 0, &all, "");
    let all = format!("result 0 0 5\n{start}{counting}step 4 2 5 0 0 1\n{accepts}");
    says(&["trace", "--plain"], "w-counting.bundle", 0, &all, "");
    let plain = "\
result 0 0 5
start 1 1 1
step 0 0 3 255 255 255
p 0 2 0
sent 1
stopped 0
step 1 1 3 255 255 255
p 1 2 0
sent 2
stopped 0
step 2 2 3 0 0 0
p 2 2 1
sent 3
stopped 0
step 3 2 4 0 0 1
p 2 2 2
sent 3
stopped 0
step 4 2 5 0 0 2
p 2 3 3
sent 3
stopped 0
";
    says(&["trace", "--plain"], "w-plain.bundle", 0, plain, "");
    let all = format!("result 24 4 4\n{start}{message}");
    says(&["trace", "--plain"], "w-echo-twice.bundle", 1, &all, "");
}

#[test]
fn a_refused_trace_shows_the_steps_before() {
    let words = [OsStr::new("trace").to_owned(), example("w-echo-twice.bundle").into_os_string()];
    let got = asked(&words);
    assert_eq!((got.status.code(), text(&got.stderr)), (Some(1), TWICE));
    let last = text(&got.stdout).lines().last().expect("a line").to_string();
    assert!(last.starts_with("   3        2     4     2 -> 2   type 0 from faulty 3"), "{last}");
}

#[test]
fn trace_of_two_types_has_their_counts_apart() {
    let words = ["--plain".into(), "trace".into(), example("ready.bundle").into_os_string()];
    let plain = asked(&words);
    assert_eq!(plain.status.code(), Some(0));
    assert!(
        text(&plain.stdout).ends_with("step 21 0 7 1 1 6\np 0 4 4 1 3 2\nsent 4 3\nstopped 0\n"),
        "{}",
        text(&plain.stdout)
    );
}

#[test]
fn first_names_a_step_or_says_that_the_run_is_quiet() {
    let shown = "\
after 5 steps the first possible step is: board 0, rule 4 (2 -> 2), type 0 from board 0
as bytes: 00 04 00 00
";
    says(&["first"], "w.bundle", 0, shown, "");
    says(&["first"], "w-counting.bundle", 0, &shown.replace("from board 0", "from a correct board"), "");
    says(&["first"], "w-plain.bundle", 0, &shown.replace("type 0 from board 0", "a message of type 0"), "");
    for bundle in ["w.bundle", "w-counting.bundle", "w-plain.bundle"] {
        says(&["first", "--plain"], bundle, 0, "result 0 0\nstep 0 4 0 0\n", "");
    }
    let shown = "after 16 steps the run is quiet: no board can do anything but wait\n";
    says(&["first"], "quiet.bundle", 0, shown, "");
    says(&["first", "--plain"], "quiet.bundle", 0, "result 0 0\nnone\n", "");
    let counting = asked(&[OsStr::new("translate"), example("quiet.bundle").as_os_str()]).stdout;
    assert_eq!(text(&given(&["first", "-"], &counting).stdout), shown);
    says(&["first"], "w-echo-twice.bundle", 1, "", TWICE);
    says(&["first", "--plain"], "w-echo-twice.bundle", 1, "result 24 4\nnone\n", "");
    // One state, and its rule asks for a message that nobody sends.
    let quiet = b"\x01\x00\x00\x00\x00\x00\x01\x07\x00\x05\x00\x01\x01\x01\x01\x00\x00\x00\x01\x00\x01\x00\x00\x00";
    let got = given(&["first", "-"], quiet);
    let shown = "after 0 steps the run is quiet: no board can do anything but wait\n";
    assert_eq!((got.status.code(), text(&got.stdout)), (Some(0), shown));
    let got = given(&["first", "-", "--plain"], quiet);
    assert_eq!((got.status.code(), text(&got.stdout)), (Some(0), "result 0 0\nnone\n"));
}

#[test]
fn translate_writes_the_other_form() {
    let room = room("translate");
    let bundle = |name: &str| fs::read(example(name)).expect("an example");
    for (from, to, form) in
        [("w.bundle", "w-counting.bundle", "counting"), ("w-counting.bundle", "w.bundle", "message")]
    {
        let got = asked(&[OsStr::new("translate"), example(from).as_os_str()]);
        assert_eq!((got.status.code(), got.stdout), (Some(0), bundle(to)));
        assert_eq!(text(&got.stderr), format!("wrote 31 bytes in {form} form\n"));
        let out = room.join(form);
        let words = ["translate".into(), "-o".into(), out.clone().into_os_string(), example(from).into_os_string()];
        let got = asked(&words);
        assert_eq!((got.status.code(), text(&got.stdout)), (Some(0), ""));
        assert_eq!(text(&got.stderr), format!("wrote 31 bytes in {form} form to {}\n", out.display()));
        assert_eq!(fs::read(&out).expect("the output"), bundle(to));
    }
    assert_eq!(fs::read_dir(&room).expect("the folder").count(), 2);
    let got = given(&["translate", "-", "--plain"], &bundle("w.bundle"));
    assert_eq!((text(&got.stderr), got.stdout), ("result 0 0 31\n", bundle("w-counting.bundle")));
    says(&["translate"], "w-echo-twice.bundle", 1, "", TWICE);
    says(&["translate", "--plain"], "w-echo-twice.bundle", 1, "", "result 24 4 0\n");
    let got = asked(&[OsStr::new("translate"), example("w-plain.bundle").as_os_str()]);
    assert_eq!((got.status.code(), text(&got.stderr)), (Some(0), "wrote 31 bytes in counting form\n"));
}

#[test]
fn translate_writes_the_form_asked_for() {
    let bundle = |name: &str| fs::read(example(name)).expect("an example");
    let to = |form: &str, from: &str| {
        asked(&[OsStr::new("translate"), example(from).as_os_str(), OsStr::new("--to"), OsStr::new(form)])
    };
    let translations = [
        ("w.bundle", "counting", "w-counting.bundle"),
        ("w.bundle", "plain", "w-plain.bundle"),
        ("w-counting.bundle", "message", "w.bundle"),
        ("w-counting.bundle", "plain", "w-plain.bundle"),
    ];
    for (from, form, other) in translations {
        let got = to(form, from);
        assert_eq!((got.status.code(), got.stdout), (Some(0), bundle(other)), "{from} to {form}");
        assert_eq!(text(&got.stderr), format!("wrote 31 bytes in {form} form\n"));
    }
    // The senders that plain W is given are correct ones, and back it is the same.
    for form in ["message", "counting"] {
        let there = to(form, "w-plain.bundle").stdout;
        let back = given(&["translate", "-", "--to", "plain"], &there);
        assert_eq!((back.status.code(), back.stdout), (Some(0), bundle("w-plain.bundle")), "plain to {form}");
        let sources = [[0, 1, 2], [0, 0, 0]][usize::from(form == "counting")];
        assert_eq!([14, 18, 22].map(|at| there[at]), sources, "plain to {form}");
    }
    let own = "refused 31: the form asked for is the bundle's own, or there is no such form\n";
    for (form, name) in [("message", "w.bundle"), ("counting", "w-counting.bundle"), ("plain", "w-plain.bundle")] {
        says(&["translate", "--to", form], name, 1, "", own);
        says(&["translate", "--plain", "--to", form], name, 1, "", "result 31 0 0\n");
    }
    says(&["translate", "--to", "plain"], "w-echo-twice.bundle", 1, "", TWICE);
}

#[test]
fn draw_writes_the_drawing_and_undraw_the_table() {
    let room = room("draw");
    let bytes = |name: &str| fs::read(example(name)).expect("an example");
    for (command, from, to, thing) in
        [("draw", "echo.table", "echo.dot", "drawing"), ("undraw", "echo.dot", "echo.table", "table")]
    {
        let (output, length) = (bytes(to), bytes(to).len());
        let got = asked(&[OsStr::new(command), example(from).as_os_str()]);
        assert_eq!((got.status.code(), &got.stdout), (Some(0), &output));
        assert_eq!(text(&got.stderr), format!("wrote {length} bytes: a {thing} of 4 states and 7 rules\n"));
        let out = room.join(to);
        let got = asked(&[OsStr::new(command), example(from).as_os_str(), OsStr::new("-o"), out.as_os_str()]);
        assert_eq!((got.status.code(), text(&got.stdout)), (Some(0), ""));
        let told = format!("wrote {length} bytes to {}: a {thing} of 4 states and 7 rules\n", out.display());
        assert_eq!(text(&got.stderr), told);
        assert_eq!(fs::read(&out).expect("the output"), output);
        let got = given(&[command, "--plain", "-"], &bytes(from));
        assert_eq!((text(&got.stderr), &got.stdout), (&*format!("result 0 0 {length}\n"), &output));
    }
    assert_eq!(fs::read_dir(&room).expect("the folder").count(), 2);
}

// The echo table's drawing, edited; what is told of it, and for programs.
#[track_caller]
fn undraw_says(from: &str, to: &str, told: &str, plain: &str) {
    let drawing = fs::read_to_string(example("echo.dot")).expect("an example");
    assert!(drawing.contains(from));
    let edited = drawing.replacen(from, to, 1);
    let got = given(&["undraw", "-"], edited.as_bytes());
    assert_eq!((got.status.code(), text(&got.stdout), text(&got.stderr)), (Some(1), "", told));
    let got = given(&["undraw", "-", "--plain"], edited.as_bytes());
    assert_eq!((got.status.code(), text(&got.stdout), text(&got.stderr)), (Some(1), "", plain));
}

#[test]
fn a_refused_drawing_is_marked() {
    let told = "\
refused 60 at byte 20: the text is no drawing; up to there it could be one
line 2, column 9:
T=1; k=03;
        ^
";
    undraw_says("k=3", "k=03", told, "result 60 20 0\n");
    let told = "\
refused 60 at byte 166: the text is no drawing; up to there it could be one
line 9, column 21:
s0 -> s3 [label=\"1 -0 0\"];
                    ^
";
    undraw_says("1 -1 0", "1 -0 0", told, "result 60 166 0\n");
    // Each byte has a column, also where it can't be shown.
    let told = "\
refused 60 at byte 19: the text is no drawing; up to there it could be one
line 2, column 8:
T=1; k ??=3;
       ^
";
    undraw_says("k=3", "k\té=3", told, "result 60 19 0\n");
    let told = "\
refused 60 at byte 100: the text is no drawing; up to there it could be one
line 7, column 7, where the text ends:
s0 ->
      ^
";
    let drawing = fs::read(example("echo.dot")).expect("an example");
    assert_eq!(text(&given(&["undraw", "-"], &drawing[..100]).stderr), told);
    let nothing = "\
refused 60 at byte 0: the text is no drawing; up to there it could be one
line 1, column 1, where the text ends:

^
";
    assert_eq!(text(&given(&["undraw", "-"], b"").stderr), nothing);
}

#[test]
fn of_a_long_line_what_is_near_is_shown() {
    let drawing = fs::read_to_string(example("echo.dot")).expect("an example").replace('\n', "");
    let wrong = drawing.replacen("0 1 1", "0 1", 1);
    let told = "\
refused 60 at byte 133: the text is no drawing; up to there it could be one
line 1, column 134:
... [label=\"2 1\"];s0 -> s0 [label=\"0 0 0\"];s0 -> s2 [label=\"0 1\"];s0 -> s3 [label=\"1 -1 0\"];s1 -> s2 [label=\"0 0 0\"];s2 -> ...
                                                               ^
";
    let got = given(&["undraw", "-"], wrong.as_bytes());
    assert_eq!((got.status.code(), text(&got.stderr)), (Some(1), told));
}

#[test]
fn a_refused_state_or_rule_is_shown() {
    let told = "\
refused 4 at state 1: the state has a flag above bit 1, a sent bit for no type, or is initial and has already sent
line 4, column 1:
s1 [label=\"1 1\"];
^
";
    undraw_says("s1 [label=\"1 0\"]", "s1 [label=\"1 1\"]", told, "result 4 1 0\n");
    // The name that a rule begins with, after blanks.
    let told = "\
refused 6 at rule 2: the rule's from or to is no state
line 10, column 3:
  s0 -> s4 [label=\"1 -1 0\"];
  ^
";
    undraw_says("s0 -> s3", "\n\t s0 -> s4", told, "result 6 2 0\n");
    let told = "\
refused 9 at rule 0: the rule has a divisor that is not 1 to 8
line 2, column 1:
s0 -> s0 [label=\"0 0 0 0\"];}
^
";
    let nought = "digraph t {T=17;k=1;s0 [label=\"1 0\"];\ns0 -> s0 [label=\"0 0 0 0\"];}";
    assert_eq!(text(&given(&["undraw", "-"], nought.as_bytes()).stderr), told);
    // Neither names one.
    let (initial, not) = ("s0 [label=\"1 0\"];\ns1 [label=\"1 0\"]", "s0 [label=\"0 0\"];\ns1 [label=\"0 0\"]");
    undraw_says(initial, not, "refused 5: no state is initial\n", "result 5 0 0\n");
    undraw_says("k=3", "k=9", COUNTS, "result 2 0 0\n");
}

const COUNTS: &str =
    "refused 2: a count of the table (1 to 16 states, 1 to 64 rules, 1 to 4 types) or k (1 to 8) is out of range\n";

#[test]
fn a_table_that_is_none_is_not_drawn() {
    for words in [&["draw"][..], &["draw", "--svg"], &["draw", "--png"]] {
        says(words, "w.bundle", 1, "", &format!("{COUNTS}this is a bundle, and without a table of its own\n"));
    }
    says(&["draw", "--plain"], "w.bundle", 1, "", "result 2 0 0\n");
    let got = given(&["draw", "-"], b"");
    assert_eq!((got.status.code(), text(&got.stderr)), (Some(1), "refused 1: the table part is under 8 bytes\n"));
}

#[test]
fn images_are_made_by_graphviz() {
    let echo = example("echo.table");
    let got = asked(&[OsStr::new("draw"), OsStr::new("--svg"), echo.as_os_str()]);
    let image = text(&got.stdout);
    assert_eq!(got.status.code(), Some(0), "{}", text(&got.stderr));
    assert!(text(&got.stderr).ends_with(" bytes: an image of 4 states and 7 rules\n"), "{}", text(&got.stderr));
    // Names of the states, what they have sent, rules; tests/pictures.rs looks at all.
    for shown in [">s0<", ">s3<", ">sent 0<", ">1: ≥ t + 1<", ">2: ≥ n − t<", "(T = 1)<", "(k = 3)<"] {
        assert!(image.contains(shown), "{shown}: {image}");
    }
    let out = room("image").join("echo.png");
    let words = ["draw".into(), "--png".into(), "--plain".into(), echo.into_os_string()];
    let got = asked(&[&words[..], &["-o".into(), out.clone().into_os_string()]].concat());
    let image = fs::read(&out).expect("the image");
    assert_eq!((got.status.code(), text(&got.stderr)), (Some(0), &*format!("result 0 0 {}\n", image.len())));
    assert!(image.starts_with(b"\x89PNG\r\n"));
}

// The program where only a folder's programs are found.
fn drawn_with_path(folder: &Path, words: &[&OsStr]) -> Output {
    let mut command = Command::new("sh");
    command.args(["-c", "first=$(command -v \"$2\"); PATH=$1; shift 2; exec \"$first\" \"$@\"", "sh"]).arg(folder);
    command.args(std::env::var_os("MACAROOSH_RUNNER")).arg(PROGRAM).arg("draw").args(words);
    command.output().expect("a shell")
}

#[test]
fn without_graphviz_that_is_said() {
    let room = room("without-graphviz");
    let (echo, out) = (example("echo.table"), room.join("out"));
    fs::write(&out, "as it was").expect("a file");
    for option in ["--svg", "--png"] {
        let words = [OsStr::new(option), echo.as_os_str(), OsStr::new("-o"), out.as_os_str()];
        let got = drawn_with_path(&room, &words);
        assert_eq!((got.status.code(), text(&got.stdout)), (Some(2), ""));
        let told = "needs Graphviz's program 'dot', which is not installed (on Debian: apt-get install graphviz)";
        assert_eq!(text(&got.stderr), format!("macaroosh: {option} {told}\n"));
    }
    // One that fails: `cat` has no such options.
    std::os::unix::fs::symlink("/bin/cat", room.join("dot")).expect("a link");
    let got = drawn_with_path(&room, &[OsStr::new("--svg"), echo.as_os_str(), OsStr::new("-o"), out.as_os_str()]);
    assert_eq!((got.status.code(), text(&got.stdout)), (Some(2), ""));
    let told = "macaroosh: Graphviz's program 'dot' gave no image: it failed with status 1 and said:\n";
    let why = text(&got.stderr).strip_prefix(told).expect("what happened");
    assert!(why.contains("invalid option") && why.ends_with(".\n"), "{why}");
    assert_eq!(fs::read(&out).expect("the file"), b"as it was");
    // The drawing itself needs none.
    assert_eq!(drawn_with_path(&room, &[echo.as_os_str()]).status.code(), Some(0));
}

#[test]
fn a_standing_table_is_read_where_the_bundle_has_none() {
    let echo = example("echo.table").into_os_string();
    let words = |table| ["run".into(), "--plain".into(), "--standing".into(), table, example("w.bundle").into()];
    assert!(text(&asked(&words(echo)).stdout).starts_with("result 0 0 5\n"));
    let got = asked(&words(example("w.bundle").into_os_string()));
    assert_eq!((got.status.code(), text(&got.stdout)), (Some(1), "result 2 0 0\n"));
    let w = example("w.bundle");
    let table = fs::read(example("echo.table")).expect("the table");
    let got = given(&["first", "--plain", "--standing", "-", w.to_str().expect("a name")], &table);
    assert_eq!(text(&got.stdout), "result 0 0\nstep 0 4 0 0\n");
}

#[test]
fn one_echo_from_nothing_is_enough_only_where_t_are_asked_for() {
    let shown = "\
message form, n = 4, t = 1, f = 1: boards 0 to 2 are correct, 3 is faulty
after 0 steps: what each board has (from correct + faulty boards), and what was sent
0 of at most 12 receipts, 0 of at most 3 sends

board  state  has type 0
    0  0             0+0
    1  0             0+0
    2  0             0+0
 sent                  0
";
    let told = "\
refused 25 at step 0: a threshold is not met
that step is board 0, rule 1, type 0, source 3
rule 1 asks for 2 of type 0 (t + 1), board 0 has 1, this one included
";
    says(&["run"], "one-echo.bundle", 1, shown, told);
    let shown = "\
message form, n = 4, t = 1, f = 1: boards 0 to 2 are correct, 3 is faulty
after 1 step: what each board has (from correct + faulty boards), and what was sent
1 of at most 12 receipts, 1 of at most 3 sends

board  state  has type 0
    0  2             0+1
    1  0             0+0
    2  0             0+0
 sent                  1
";
    let table = example("asks-t.table");
    says(&["run", "--standing", table.to_str().expect("a name")], "one-echo.bundle", 0, shown, "");
}

#[test]
fn help_is_there() {
    for words in [vec!["--help"], vec!["help"], vec!["run", "-h"]] {
        let got = asked(&words);
        assert_eq!((got.status.code(), text(&got.stderr)), (Some(0), ""));
        for command in
            ["translate FILE", "draw TABLE", "undraw DRAWING", "edition TABLE", "check LIST --of FILE", "list FILE"]
        {
            assert!(text(&got.stdout).contains(&format!("macaroosh {command}")));
        }
        for option in ["--to FORM", "--to EDITION", "--into FOLDER", "--of FILE", "--receipts"] {
            assert!(text(&got.stdout).contains(option));
        }
    }
    let got = asked::<&str>(&[]);
    assert_eq!((got.status.code(), text(&got.stdout)), (Some(2), ""));
    assert!(text(&got.stderr).contains("macaroosh translate FILE"));
}

// Bad use: nothing on standard output, and the words on standard error.
#[track_caller]
fn mistake<S: AsRef<OsStr>>(words: &[S], told: &str) {
    let got = asked(words);
    assert_eq!((got.status.code(), text(&got.stdout)), (Some(2), ""));
    assert!(text(&got.stderr).contains(told), "{}", text(&got.stderr));
}

#[test]
fn wrong_words_are_told() {
    mistake(&["rnu", "x"], "there is no command 'rnu'; the commands are run, trace, first, translate, draw, undraw");
    mistake(
        &["run", "--plian", "x"],
        "there is no option '--plian'; the options are --standing, -o, --to, --svg, --png",
    );
    mistake(&["run"], "which bundle?");
    mistake(&["draw"], "which table?");
    mistake(&["undraw"], "which drawing?");
    let all = "which command: run, trace, first, translate, draw, undraw, unpack, pack, replay, log, edition, search, check or list?";
    mistake(&["--plain"], all);
    mistake(&["run", "x", "y"], "one bundle at a time: 'y' is one word too many");
    mistake(&["draw", "x", "y"], "one table at a time: 'y' is one word too many");
    mistake(&["undraw", "x", "y"], "one drawing at a time: 'y' is one word too many");
    mistake(&["draw", "x", "--standing", "y"], "--standing is for bundles; this command reads a table alone");
    mistake(&["undraw", "x", "--standing", "y"], "--standing is for bundles; this command reads a drawing alone");
    mistake(&["run", "x", "--svg"], "--svg and --png are for draw alone");
    mistake(&["undraw", "x", "--png"], "--svg and --png are for draw alone");
    mistake(&["draw", "x", "--svg", "--png"], "--svg or --png is given twice");
    mistake(&["translate", "x", "--to", "2"], "there is no form '2'; the forms are message, counting, plain");
    mistake(&["translate", "x", "--to", "Plain"], "there is no form 'Plain'; the forms are message, counting, plain");
    mistake(&["translate", "x", "--to"], "--to needs a form, edition or step after it");
    mistake(&["translate", "x", "--to", "plain", "--to", "plain"], "--to is given twice");
    mistake(&["run", "x", "--to", "plain"], "--to is for translate, trace and edition alone");
    mistake(&["draw", "x", "--to", "plain"], "--to is for translate, trace and edition alone");
    mistake(&["run", "x", "-o"], "-o needs a file after it");
    mistake(&["run", "x", "--standing"], "--standing needs a file after it");
    mistake(&["run", "x", "-o", "a", "-o", "b"], "-o is given twice");
    mistake(&["run", "-", "--standing", "-"], "only one of bundle and standing table");
    mistake(&["run", "--", "--plain"], "cannot read '--plain': No such file");
}

#[test]
fn wrong_files_are_told() {
    let room = room("wrong-files");
    mistake(&[OsStr::new("run"), room.join("nothing").as_os_str()], "cannot read");
    mistake(&[OsStr::new("run"), room.as_os_str()], "Is a directory");
    let w = example("w.bundle").into_os_string();
    mistake(&["run".into(), "--standing".into(), room.join("nothing").into_os_string(), w.clone()], "cannot read");
    let missing = room.join("nothing/out").into_os_string();
    mistake(&["run".into(), w.clone(), "-o".into(), missing], "No such file or directory");
    mistake(&["run".into(), w.clone(), "-o".into(), room.clone().into_os_string()], "Is a directory");
    mistake(&["run".into(), w.clone(), "-o".into(), "/dev/full".into()], "No space left");
    mistake(&["run".into(), w, "-o".into(), "".into()], "cannot write");
    assert_eq!(fs::read_dir(&room).expect("the folder").count(), 0);
}

#[test]
fn an_empty_file_is_refused() {
    let room = room("empty-file");
    let path = room.join("empty");
    File::create(&path).expect("a file");
    for command in ["run", "trace", "first", "translate"] {
        let got = asked(&[OsStr::new(command), path.as_os_str()]);
        assert_eq!((got.status.code(), text(&got.stdout)), (Some(1), ""));
        assert_eq!(text(&got.stderr), "refused 10: the bundle is under 8 bytes\n");
    }
}

#[test]
fn a_gigabyte_is_not_read() {
    let room = room("gigabyte");
    let path = room.join("gigabyte");
    File::create(&path).and_then(|file| file.set_len(1 << 30)).expect("a file of holes");
    mistake(&[OsStr::new("run"), path.as_os_str()], "is over 1048576 bytes; a bundle has at most 17648");
    mistake(&[OsStr::new("draw"), path.as_os_str()], "is over 1048576 bytes; a table has at most 1192");
    mistake(&[OsStr::new("undraw"), path.as_os_str()], "a drawing without blanks of its own has at most 6286");
    fs::remove_file(&path).expect("removed");
    // Standard input that never ends.
    let zeros = File::open("/dev/zero").expect("zeros");
    let got = program().args(["trace", "-"]).stdin(zeros).output().expect("the program starts");
    assert_eq!((got.status.code(), text(&got.stdout)), (Some(2), ""));
    assert!(text(&got.stderr).contains("standard input is over 1048576 bytes"), "{}", text(&got.stderr));
}

#[test]
fn a_bundle_past_the_largest_is_refused_and_not_a_mistake() {
    let got = given(&["run", "-", "--plain"], &vec![0; MOST_BYTES + 1]);
    assert_eq!((got.status.code(), text(&got.stdout)), (Some(1), "result 2 0 0\n"));
}

#[test]
fn an_existing_output_stays_until_the_new_one_is_whole() {
    let room = room("existing-output");
    let out = room.join("out");
    fs::write(&out, "as it was").expect("a file");
    let words = |bundle: &str| {
        ["translate".into(), example(bundle).into_os_string(), "-o".into(), out.clone().into_os_string()]
    };
    // Refused: nothing is written.
    assert_eq!(asked(&words("w-echo-twice.bundle")).status.code(), Some(1));
    assert_eq!(fs::read(&out).expect("the file"), b"as it was");
    // No room on the device, by a limit on the size of files.
    let mut limited = Command::new("sh");
    limited.args(["-c", "trap '' XFSZ; ulimit -f 0; exec \"$@\"", "sh"]);
    limited.args(std::env::var_os("MACAROOSH_RUNNER")).arg(PROGRAM).args(words("w.bundle"));
    let got = limited.output().expect("a shell");
    assert_eq!((got.status.code(), text(&got.stdout)), (Some(2), ""));
    assert!(text(&got.stderr).contains("cannot write"), "{}", text(&got.stderr));
    assert_eq!(fs::read(&out).expect("the file"), b"as it was");
    assert_eq!(fs::read_dir(&room).expect("the folder").count(), 1);
    // Protected from writing.
    let of = |readonly: bool| {
        let mut permissions = fs::metadata(&out).expect("the file").permissions();
        permissions.set_readonly(readonly);
        fs::set_permissions(&out, permissions).expect("its permissions");
    };
    of(true);
    mistake(&words("w.bundle"), "it may not be written");
    assert_eq!(fs::read(&out).expect("the file"), b"as it was");
    of(false);
    // Whole: it is replaced, by way of a link too.
    let link = room.join("link");
    std::os::unix::fs::symlink("out", &link).expect("a link");
    let linked = ["translate".into(), example("w.bundle").into_os_string(), "-o".into(), link.clone().into_os_string()];
    assert_eq!(asked(&linked).status.code(), Some(0));
    assert_eq!(fs::read(&out).expect("the file").len(), 31);
    assert!(fs::symlink_metadata(&link).expect("the link").file_type().is_symlink());
    assert_eq!(fs::read_dir(&room).expect("the folder").count(), 2);
}

#[test]
fn output_may_replace_its_own_input() {
    let room = room("own-input");
    let path = room.join("w.bundle");
    fs::copy(example("w.bundle"), &path).expect("a copy");
    let words = ["translate".into(), path.clone().into_os_string(), "-o".into(), path.clone().into_os_string()];
    assert_eq!(asked(&words).status.code(), Some(0));
    assert_eq!(fs::read(&path).expect("the file"), fs::read(example("w-counting.bundle")).expect("the other"));
}

#[test]
fn a_closed_pipe_ends_quietly() {
    // 4,096 waits fill any pipe.
    let mut bundle = vec![1, 0, 3, 255, 255];
    bundle.extend([0, 4, 255, 255].iter().cycle().take(4 * 4_095));
    bundle.extend([0x00, 0x40, 0x01, 0x40, 1, 0, 0, 0]);
    let path = room("closed-pipe").join("long.bundle");
    fs::write(&path, bundle).expect("a file");
    let mut command = program();
    command.arg("trace").arg(&path).stdout(Stdio::piped()).stderr(Stdio::piped());
    let mut child = command.spawn().expect("the program starts");
    let mut some = [0; 10];
    let mut pipe = child.stdout.take().expect("its output");
    pipe.read_exact(&mut some).expect("some of it");
    drop(pipe);
    let got = child.wait_with_output().expect("the program ends");
    assert_eq!((got.status.code(), text(&got.stderr)), (Some(0), ""));
}

#[test]
fn no_bundle_makes_it_stumble() {
    for seed in 1..=part_of(100) {
        let bundle = any(&mut Dice::new(seed));
        let got = given(&["run", "--plain", "-"], &bundle);
        assert_eq!(text(&got.stdout), report(&bundle), "seed {seed}");
        let refused = !report(&bundle).starts_with("result 0 ");
        let own = bundle.last().and_then(|&number| Form::of(u64::from(number)));
        let translations = Form::ALL.map(|form| (vec!["translate", "--to", form.name()], refused || own == Some(form)));
        let others = ["run", "trace", "first", "translate"].map(|command| (vec![command], refused));
        for (words, refused) in others.into_iter().chain(translations) {
            let got = given(&[&words[..], &["-"]].concat(), &bundle);
            assert_eq!(got.status.code(), Some(i32::from(refused)), "seed {seed}: {words:?}");
            assert_eq!(text(&got.stderr).starts_with("refused "), refused, "seed {seed}: {words:?}");
        }
    }
}

#[test]
fn no_table_or_text_makes_it_stumble() {
    for seed in 1..=part_of(100) {
        let (table, drawing) = (shelf::any(&mut Dice::new(seed)), sketches::text(&mut Dice::new(seed)));
        let cases: [(&[&str], &[u8], bool); 4] = [
            (&["draw"], &table, read_table(&table).is_err()),
            (&["undraw"], &drawing, Model.table(&drawing).is_err()),
            (&["edition", "--to", "first"], &table, Model.moved(&table, Edition::First).is_err()),
            (&["edition", "--to", "second"], &table, Model.moved(&table, Edition::Second).is_err()),
        ];
        for (command, input, refused) in cases {
            let got = given(&[command, &["-"]].concat(), input);
            assert_eq!(got.status.code(), Some(i32::from(refused)), "seed {seed}: {command:?}");
            assert_eq!(text(&got.stderr).starts_with("refused "), refused, "seed {seed}: {command:?}");
            assert_eq!(got.stdout.is_empty(), refused, "seed {seed}: {command:?}");
        }
    }
}
