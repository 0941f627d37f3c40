//! Searches at the command line: what is found is shown as a trace's rows and kept as a bundle; none, spent and refusals are told; and
//! the numbers are the model's.

mod start;

use judge::dice::{each_seed, part_of, Dice};
use judge::makers::bundles::{closed, with};
use judge::makers::searches::{any, Search};
use judge::model::Model;
use judge::{Limits, Searches};
use macaroosh::calls::Step;
use macaroosh::MOST_STEPS;
use start::given;
use std::fs;
use std::path::{Path, PathBuf};
use std::process::Output;

fn example(name: &str) -> Vec<u8> {
    fs::read(Path::new(env!("CARGO_MANIFEST_DIR")).join("../examples").join(name)).expect("an example")
}

// An empty folder for a test.
fn room(name: &str) -> PathBuf {
    let room = Path::new(env!("CARGO_TARGET_TMPDIR")).join("searches").join(name);
    let _ = fs::remove_dir_all(&room);
    fs::create_dir_all(&room).expect("a folder");
    room
}

fn text(bytes: &[u8]) -> &str {
    std::str::from_utf8(bytes).expect("text")
}

// What a search after a bundle says.
fn searched(words: &[&str], bundle: &[u8]) -> Output {
    given(&[&["search", "-"], words].concat(), bundle)
}

#[track_caller]
fn is(got: &Output, status: i32, output: &str, told: &str) {
    assert_eq!((got.status.code(), text(&got.stdout), text(&got.stderr)), (Some(status), output, told));
}

const FOUR: &str = "\
counting form, n = 4, t = 1, f = 1: boards 0 to 2 are correct, 3 is faulty
boards start in states 1 1 1
";

#[test]
fn what_is_found_is_shown_as_a_trace() {
    let shown = "\
counting form, n = 4, t = 1, f = 1: boards 0 to 2 are correct, 3 is faulty
after 0 steps, up to 4 more: found, 1,505 tried (of a budget of 100,000,000)
board 1 ends in an accepting state; this schedule is the first in the order of the search, and need not be the shortest
";
    let rows = "\
after each step: what its board has (from correct + faulty boards), and what was sent
senders are those that the translation chooses

step  board  rule  from -> to           receives              tag        sends   has type 0  sent type 0
   0      0     3     1 -> 2            no message                       type 0         0+0            1
   1      1     3     1 -> 2            type 0 from board 0   0 correct  type 0         1+0            2
   2      1     4     2 -> 2            type 0 from board 1   0 correct                 2+0            2
   3      1     5     2 -> 3 accepting  type 0 from faulty 3  1 faulty                  2+1            2
";
    let bubble = example("bubble.bundle");
    is(&searched(&["--depth", "4"], &bubble), 0, &format!("{shown}{rows}"), "");
    let fewer = shown.replace("100,000,000", "1,505");
    is(&searched(&["--depth=4", "--budget=1505"], &bubble), 0, &format!("{fewer}{rows}"), "");
    // The rows, lines and objects are those of a trace of the bundle with these steps.
    let steps = [[0, 3, 255, 255], [1, 3, 0, 0], [1, 4, 0, 0], [1, 5, 0, 1]].map(Step::of);
    let longer = steps.into_iter().fold(bubble.clone(), |bundle, step| with(&bundle, step));
    let trace = |words: &[&str]| text(&given(&[&["trace", "-"], words].concat(), &longer).stdout).to_string();
    assert_eq!(trace(&[]), format!("{FOUR}{rows}"));
    let plain = trace(&["--plain"]).replace("start 1 1 1\n", "tried 1505\nbudget 100000000\n");
    is(&searched(&["--depth", "4", "--plain"], &bubble), 0, &plain, "");
    let search = "\"outcome\":\"found\",\"tried\":1505,\"depth\":4,\"budget\":100000000";
    let json = trace(&["--json"]).replace("\"accepted\":4", search).replace("\"starts\":[1,1,1],", "");
    is(&searched(&["--depth", "4", "--json"], &bubble), 0, &json, "");
    // After steps of its own the numbers go on.
    let begun = steps[..2].iter().fold(bubble, |bundle, &step| with(&bundle, step));
    let plain = "\
result 0 0 2
tried 172
budget 100000000
step 2 1 4 0 0 1
p 1 2 2 0
sent 2
stopped 0
step 3 1 5 0 1 3
p 1 3 2 1
sent 2
stopped 0
";
    is(&searched(&["--depth", "2", "--plain"], &begun), 0, plain, "");
}

#[test]
fn none_spent_and_no_step_needed_are_told() {
    let setting = FOUR.lines().next().expect("a line");
    let none = "no schedule of so many steps or fewer, in any form, puts a board in an accepting state";
    let spent = "nothing was found, and more was to be tried; --budget N asks for more";
    let already = "board 2 is in an accepting state already, and no step is needed";
    let no_bubble = "no-bubble.bundle";
    let cases = [
        (no_bubble, "3", "540", "after 0 steps, up to 3 more: none, 540 tried (of a budget of 540)", none, "16", "540"),
        (
            no_bubble,
            "3",
            "539",
            "after 0 steps, up to 3 more: spent, 539 tried (of a budget of 539)",
            spent,
            "17",
            "539",
        ),
        (no_bubble, "3", "0", "after 0 steps, up to 3 more: spent, 0 tried (of a budget of 0)", spent, "17", "0"),
        (no_bubble, "0", "0", "after 0 steps, up to 0 more: none, 0 tried (of a budget of 0)", none, "16", "0"),
        (
            "w-counting.bundle",
            "8",
            "0",
            "after 5 steps, up to 8 more: found, 0 tried (of a budget of 0)",
            already,
            "0",
            "0",
        ),
    ];
    for (bundle, depth, budget, ended, meaning, outcome, tried) in cases {
        let words = ["--depth", depth, "--budget", budget];
        is(&searched(&words, &example(bundle)), 0, &format!("{setting}\n{ended}\n{meaning}\n"), "");
        let plain = format!("result 0 0 {outcome}\ntried {tried}\nbudget {budget}\n");
        is(&searched(&[&words[..], &["--plain"]].concat(), &example(bundle)), 0, &plain, "");
        let (word, steps) = match outcome {
            "16" => ("none", "null"),
            "17" => ("spent", "null"),
            _ => ("found", "[]"),
        };
        let json = format!(
            "{{\"refusal\":0,\"place\":0,\"outcome\":\"{word}\",\"tried\":{tried},\"depth\":{depth},\"budget\":{budget},\
             \"form\":\"counting\",\"n\":4,\"t\":1,\"f\":1,\"steps\":{steps}}}\n"
        );
        is(&searched(&[&words[..], &["--json"]].concat(), &example(bundle)), 0, &json, "");
    }
    // A longer budget by the largest number that there is.
    let got = searched(&["--depth=8", "--budget=18446744073709551615", "--plain"], &example(no_bubble));
    is(&got, 0, "result 0 0 16\ntried 864\nbudget 18446744073709551615\n", "");
    // Two boards that accept already.
    let more = [[1, 4, 0, 0], [1, 4, 0, 0], [1, 5, 0, 1]].map(Step::of);
    let longer = more.iter().fold(example("w-counting.bundle"), |bundle, &step| with(&bundle, step));
    let got = searched(&["--depth", "1"], &longer);
    assert!(text(&got.stdout).ends_with("boards 1 and 2 are in accepting states already, and no step is needed\n"));
}

#[test]
fn refusals_are_told() {
    let bubble = example("bubble.bundle");
    let refused = |words: &[&str], bundle: &[u8], told: &str, place: &str| {
        is(&searched(words, bundle), 1, "", told);
        let plain = format!("result {place} 0\ntried 0\nbudget 100000000\n");
        is(&searched(&[words, &["--plain"]].concat(), bundle), 1, &plain, "");
        let json = searched(&[words, &["--json"]].concat(), bundle);
        assert_eq!(json.status.code(), Some(1));
        let (number, place) = place.split_once(' ').expect("two numbers");
        let json = text(&json.stdout);
        assert!(json.starts_with(&format!("{{\"refusal\":{number},\"place\":{place},\"reason\":\"")), "{json}");
        assert!(
            json.ends_with(&format!("\"outcome\":null,\"tried\":0,\"depth\":{},\"budget\":100000000}}\n", words[1]))
        );
    };
    let deep = "refused 34: the search is asked to go over 8 steps deep\n";
    refused(&["--depth", "9"], &bubble, deep, "34 0");
    refused(&["--depth", "18446744073709551615"], &bubble, deep, "34 0");
    let form = "refused 35: the bundle is not in counting form\n";
    for (name, of) in [("w.bundle", "message"), ("w-plain.bundle", "plain")] {
        let hint = format!("it is in {of} form; translate --to counting writes it in counting form\n");
        refused(&["--depth", "0"], &example(name), &format!("{form}{hint}"), "35 0");
    }
    let step = "\
refused 22 at step 0: the rule does not leave the board's state
that step is board 0, rule 0, no message
board 0 is in state 1, rule 0 leaves state 0
";
    refused(&["--depth", "3"], &with(&bubble, Step::of([0, 0, 255, 255])), step, "22 0");
    refused(&["--depth", "3"], b"", "refused 10: the bundle is under 8 bytes\n", "10 0");
    let table = "\
refused 2: a count of the table (1 to 16 states, 1 to 64 rules, 1 to 4 types) or k (1 to 8) is out of range
this is a table; a bundle is a table and then a schedule; see draw
";
    refused(&["--depth", "3"], &example("echo.table"), table, "2 0");
}

#[test]
fn what_is_found_is_kept_as_a_bundle() {
    let out = room("kept").join("out");
    let path = out.to_str().expect("a name");
    let bubble = example("bubble.bundle");
    let shown = searched(&["--depth", "5"], &bubble);
    let got = searched(&["--depth", "5", "-o", path], &bubble);
    is(&got, 0, text(&shown.stdout), &format!("wrote 31 bytes to {path}: a bundle in counting form with 5 steps\n"));
    let made = fs::read(&out).expect("the bundle");
    let run = given(&["run", "-", "--plain"], &made);
    is(&run, 0, "result 0 0 5\np 0 3 2 1\np 1 2 0 0\np 2 1 0 0\nsent 2\nstopped 0\n", "");
    // Nothing found, nothing written: the file stays.
    let nothing = format!("nothing was found, and nothing is written to '{path}'\n");
    for budget in ["540", "539"] {
        let got = searched(&["--depth=3", "--budget", budget, "-o", path], &example("no-bubble.bundle"));
        assert_eq!((got.status.code(), text(&got.stderr)), (Some(0), &*nothing));
        let got = searched(&["--depth=3", "--budget", budget, "-o", path, "--plain"], &example("no-bubble.bundle"));
        assert_eq!((got.status.code(), text(&got.stderr)), (Some(0), ""));
    }
    let got = searched(&["--depth", "9", "-o", path], &bubble);
    assert_eq!((got.status.code(), text(&got.stdout)), (Some(1), ""));
    assert_eq!(fs::read(&out).expect("the bundle"), made);
    // Where no step is needed, the bundle as it is; also with a table in front.
    for name in ["w-counting.bundle", "ready.bundle"] {
        let got = searched(&["--depth", "0", "-o", path, "--plain"], &example(name));
        assert_eq!((got.status.code(), text(&got.stderr)), (Some(0), ""));
        assert_eq!(fs::read(&out).expect("the bundle"), example(name));
    }
}

// Three boards that have sent their echo, and so many steps in all; then board 0 accepts after three receipts.
fn of_length(length: usize) -> Vec<u8> {
    let sends = (0..3).map(|board| Step { board, rule: 3, kind: 255, source: 255 });
    let waits = (3..length).map(|_| Step { board: 0, rule: 4, kind: 255, source: 255 });
    closed(&[1, 1, 1], &sends.chain(waits).collect::<Vec<Step>>(), 3, [4, 1, 1, 1])
}

#[test]
fn more_steps_than_a_bundle_holds_are_shown_and_not_kept() {
    let out = room("long").join("out");
    let path = out.to_str().expect("a name");
    let fits = searched(&["--depth", "3", "-o", path], &of_length(MOST_STEPS - 3));
    let wrote = format!("wrote 16395 bytes to {path}: a bundle in counting form with 4096 steps\n");
    assert_eq!((fits.status.code(), text(&fits.stderr)), (Some(0), &*wrote));
    assert!(text(&fits.stdout).contains("\n4095      0     5     2 -> 3 accepting"), "{}", text(&fits.stdout));
    let made = fs::read(&out).expect("the bundle");
    let long = of_length(MOST_STEPS - 2);
    let shown = "\
counting form, n = 4, t = 1, f = 1: boards 0 to 2 are correct, 3 is faulty
after 4094 steps, up to 3 more: found, 39 tried (of a budget of 100,000,000)
board 0 ends in an accepting state; this schedule is the first in the order of the search, and need not be the shortest
the schedule has 4097 steps with these, and a bundle holds 4096, so that no counts are shown

board  rule  from -> to           receives                     as bytes
    0     4     2 -> 2            type 0 from a correct board  00 04 00 00
    0     4     2 -> 2            type 0 from a correct board  00 04 00 00
    0     5     2 -> 3 accepting  type 0 from a correct board  00 05 00 00
";
    let told = format!(
        "macaroosh: '{path}' is not written: the schedule has 4097 steps with these, and a bundle holds 4096\n"
    );
    let plain = "\
result 0 0 3
tried 39
budget 100000000
step 4094 0 4 0 0
step 4095 0 4 0 0
step 4096 0 5 0 0
";
    let step =
        |number: usize, rule: u8| format!("{{\"step\":{number},\"board\":0,\"rule\":{rule},\"type\":0,\"source\":0}}");
    let json = format!(
        "{{\"refusal\":0,\"place\":0,\"outcome\":\"found\",\"tried\":39,\"depth\":3,\"budget\":100000000,\"form\":\"counting\",\
         \"n\":4,\"t\":1,\"f\":1,\"steps\":[{},{},{}]}}\n",
        step(4094, 4),
        step(4095, 4),
        step(4096, 5)
    );
    for (style, shown) in [(&[][..], shown), (&["--plain"], plain), (&["--json"], &json)] {
        is(&searched(&[&["--depth", "3"], style].concat(), &long), 0, shown, "");
        // What was asked for can't be done, and the file stays.
        is(&searched(&[&["--depth", "3", "-o", path], style].concat(), &long), 2, shown, &told);
    }
    assert_eq!(fs::read(&out).expect("the bundle"), made);
}

#[test]
fn bad_use_is_told() {
    let wrong = [
        (&["search", "x"][..], "how many steps deep: --depth 0 to --depth 8?"),
        (&["search", "x", "--budget", "9"], "how many steps deep: --depth 0 to --depth 8?"),
        (&["search", "--depth", "3"], "which bundle? Name a file, or '-' for standard input"),
        (&["search", "x", "--depth", "three"], "'three' is no number of steps"),
        (&["search", "x", "--depth", "+3"], "'+3' is no number of steps"),
        (&["search", "x", "--depth", "18446744073709551616"], "'18446744073709551616' is no number of steps"),
        (&["search", "x", "--depth", "3", "--budget", "1e9"], "'1e9' is no number of tries"),
        (&["search", "x", "--depth", "3", "--budget", "100,000"], "'100,000' is no number of tries"),
        (&["search", "x", "--depth", "3", "--depth", "3"], "--depth is given twice"),
        (&["search", "x", "--depth", "3", "--budget", "3", "--budget=3"], "--budget is given twice"),
        (&["search", "x", "--depth="], "--depth needs a number after it"),
        (&["search", "x", "--depth", "3", "-o", "-"], "what a search shows goes to standard output"),
        (&["search", "x", "--depth", "3", "--partial"], "--partial is for run and trace alone"),
        (&["search", "x", "--depth", "3", "--all"], "--all is for first alone"),
        (&["search", "x", "y", "--depth", "3"], "one bundle at a time: 'y' is one word too many"),
        (&["search", "-", "--depth", "3", "--standing", "-"], "only one of bundle and standing table"),
        (&["run", "x", "--depth", "3"], "--depth and --budget are for search alone"),
        (&["first", "x", "--budget", "3"], "--depth and --budget are for search alone"),
    ];
    for (words, told) in wrong {
        let got = given(words, b"");
        assert_eq!((got.status.code(), text(&got.stdout)), (Some(2), ""), "{words:?}");
        assert!(text(&got.stderr).starts_with(&format!("macaroosh: {told}")), "{words:?}: {}", text(&got.stderr));
    }
}

#[test]
fn numbers_are_those_of_the_model() {
    let room = room("seeds");
    let found = each_seed(part_of(300).max(60), |seed| {
        let Search { bundle, standing, depth, .. } = any(&mut Dice::new(seed));
        let (mut out, mut tried) = ([0; 40], 0);
        let answer = Model.search(&bundle, &standing, Limits { depth, budget: 3_000 }, &mut out, &mut tried);
        let (path, budget) = (room.join(seed.to_string()), "--budget=3000");
        fs::write(&path, standing).expect("a table");
        let words = ["--standing", path.to_str().expect("a name"), "--depth", &depth.to_string(), budget, "--plain"];
        let got = searched(&words, &bundle);
        assert_eq!(got.status.code(), Some(i32::from(answer.refusal != 0)), "seed {seed}: {got:?}");
        let head = format!("result {} {} {}\ntried {tried}\nbudget 3000\n", answer.refusal, answer.place, answer.count);
        let shown = text(&got.stdout);
        assert!(shown.starts_with(&head), "seed {seed}: {shown}");
        let steps = shown.lines().filter_map(|line| line.strip_prefix("step "));
        let steps: Vec<u8> = steps
            .flat_map(|line| line.split(' ').skip(1).take(4))
            .map(|number| number.parse().expect("a byte"))
            .collect();
        let count = if answer.refusal == 0 && answer.count <= 8 { answer.count as usize } else { 0 };
        assert_eq!(steps, out[..4 * count], "seed {seed}");
        count
    });
    assert!(found.into_iter().filter(|&count| count > 0).count() as u64 > part_of(10));
}
