//! Lists at the command line: what is made is accepted; what is accepted says what that means; refusals show the configuration and the
//! step that leads outside; and the numbers are the model's.

mod start;

use judge::dice::{each_seed, part_of, seeds, Dice};
use judge::lists::{closure, ListOutline};
use judge::makers::bundles::{closed, with, without_steps};
use judge::makers::lists::{any, List};
use judge::model::{read, Model, Outline};
use judge::Checks;
use macaroosh::calls::Step;
use macaroosh::{ECHO, MOST_LISTED};
use start::given;
use std::fs;
use std::path::{Path, PathBuf};
use std::process::Output;

fn path_of(name: &str) -> String {
    let path = Path::new(env!("CARGO_MANIFEST_DIR")).join("../examples").join(name);
    path.to_str().expect("a name").to_string()
}

fn example(name: &str) -> Vec<u8> {
    fs::read(path_of(name)).expect("an example")
}

// An empty folder for a test.
fn room(name: &str) -> PathBuf {
    let room = Path::new(env!("CARGO_TARGET_TMPDIR")).join("lists").join(name);
    let _ = fs::remove_dir_all(&room);
    fs::create_dir_all(&room).expect("a folder");
    room
}

fn text(bytes: &[u8]) -> &str {
    std::str::from_utf8(bytes).expect("text")
}

fn bytes(words: &[u64]) -> Vec<u8> {
    words.iter().flat_map(|word| word.to_le_bytes()).collect()
}

// What a check says of a list, for the boards that have no echo to send.
fn checked(words: &[&str], list: &[u8]) -> Output {
    given(&[&["check", "-", "--of", &path_of("no-bubble.bundle")], words].concat(), list)
}

#[track_caller]
fn is(got: &Output, status: i32, output: &str, told: &str) {
    assert_eq!((got.status.code(), text(&got.stdout), text(&got.stderr)), (Some(status), output, told));
}

// The words of the example's eight configurations.
fn eight() -> Vec<Vec<u64>> {
    let all = example("no-bubble.list");
    let words = all.chunks(8).map(|word| u64::from(word[0])).collect::<Vec<u64>>();
    assert_eq!(bytes(&words), all);
    words.chunks(11).map(<[u64]>::to_vec).collect()
}

#[test]
fn what_is_made_is_accepted() {
    let out = room("made").join("out");
    let path = out.to_str().expect("a name");
    let bundle = example("no-bubble.bundle");
    let wrote = format!(
        "wrote 704 bytes to {path}: a list of 8 configurations, all that are reached, and no board of them is accepting\n"
    );
    is(&given(&["list", "-", "-o", path], &bundle), 0, "", &wrote);
    assert_eq!(fs::read(&out).expect("a list"), example("no-bubble.list"));
    is(&given(&["list", "-", "-o", path, "--plain"], &bundle), 0, "", "result 0 0 704\n");
    let got = given(&["list", "-"], &bundle);
    assert_eq!((got.status.code(), &got.stdout), (Some(0), &example("no-bubble.list")));
    let shown = "\
counting form, n = 4, t = 1, f = 1: boards 0 to 2 are correct, 3 is faulty
boards start in states 0 0 0
accepted: 8 configurations, the start among them; each possible step leads from one of them to another, and no board is accepting
no schedule of any length, in any form, with or without stops, puts a board in an accepting state from there
";
    is(&checked(&[], &example("no-bubble.list")), 0, shown, "");
    is(&checked(&["--plain"], &example("no-bubble.list")), 0, "result 0 0 8\n", "");
    let json = "{\"refusal\":0,\"place\":0,\"configurations\":8,\"form\":\"counting\",\"n\":4,\"t\":1,\"f\":1}\n";
    is(&checked(&["--json"], &example("no-bubble.list")), 0, json, "");
    // The bundle from standard input, and where options stand.
    let list = path_of("no-bubble.list");
    let of_bundle = path_of("no-bubble.bundle");
    is(&given(&["check", &list, "--of", "-"], &bundle), 0, shown, "");
    is(&given(&["check", "--of", &of_bundle, "--plain", &list], b""), 0, "result 0 0 8\n", "");
    is(&given(&["check", &list, &format!("--of={of_bundle}"), "--plain"], b""), 0, "result 0 0 8\n", "");
    is(&given(&["check", "--plain", "--of", "--", &of_bundle, &list], b""), 0, "result 0 0 8\n", "");
    // To a file, as it is shown.
    is(&checked(&["-o", path], &example("no-bubble.list")), 0, "", "");
    assert_eq!(text(&fs::read(&out).expect("what is shown")), shown);
}

#[test]
fn a_step_that_leads_outside_is_shown() {
    let told = "\
refused 73 at configuration 0: a possible step leads from the configuration to one that is not listed
configuration 0, counted from 0, is:
board  state  has type 0
    0  0             0+0
    1  0             0+0
    2  0             0+0
 sent                  0
board 0 can take rule 1 (0 -> 2), type 0 from a faulty board; as bytes: 00 01 00 01
that leads to a configuration that is not listed:
the state of board 0 becomes 2
what board 0 has of type 0 from faulty boards becomes 1
what was sent of type 0 becomes 1
";
    let list = example("no-bubble.list");
    let beside = ["--standing", &path_of("asks-t.table")];
    is(&checked(&beside, &list), 1, "", told);
    let plain = "result 73 0 0\nwords 0 0 0 0 0 0 0 0 0 0 0\nstep 0 1 0 1\n";
    is(&checked(&[&beside[..], &["--plain"]].concat(), &list), 1, plain, "");
    let got = checked(&[&beside[..], &["--json"]].concat(), &list);
    let json = text(&got.stdout);
    let why: Vec<String> = told.lines().skip(1).map(|line| format!("\"{line}\"")).collect();
    let expected = format!(
        "{{\"refusal\":73,\"place\":0,\"reason\":\"a possible step leads from the configuration to one that is not listed\",\
         \"why\":[{}],\"configurations\":0,\"form\":\"counting\",\"n\":4,\"t\":1,\"f\":1,\"words\":[0,0,0,0,0,0,0,0,0,0,0],\
         \"step\":{{\"board\":0,\"rule\":1,\"type\":0,\"source\":1}}}}\n",
        why.join(",")
    );
    assert_eq!((got.status.code(), json), (Some(1), &*expected));
    // The last dropped: a receipt leads there; nobody changes state and nothing is sent.
    let got = checked(&[], &list[..616]);
    let told = "\
board 0 can take rule 0 (0 -> 0), type 0 from a faulty board; as bytes: 00 00 00 01
that leads to a configuration that is not listed:
what board 0 has of type 0 from faulty boards becomes 1
";
    assert!(text(&got.stderr).starts_with("refused 73 at configuration 3: "), "{}", text(&got.stderr));
    assert!(text(&got.stderr).ends_with(told), "{}", text(&got.stderr));
    // A step without a message.
    let all = [[1, 0, 0, 0, 0], [2, 0, 0, 1, 0], [2, 1, 0, 1, 0]].concat();
    let out = room("silent").join("bundle");
    fs::write(&out, closed(&[1], &[], 1, [1, 0, 0, 1])).expect("a bundle");
    let got = given(&["check", "-", "--of", out.to_str().expect("a name")], &bytes(&all[..5]));
    let told = "\
board 0 can take rule 3 (1 -> 2), no message; as bytes: 00 03 FF FF
that leads to a configuration that is not listed:
the state of board 0 becomes 2
what was sent of type 0 becomes 1
";
    assert!(text(&got.stderr).ends_with(told), "{}", text(&got.stderr));
}

#[test]
fn other_refusals_are_told() {
    let list = example("no-bubble.list");
    let sizes = "refused 70: the bundle is not in counting form, has steps or over 6 correct boards, or the list is no whole number of \
                 configurations, has over 512 or is out of order\n";
    let lines = |list: &[u8]| text(&checked(&[], list).stderr).to_string();
    let of_bundle = |bundle: &[u8]| {
        let path = room("of-bundle").join("bundle");
        fs::write(&path, bundle).expect("a bundle");
        let got = given(&["check", "-", "--of", path.to_str().expect("a name")], &list);
        assert_eq!((got.status.code(), text(&got.stdout)), (Some(1), ""));
        text(&got.stderr).to_string()
    };
    // What is no list, whatever the bundle's own refusals are.
    assert_eq!(
        lines(&list[..696]),
        format!("{sizes}the list has 87 words, a configuration has 11, and there are at most 512\n")
    );
    assert_eq!(lines(&list[..703]), format!("{sizes}the list has 703 bytes, and a word has 8\n"));
    assert_eq!(lines(&[0]), format!("{sizes}the list has 1 byte, and a word has 8\n"));
    let other = "the list has 31 bytes, and a word has 8\nthis is a bundle; see run\n";
    assert_eq!(lines(&example("w.bundle")), format!("{sizes}{other}"));
    let many = vec![0; 8 * 11 * (MOST_LISTED + 1)];
    assert_eq!(
        lines(&many),
        format!("{sizes}the list has 5643 words, a configuration has 11, and there are at most 512\n")
    );
    let bundle = example("no-bubble.bundle");
    let message = [&bundle[..bundle.len() - 1], &[0]].concat();
    let form = "the bundle is in message form; translate --to counting writes it in counting form\n";
    assert_eq!(of_bundle(&message), format!("{sizes}{form}"));
    let wait = Step { board: 0, rule: 0, kind: 255, source: 255 };
    assert_eq!(of_bundle(&with(&bundle, wait)), format!("{sizes}the bundle has 1 step\n"));
    let seven = closed(&[0; 7], &[], 7, [8, 1, 1, 1]);
    assert_eq!(of_bundle(&seven), format!("{sizes}n - f is 7, and there are lists for at most 6\n"));
    let start = closed(&[0, 2, 0], &[], 3, [4, 1, 1, 1]);
    assert!(of_bundle(&start).starts_with("refused 14 at board 1: "));
    // A bundle's own refusal comes before that of bytes that are no words.
    let got = given(&["check", "-", "--of", &path_of("echo.table")], &[0]);
    assert!(text(&got.stderr).starts_with("refused 2: "), "{}", text(&got.stderr));
    assert_eq!(text(&checked(&["--plain"], &list[..703]).stdout), "result 70 0 0\n");
    // The start is missing.
    let rows = "\
board  state  has type 0
    0  0             0+0
    1  0             0+0
    2  0             0+0
 sent                  0
";
    let missing = format!("refused 72: the start is not listed\nthe start is:\n{rows}");
    assert_eq!(lines(&list[88..]), missing);
    assert_eq!(lines(&[]), missing);
    assert_eq!(text(&checked(&["--plain"], &[]).stdout), "result 72 0 0\n");
    let got = checked(&["--json"], &[]);
    assert!(text(&got.stdout).ends_with("\"words\":null,\"step\":null}\n"), "{}", text(&got.stdout));
}

#[test]
fn the_configuration_at_fault_is_shown() {
    let told = |all: &[Vec<u64>], lines: &str| {
        let got = checked(&[], &bytes(&all.concat()));
        assert_eq!((got.status.code(), text(&got.stdout)), (Some(1), ""));
        assert!(text(&got.stderr).ends_with(lines), "{}", text(&got.stderr));
        text(&checked(&["--plain"], &bytes(&all.concat())).stdout).to_string()
    };
    let mut all = eight();
    all.swap(3, 4);
    let plain = told(
        &all,
        "it does not come after configuration 3: word 4, what board 0 has of type 0 from faulty boards, is 1 there and 0 here\n",
    );
    assert_eq!(plain, "result 70 4 0\nwords 0 0 0 0 0 0 1 0 1 0 0\n");
    let mut all = eight();
    all.insert(2, all[2].clone());
    assert_eq!(told(&all, "it is the same as configuration 2\n"), "result 70 3 0\nwords 0 0 0 0 0 0 1 0 0 0 0\n");
    // Every word out of range is told.
    let mut all = eight();
    all[7] = vec![0, 4, 1 << 40, 4, 0, 0, 2, 3, 1, 9, 5];
    let plain = told(
        &all,
        "\
configuration 7, counted from 0, is:
board  state          has type 0
    0  0                     4+0
    1  4                     0+2
    2  1099511627776         3+1
 sent                          9
word 1, the state of board 1, is 4, and the table has 4 states
word 2, the state of board 2, is 1099511627776, and the table has 4 states
word 3, what board 0 has of type 0 from correct boards, is 4, and n - f is 3
word 6, what board 1 has of type 0 from faulty boards, is 2, and f is 1
word 9, what was sent of type 0, is 9, and n - f is 3
word 10, the set of stopped boards, is 5, and nobody is stopped in a list
",
    );
    assert_eq!(plain, "result 71 7 0\nwords 0 4 1099511627776 4 0 0 2 3 1 9 5\n");
    let mut all = eight();
    all.push(vec![3, 0, 0, 0, 1, 0, 1, 0, 1, 0, 0]);
    let plain = told(
        &all,
        "\
refused 74 at configuration 8: a board of the configuration is in an accepting state
configuration 8, counted from 0, is:
board  state        has type 0
    0  3 accepting         0+1
    1  0                   0+1
    2  0                   0+1
 sent                        0
board 0 is in state 3, which is accepting
",
    );
    assert_eq!(plain, "result 74 8 0\nwords 3 0 0 0 1 0 1 0 1 0 0\n");
}

// The table of the largest sizes with a state that no rule leaves and one with all rules: from there, of so many faulty boards, each
// board hears what there is.
fn hearing(correct: u8, faulty: u8) -> Vec<u8> {
    let table = [1, 0, 0, 0, 0, 0, 0, 7, 0, 5, 0, 1, 1, 1, 1];
    [&table[..], &closed(&vec![0; correct.into()], &[], correct.into(), [correct + faulty, faulty, faulty, 1])].concat()
}

#[test]
fn an_accepting_one_and_too_many_are_told_and_nothing_is_written() {
    let out = room("none").join("out");
    let path = out.to_str().expect("a name");
    let none = |bundle: &[u8], told: &str, plain: &str| {
        is(&given(&["list", "-", "-o", path], bundle), 1, "", told);
        is(&given(&["list", "-", "-o", path, "--plain"], bundle), 1, "", plain);
        is(&given(&["list", "-"], bundle), 1, "", told);
        assert!(!out.exists());
    };
    let accepting = "\
board 1 ends in an accepting state after 4 steps, so that there is no list that is accepted
after each step: what its board has (from correct + faulty boards), and what was sent
senders are those that the translation chooses

step  board  rule  from -> to           receives              tag        sends   has type 0  sent type 0
   0      0     3     1 -> 2            no message                       type 0         0+0            1
   1      1     3     1 -> 2            type 0 from board 0   0 correct  type 0         1+0            2
   2      1     4     2 -> 2            type 0 from board 1   0 correct                 2+0            2
   3      1     5     2 -> 3 accepting  type 0 from faulty 3  1 faulty                  2+1            2
";
    let plain = "accepting 4\nstep 0 0 3 255 255\nstep 1 1 3 0 0\nstep 2 1 4 0 0\nstep 3 1 5 0 1\n";
    none(&example("bubble.bundle"), accepting, plain);
    // At the start already, of one board and of two.
    let table = [3, 0, 0, 0, 0, 0, 0, 7, 0, 5, 0, 1, 1, 1, 1];
    let starting =
        |boards: u8| [&table[..], &closed(&vec![0; boards.into()], &[], boards.into(), [boards, 0, 0, 1])].concat();
    none(
        &starting(1),
        "board 0 starts in an accepting state, so that there is no list that is accepted\n",
        "accepting 0\n",
    );
    none(
        &starting(2),
        "boards 0 and 1 start in accepting states, so that there is no list that is accepted\n",
        "accepting 0\n",
    );
    // Six boards that hear of two faulty ones: 3^6 configurations.
    none(&hearing(6, 2), "over 512 configurations are reached, and a list has at most 512\n", "over 512\n");
    let told = "refused 70: the bundle is not in counting form, has steps or over 6 correct boards, or the list is no whole number of \
                configurations, has over 512 or is out of order\n";
    none(&example("w-counting.bundle"), &format!("{told}the bundle has 5 steps\n"), "result 70 0 0\n");
    none(&hearing(7, 0), &format!("{told}n - f is 7, and there are lists for at most 6\n"), "result 70 0 0\n");
    none(b"", "refused 10: the bundle is under 8 bytes\n", "result 10 0 0\n");
    // A file that is there stays.
    fs::write(&out, "kept").expect("a file");
    assert_eq!(given(&["list", "-", "-o", path], &example("bubble.bundle")).status.code(), Some(1));
    assert_eq!(fs::read(&out).expect("the file"), b"kept");
}

#[test]
fn up_to_the_most_is_listed() {
    // Three faulty boards and four correct ones: 4^4 configurations. Nine and one board: 10.
    for (correct, faulty, many) in [(4, 3, 256), (1, 9, 10), (3, 7, 512), (5, 2, 243), (6, 1, 64)] {
        let bundle = hearing(correct, faulty);
        let out = room(&format!("most-{correct}")).join("list");
        let path = out.to_str().expect("a name");
        let got = given(&["list", "-", "-o", path], &bundle);
        assert!(
            text(&got.stderr).contains(&format!(": a list of {many} configurations, all")),
            "{}",
            text(&got.stderr)
        );
        is(&given(&["check", path, "--of", "-", "--plain"], &bundle), 0, &format!("result 0 0 {many}\n"), "");
    }
}

#[test]
fn bad_use_is_told() {
    let wrong = [
        (&["check", "x"][..], "of which bundle? As 'check LIST --of BUNDLE'"),
        (&["check", "x", "y"], "of which bundle? As 'check LIST --of BUNDLE'"),
        (&["check", "x", "--of"], "--of needs a bundle after it"),
        (&["check", "x", "--of="], "--of needs a bundle after it"),
        (&["check", "--of", "x"], "which list? Name a file, or '-' for standard input"),
        (&["check", "x", "--of", "y", "--of", "z"], "--of is given twice"),
        (&["check", "x", "--of", "y", "z"], "one list at a time: 'z' is one word too many"),
        (&["check", "-", "--of", "-"], "only one of list and bundle can come from standard input"),
        (
            &["check", "x", "--of", "-", "--standing", "-"],
            "only one of bundle and standing table can come from standard input",
        ),
        (&["check", "x", "--of", "y", "--partial"], "--partial is for run and trace alone"),
        (&["check", "x", "--of", "y", "--plain", "--json"], "--plain and --json are two ways to give one answer"),
        (&["check", "x", "--of", "y", "--depth", "3"], "--depth and --budget are for search alone"),
        (&["list"], "which bundle? Name a file, or '-' for standard input"),
        (&["list", "x", "y"], "one bundle at a time: 'y' is one word too many"),
        (&["list", "x", "--of", "y"], "--of is for draw and check alone"),
        (&["list", "x", "--json"], "--json is for run, trace, first, replay, search and check alone"),
        (&["list", "-", "--standing", "-"], "only one of bundle and standing table can come from standard input"),
    ];
    for (words, told) in wrong {
        let got = given(words, b"");
        assert_eq!((got.status.code(), text(&got.stdout)), (Some(2), ""), "{words:?}");
        assert!(text(&got.stderr).starts_with(&format!("macaroosh: {told}")), "{words:?}: {}", text(&got.stderr));
    }
    let long = vec![0; (1 << 20) + 1];
    let told = "macaroosh: standard input is over 1048576 bytes; a list has at most 241664\n";
    is(&checked(&[], &long), 2, "", told);
}

// The step of a refusal with 73 leads from that configuration to one that is not listed, and is the first that does.
fn leads_outside(seed: u64, list: &List, place: usize, step: &str) {
    let whole = read(&list.bundle, &list.standing).expect("a bundle");
    let all: Vec<&[u64]> = list.words.chunks(Model.wide(&whole)).collect();
    let here = judge::lists::configuration(&whole, all[place]);
    let outside = |step: &Step| Model.led(&whole, &here, *step).map_or(false, |there| !all.contains(&&there[..]));
    let first = Model.steps(&whole).into_iter().find(outside).expect("a step");
    let Step { board, rule, kind, source } = first;
    assert_eq!(step, format!("step {board} {rule} {kind} {source}\n"), "seed {seed}");
}

#[test]
fn numbers_are_those_of_the_model() {
    let room = room("seeds");
    let refusals = each_seed(seeds("LISTS", part_of(400).max(120)), |seed| {
        let list = any(&mut Dice::new(seed));
        let List { bundle, standing, words, .. } = &list;
        let answer = Model.check_list(bundle, standing, words);
        let [table, of] = ["table", "bundle"].map(|name| room.join(format!("{seed}-{name}")));
        fs::write(&table, standing).expect("a table");
        fs::write(&of, bundle).expect("a bundle");
        let [table, of] = [table, of].map(|path| path.to_str().expect("a name").to_string());
        let got = given(&["check", "-", "--of", &of, "--standing", &table, "--plain"], &bytes(words));
        assert_eq!(got.status.code(), Some(i32::from(answer.refusal != 0)), "seed {seed}: {got:?}");
        let head = format!("result {} {} {}\n", answer.refusal, answer.place, answer.count);
        let shown = text(&got.stdout).strip_prefix(&head).unwrap_or_else(|| panic!("seed {seed}: {got:?}"));
        let (listed, step) = shown.split_at(shown.find("step").unwrap_or(shown.len()));
        let at_fault = (answer.refusal, answer.place) != (70, 0) && [70, 71, 73, 74].contains(&answer.refusal);
        if at_fault {
            let wide = Model.wide(&read(bundle, standing).expect("a bundle"));
            let words = words.chunks(wide).nth(answer.place as usize).expect("a configuration");
            let line: String = words.iter().map(|word| format!(" {word}")).collect();
            assert_eq!(listed, format!("words{line}\n"), "seed {seed}");
        } else {
            assert_eq!(listed, "", "seed {seed}");
        }
        match answer.refusal {
            73 => leads_outside(seed, &list, answer.place as usize, step),
            _ => assert_eq!(step, "", "seed {seed}"),
        }
        answer.refusal
    });
    for number in [0, 70, 71, 72, 73, 74] {
        assert!(refusals.contains(&number), "{number}: {refusals:?}");
    }
}

#[test]
fn what_is_listed_is_what_the_model_reaches() {
    let room = room("reached");
    let made = each_seed(seeds("LISTS", part_of(400).max(120)), |seed| {
        let List { bundle, standing, .. } = any(&mut Dice::new(seed));
        let checked = Model.check_list(&bundle, &standing, &[]);
        let table = room.join(seed.to_string());
        fs::write(&table, &standing).expect("a table");
        let got = given(&["list", "-", "--standing", table.to_str().expect("a name"), "--plain"], &bundle);
        if checked.refusal != 72 {
            let told = format!("result {} {} 0\n", checked.refusal, checked.place);
            is(&got, 1, "", &told);
            return "refused";
        }
        let whole = read(&bundle, &standing).expect("a bundle");
        let start = whole.start().words();
        match closure(&whole, &[start], MOST_LISTED) {
            Some(all) if !all.iter().any(|words| Model.accepting(&whole, words)) => {
                assert_eq!((got.status.code(), &got.stdout), (Some(0), &bytes(&all.concat())), "seed {seed}");
                "listed"
            }
            all => {
                assert_eq!((got.status.code(), &got.stdout), (Some(1), &Vec::new()), "seed {seed}");
                let told = text(&got.stderr);
                if told == "over 512\n" {
                    assert!(all.is_none(), "seed {seed}");
                    return "too many";
                }
                // The model runs the steps that are told, and a board accepts after the last alone.
                let steps = told.lines().skip(1).map(|line| {
                    let numbers = line.split(' ').skip(2).map(|number| number.parse().expect("a byte"));
                    let numbers: Vec<u8> = numbers.collect();
                    Step::of([numbers[0], numbers[1], numbers[2], numbers[3]])
                });
                let steps: Vec<Step> = steps.collect();
                assert!(told.starts_with(&format!("accepting {}\n", steps.len())), "seed {seed}: {told}");
                for length in 0..=steps.len() {
                    let longer =
                        steps[..length].iter().fold(without_steps(&bundle), |bundle, &step| with(&bundle, step));
                    let (left, refusal) = Model.run_steps(&read(&longer, &standing).expect("a bundle"));
                    assert_eq!(refusal, None, "seed {seed}");
                    assert_eq!(Model.accepting(&whole, &left.words()), length == steps.len(), "seed {seed}");
                }
                "accepting"
            }
        }
    });
    for kind in ["refused", "listed", "accepting"] {
        assert!(made.contains(&kind), "{kind}");
    }
}

#[test]
fn the_example_is_what_is_listed() {
    let whole = read(&example("no-bubble.bundle"), &ECHO).expect("a bundle");
    assert_eq!(closure(&whole, &[whole.start().words()], MOST_LISTED), Some(eight()));
}
