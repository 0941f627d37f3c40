//! Images of a table: each state and rule is in them once, thresholds are in words, and what Graphviz does wrong is told.

use judge::dice::{each_seed, part_of, seeds, Dice};
use judge::drawings::Drawing;
use judge::makers::sketches;
use judge::model::{read_table, Coefficients, Rule, Table};
use std::collections::{BTreeMap, BTreeSet};
use std::ffi::OsStr;
use std::fs;
use std::io::Write;
use std::path::{Path, PathBuf};
use std::process::{Command, Output, Stdio};

const PROGRAM: &str = env!("CARGO_BIN_EXE_macaroosh");

// Rules by number: their arrow, and what they ask for of each type.
type Rules = BTreeMap<usize, (String, BTreeMap<usize, Coefficients>)>;
// a, b and d, and the words for them after a rule's number.
type Words = &'static [([i8; 3], &'static str)];

// A shell that starts the program, under the emulator where the build was for another processor; of other programs it finds
// only those in a folder.
fn program(folder: Option<&Path>) -> Command {
    let mut command = Command::new("sh");
    command.args(["-c", "first=$(command -v \"$2\"); PATH=${1:-$PATH}; shift 2; exec \"$first\" \"$@\"", "sh"]);
    command.arg(folder.map_or(OsStr::new(""), Path::as_os_str));
    command.args(std::env::var_os("MACAROOSH_RUNNER")).arg(PROGRAM);
    command
}

fn drawn(words: &[&str], table: &[u8]) -> Output {
    let mut command = program(None);
    command.arg("draw").args(words).arg("-");
    let mut child =
        command.stdin(Stdio::piped()).stdout(Stdio::piped()).stderr(Stdio::piped()).spawn().expect("a shell");
    child.stdin.take().expect("its input").write_all(table).expect("the table is read");
    child.wait_with_output().expect("the program ends")
}

fn example(name: &str) -> PathBuf {
    Path::new(env!("CARGO_MANIFEST_DIR")).join("../examples").join(name)
}

fn echo() -> Vec<u8> {
    fs::read(example("echo.table")).expect("an example")
}

// An empty folder for a test.
fn room(name: &str) -> PathBuf {
    let room = Path::new(env!("CARGO_TARGET_TMPDIR")).join(name);
    let _ = fs::remove_dir_all(&room);
    fs::create_dir_all(&room).expect("a folder");
    room
}

fn text(bytes: &[u8]) -> &str {
    std::str::from_utf8(bytes).expect("text")
}

// What an image shows: lines of text and their heights, by name of what they stand in, and how many lines go round it.
#[derive(Debug)]
struct Shown {
    nodes: BTreeMap<String, Node>,
    edges: BTreeSet<String>,
    legend: Vec<String>,
}

#[derive(Debug)]
struct Node {
    lines: Vec<String>,
    heights: BTreeSet<String>,
    around: usize,
}

impl Shown {
    fn of(svg: &str) -> Shown {
        let mut groups = svg.split("<g id=\"").skip(1);
        let legend = texts(groups.next().expect("a graph")).map(|(_, line)| line).collect();
        let mut shown = Shown { nodes: BTreeMap::new(), edges: BTreeSet::new(), legend };
        for group in groups {
            let title = unescaped(between(group, "<title>", "</title>").expect("a title"));
            let new = if group.contains("class=\"edge\"") {
                shown.edges.insert(title.clone())
            } else {
                shown.nodes.insert(title.clone(), Node::of(group)).is_none()
            };
            assert!(new, "{title} is there twice");
        }
        shown
    }

    fn lines(&self, name: &str) -> &[String] {
        self.nodes.get(name).map_or(&[], |node| &node.lines)
    }
}

impl Node {
    fn of(group: &str) -> Node {
        let (heights, lines) = texts(group).unzip();
        Node { lines, heights, around: group.matches("<ellipse").count() }
    }
}

fn between<'a>(text: &'a str, start: &str, end: &str) -> Option<&'a str> {
    text.split_once(start)?.1.split_once(end).map(|(inside, _)| inside)
}

// Height and words of each text.
fn texts(group: &str) -> impl Iterator<Item = (String, String)> + '_ {
    group.split("<text ").skip(1).map(|rest| {
        let height = between(rest, " y=\"", "\"").expect("a height");
        (height.to_string(), unescaped(between(rest, ">", "</text>").expect("words")))
    })
}

fn unescaped(text: &str) -> String {
    let signs = [("&#45;", "-"), ("&#160;", "\u{a0}"), ("&gt;", ">"), ("&lt;", "<"), ("&quot;", "\""), ("&amp;", "&")];
    signs.iter().fold(text.to_string(), |text, (from, to)| text.replace(from, to))
}

#[track_caller]
fn shown(table: &[u8]) -> Shown {
    let got = drawn(&["--svg"], table);
    assert_eq!(got.status.code(), Some(0), "{}", text(&got.stderr));
    Shown::of(text(&got.stdout))
}

// The types byte of one type in each edition.
const ONE_TYPE: [usize; 2] = [1, 17];

// A table of one type and states s0 and s1 by its rules: their ends and what they ask for.
fn table(types_byte: usize, factor: usize, rules: &[(usize, usize, Coefficients)]) -> Vec<u8> {
    let rule =
        |&(from, to, coefficients): &(usize, usize, Coefficients)| Rule { from, to, coefficients: vec![coefficients] };
    Drawing { types_byte, factor, states: vec![[1, 0], [2, 0]], rules: rules.iter().map(rule).collect() }.bytes()
}

#[test]
fn the_echo_table_is_in_words() {
    let shown = shown(&echo());
    let expected = [
        ("s0", &["s0"][..]),
        ("s0 to s0", &["0:"]),
        ("s0 to s2", &["1: ≥ t + 1"]),
        ("s0 to s3", &["2: ≥ n − t"]),
        ("s1", &["s1"]),
        ("s1 to s2", &["3:"]),
        ("s2", &["s2", "sent 0"]),
        ("s2 to s2", &["4:"]),
        ("s2 to s3", &["5: ≥ n − t"]),
        ("s3", &["s3", "sent 0"]),
        ("s3 to s3", &["6:"]),
    ];
    let lines: Vec<(&str, Vec<&str>)> =
        shown.nodes.iter().map(|(name, node)| (&**name, node.lines.iter().map(|line| &**line).collect())).collect();
    assert_eq!(lines, expected.map(|(name, lines)| (name, lines.to_vec())));
    assert_eq!(["s0", "s1", "s2", "s3"].map(|name| shown.nodes[name].around), [1, 1, 1, 2]);
    let arrows = expected.iter().filter_map(|(name, _)| Some((name, name.split_once(" to ")?)));
    let mut edges: BTreeSet<String> =
        arrows.flat_map(|(name, (from, to))| [format!("{from}->{name}"), format!("{name}->{to}")]).collect();
    edges.extend(["start in s0->s0".to_string(), "start in s1->s1".to_string()]);
    assert_eq!(shown.edges, edges);
}

#[test]
fn the_legend_says_what_the_signs_mean() {
    let legend = [
        ["arrow from nowhere", "a board may start in this state"],
        ["double line", "the state is accepting"],
        ["sent 0", "a board in this state has sent its message of type 0 (T = 1)"],
        ["3:", "rule 3, counted from 0; nothing after it: the rule asks for no message"],
        ["≥ t + 1", "to take the rule, a board must have messages from at least t + 1 boards"],
        ["n, t", "how many boards there are, and how many faulty ones are tolerated: n > 3t (k = 3)"],
    ];
    assert_eq!(shown(&echo()).legend, legend.concat());
    let rules = vec![Rule { from: 0, to: 0, coefficients: vec![Coefficients::whole([0; 3]); 2] }];
    for types_byte in [2, 18] {
        let two = Drawing { types_byte, factor: 1, states: vec![[1, 0]], rules: rules.clone() };
        let said = shown(&two.bytes()).legend.join("\n");
        for line in [
            "of type 0 (T = 2)\n",
            "\ntype 1 ≥ t + 1\nto take the rule, a board must have messages of type 1 from at least t + 1 boards\n",
            "\nseveral lines\nof one rule: each must hold\n",
            ": n > t (k = 1)",
        ] {
            assert!(said.contains(line), "{line}: {said}");
        }
    }
}

#[test]
fn rules_between_the_same_states_are_below_each_other_on_one_arrow() {
    let rules = [(0, 1, 1, [56, -1, 0]), (1, 1, 8, [0, 0, 0]), (0, 1, 3, [2, 1, -2]), (1, 1, 2, [0, 0, 3])];
    let rules = rules.map(|(from, to, e, sum)| (from, to, Coefficients::over(e, sum)));
    let shown = shown(&table(17, 3, &rules));
    assert_eq!(shown.lines("s0 to s1"), ["0: ≥ 56n − t", "2: ≥ (2n + t − 2)/3"]);
    assert_eq!(shown.lines("s1 to s1"), ["1:", "3: ≥ 3/2"]);
    assert_eq!(["s0 to s1", "s1 to s1"].map(|name| shown.nodes[name].heights.len()), [2, 2]);
    // Two halves of each arrow, and the one from nowhere.
    assert_eq!(shown.edges.len(), 5);
}

// By factor k.
const WORDS: [(usize, Words); 4] = [
    (
        1,
        &[
            ([0, 0, 0], ""),
            ([0, 0, 1], " ≥ 1"),
            ([0, 0, -1], ""),
            ([0, 1, -62], " ≥ t − 62"),
            ([0, 1, -63], ""),
            ([1, 0, -63], " ≥ n − 63"),
            ([1, 0, -64], ""),
            ([-1, 1, 1], ""),
            ([-1, 1, 2], " ≥ −n + t + 2"),
            ([-128, 127, 127], ""),
            ([-127, 127, 127], ""),
            ([-126, 127, 127], " ≥ −126n + 127t + 127"),
            ([127, 127, 127], " ≥ 127n + 127t + 127"),
            ([-128, -128, -128], ""),
            ([-128, -128, 127], ""),
        ],
    ),
    (
        3,
        &[
            ([0, 1, 1], " ≥ t + 1"),
            ([1, -1, 0], " ≥ n − t"),
            ([-1, 0, 5], " ≥ −n + 5"),
            ([2, -3, 4], " ≥ 2n − 3t + 4"),
            ([1, 0, 0], " ≥ n"),
            ([0, 1, 0], " ≥ t"),
            ([0, -1, 0], ""),
            ([0, -1, 1], " ≥ −t + 1"),
            ([-1, 3, 1], ""),
            ([-1, 3, 2], " ≥ −n + 3t + 2"),
            ([-2, 0, 2], ""),
            ([0, -128, 127], " ≥ −128t + 127"),
            ([10, 1, 10], " ≥ 10n + t + 10"),
        ],
    ),
    (7, &[([-1, 8, 0], " ≥ −n + 8t")]),
    (8, &[([-1, 8, 0], ""), ([0, 1, -6], " ≥ t − 6"), ([0, 1, -7], "")]),
];

// The words for the rules of a state, where each asks for one of these.
#[track_caller]
fn are_written(types_byte: usize, factor: usize, asked: impl Iterator<Item = (Coefficients, &'static str)>) {
    let (asked, words): (Vec<Coefficients>, Vec<&str>) = asked.unzip();
    let rules: Vec<(usize, usize, Coefficients)> = asked.into_iter().map(|coefficients| (0, 0, coefficients)).collect();
    let expected: Vec<String> = words.iter().enumerate().map(|(r, words)| format!("{r}:{words}")).collect();
    let table = table(types_byte, factor, &rules);
    assert_eq!(shown(&table).lines("s0 to s0"), expected, "types byte {types_byte}, k = {factor}");
}

#[test]
fn thresholds_are_written_as_people_do() {
    for (types_byte, (factor, words)) in ONE_TYPE.into_iter().flat_map(|byte| WORDS.map(|words| (byte, words))) {
        are_written(types_byte, factor, words.iter().map(|&(sum, words)| (Coefficients::whole(sum), words)));
    }
}

// By divisor, under k = 3: a sum of 1 over 8 still asks for 1, and one of 0 for nothing.
const DIVIDED: [(u8, [i8; 3], &str); 16] = [
    (2, [1, 1, 1], " ≥ (n + t + 1)/2"),
    (2, [1, 0, 0], " ≥ n/2"),
    (3, [2, 0, 0], " ≥ 2n/3"),
    (3, [0, 1, 0], " ≥ t/3"),
    (8, [0, 0, 1], " ≥ 1/8"),
    (8, [0, 0, 0], ""),
    (8, [0, 0, -1], ""),
    (8, [0, 0, 127], " ≥ 127/8"),
    (8, [1, 0, -63], " ≥ (n − 63)/8"),
    (8, [1, 0, -64], ""),
    (7, [-1, 3, 2], " ≥ (−n + 3t + 2)/7"),
    (7, [-1, 3, 1], ""),
    (4, [0, -1, 1], " ≥ (−t + 1)/4"),
    (5, [-128, -128, -128], ""),
    (6, [127, 127, 127], " ≥ (127n + 127t + 127)/6"),
    (1, [1, 1, 1], " ≥ n + t + 1"),
];

#[test]
fn divisors_are_written_as_fractions() {
    are_written(17, 3, DIVIDED.into_iter().map(|(e, sum, words)| (Coefficients::over(e, sum), words)));
}

// The greatest value of a threshold over all admitted n and t.
fn greatest(Coefficients { a, b, d, e }: Coefficients, factor: u32) -> i32 {
    let pairs = (1..=64).flat_map(|n| (0..=64).map(move |t| (n, t))).filter(|(n, t)| *n > factor as i32 * t);
    let sum = pairs.map(|(n, t)| i32::from(a) * n + i32::from(b) * t + i32::from(d)).max().expect("a pair");
    // More than the next whole number below the next lower sum.
    (sum - 1).div_euclid(i32::from(e)) + 1
}

// The threshold that words say: a sum, or over a divisor one that is in brackets where it has several terms.
fn read_words(words: &str) -> Coefficients {
    let (sum, e) = match words.split_once('/') {
        Some((sum, e)) => (sum, e.parse().unwrap_or_else(|_| panic!("no divisor: {words}"))),
        None => return Coefficients::whole(read_sum(words)),
    };
    assert_ne!(e, 1, "{words}");
    let inside = sum.strip_prefix('(').and_then(|sum| sum.strip_suffix(')'));
    assert_eq!(inside.is_some(), inside.unwrap_or(sum).contains(' '), "{words}");
    Coefficients::over(e, read_sum(inside.unwrap_or(sum)))
}

// a, b and d, read from the left: signs and blanks, then a number, n or t.
fn read_sum(words: &str) -> [i8; 3] {
    let mut threshold = [0; 3];
    let spaced = words.replace('−', "-").replace(" - ", " -").replace(" + ", " ");
    for part in spaced.split(' ') {
        let (at, number) = match (part.strip_suffix('n'), part.strip_suffix('t')) {
            (Some(number), _) => (0, number),
            (_, Some(number)) => (1, number),
            _ => (2, part),
        };
        assert_eq!(threshold[at], 0, "{words}");
        threshold[at] = match number {
            "" => 1,
            "-" => -1,
            _ => number.parse().unwrap_or_else(|_| panic!("no number: {words}")),
        };
    }
    threshold
}

// What a line asks for: `≥ t + 1`, or of several types `type 1 ≥ t + 1`.
fn read_asked(said: &str, types: usize) -> (usize, Coefficients) {
    let (of, words) = said.split_once("≥ ").unwrap_or_else(|| panic!("no threshold: {said}"));
    let m = match of.strip_prefix("type ").and_then(|m| m.strip_suffix(' ')) {
        Some(m) if types > 1 => m.parse().expect("a type"),
        None if types == 1 && of.is_empty() => 0,
        _ => panic!("no type: {said}"),
    };
    (m, read_words(words))
}

// A rule's number, where its first line is, and what the line asks for.
fn read_line(line: &str, types: usize) -> (Option<usize>, Option<(usize, Coefficients)>) {
    let (number, said) = match line.split_once(':') {
        Some((number, said)) => (Some(number.parse().expect("a rule's number")), said),
        None => (None, line),
    };
    let said = Some(said.trim_start()).filter(|said| !said.is_empty());
    (number, said.map(|said| read_asked(said, types)))
}

// The rules that an image shows, each once, and no two lines at one height.
fn rules_of(shown: &Shown, types: usize) -> Rules {
    let mut rules = Rules::new();
    for (name, node) in shown.nodes.iter().filter(|(name, _)| name.contains(" to ")) {
        assert_eq!(node.heights.len(), node.lines.len(), "{name}");
        let mut last = None;
        for line in &node.lines {
            let (number, asked) = read_line(line, types);
            let new = number.map_or(true, |r| rules.insert(r, (name.clone(), BTreeMap::new())).is_none());
            assert!(new, "{line} is there twice");
            last = number.or(last);
            let rule = last.and_then(|r| rules.get_mut(&r)).expect("a rule's number before");
            let new = asked.map_or(true, |(m, threshold)| rule.1.insert(m, threshold).is_none());
            assert!(new, "{line} asks twice");
        }
    }
    rules
}

// The rules of a table, with what they ask for.
fn rules_expected(table: &Table) -> Rules {
    let asked = |rule: &Rule| {
        let all = rule.coefficients.iter().copied().enumerate();
        all.filter(|(_, threshold)| greatest(*threshold, table.factor) > 0).collect()
    };
    let rules = table.rules.iter().map(|rule| (format!("s{} to s{}", rule.from, rule.to), asked(rule)));
    rules.enumerate().collect()
}

// Each state once, with what it has sent, an arrow from nowhere and a double line where there is one.
fn states_are_shown(shown: &Shown, table: &Table) {
    for (s, state) in table.states.iter().enumerate() {
        let sent: Vec<String> = (0..table.types).filter(|m| state.sent >> m & 1 == 1).map(|m| m.to_string()).collect();
        let mut lines = vec![format!("s{s}")];
        lines.extend(Some(sent.join(", ")).filter(|sent| !sent.is_empty()).map(|sent| format!("sent {sent}")));
        let node = &shown.nodes[&lines[0]];
        assert_eq!((&node.lines, node.around), (&lines, 1 + usize::from(state.accepting)));
        assert_eq!(shown.edges.contains(&format!("start in s{s}->s{s}")), state.initial);
    }
}

// An image shows a table's states and rules and nothing else.
fn is_shown(table: &Table, svg: &str) {
    let shown = Shown::of(svg);
    let (rules, expected) = (rules_of(&shown, table.types), rules_expected(table));
    assert_eq!(rules, expected);
    states_are_shown(&shown, table);
    let arrows: BTreeSet<&String> = expected.values().map(|(name, _)| name).collect();
    let starts = table.states.iter().filter(|state| state.initial).count();
    assert_eq!(shown.nodes.len(), table.states.len() + arrows.len());
    assert_eq!(shown.edges.len(), 2 * arrows.len() + starts);
    for name in arrows {
        let (from, to) = name.split_once(" to ").expect("two states");
        assert!(shown.edges.contains(&format!("{from}->{name}")) && shown.edges.contains(&format!("{name}->{to}")));
    }
}

#[test]
fn every_table_is_shown_whole_or_refused_as_its_drawing_is() {
    let accepted = each_seed(seeds("PICTURES", part_of(500)), |seed| {
        let bytes = sketches::table(&mut Dice::new(seed));
        let got = drawn(&["--svg"], &bytes);
        match read_table(&bytes) {
            Ok(table) => {
                assert_eq!(got.status.code(), Some(0), "seed {seed}: {}", text(&got.stderr));
                is_shown(&table, text(&got.stdout));
                1
            }
            Err(_) => {
                assert_eq!(got, drawn(&[], &bytes), "seed {seed}");
                assert_eq!((got.status.code(), text(&got.stdout)), (Some(1), ""), "seed {seed}");
                0
            }
        }
    });
    assert!(2 * accepted.iter().sum::<usize>() > accepted.len());
}

// Coefficients near the edge, where the greatest value is about 0.
fn near_the_edge(dice: &mut Dice, e: u8, factor: u32) -> Coefficients {
    let small = |dice: &mut Dice| dice.below(9) as i8 - 4;
    let (a, b) = (small(dice), small(dice));
    let d = i8::try_from(-greatest(Coefficients::whole([a, b, 0]), factor)).unwrap_or(-128);
    let around = dice.below(4 * usize::from(e)) as i8 - (2 * e as i8 - 1);
    Coefficients::over(e, [a, b, d.saturating_add(around)])
}

#[test]
fn nothing_is_asked_for_exactly_where_no_n_and_t_ask() {
    for (factor, types_byte) in (1..=8).flat_map(|factor| [(factor, 4), (factor, 20)]) {
        let dice = &mut Dice::new(u64::from(factor));
        let most = if types_byte == 20 { 8 } else { 1 };
        let mut any = |_| {
            let e = dice.between(1, most) as u8;
            near_the_edge(dice, e, factor)
        };
        let mut rule = |_| Rule { from: 0, to: 0, coefficients: (0..4).map(&mut any).collect() };
        let rules: Vec<Rule> = (0..64).map(&mut rule).collect();
        let edge = Drawing { types_byte, factor: factor as usize, states: vec![[1, 0]], rules }.bytes();
        let table = read_table(&edge).expect("a table");
        let all = table.rules.iter().flat_map(|rule| &rule.coefficients);
        let values: BTreeSet<i32> = all.map(|&coefficients| greatest(coefficients, factor)).collect();
        assert!((-1..=2).all(|value| values.contains(&value)), "k = {factor}: {values:?}");
        assert_eq!(rules_of(&shown(&edge), 4), rules_expected(&table), "k = {factor}");
    }
}

#[test]
fn the_drawing_stays_to_the_byte() {
    let got = drawn(&[], &echo());
    assert_eq!((got.status.code(), got.stdout), (Some(0), fs::read(example("echo.dot")).expect("an example")));
}

#[test]
fn programs_are_told_the_length_of_the_image() {
    let room = room("length-of-image");
    for (option, begins) in [("--svg", &b"<?xml"[..]), ("--png", b"\x89PNG\r\n")] {
        let got = drawn(&[option, "--plain"], &echo());
        assert_eq!((got.status.code(), text(&got.stderr)), (Some(0), &*format!("result 0 0 {}\n", got.stdout.len())));
        assert!(got.stdout.starts_with(begins));
        let out = room.join(option);
        let path = out.to_str().expect("a name");
        let told = drawn(&[option, "-o", path], &echo()).stderr;
        let written = fs::read(&out).expect("the image");
        let expected = format!("wrote {} bytes to {path}: an image of 4 states and 7 rules\n", written.len());
        assert_eq!((text(&told), written), (&*expected, got.stdout));
    }
}

// What is told where Graphviz's program is this script; the output stays as it was.
#[track_caller]
fn told_with(name: &str, script: &str) -> String {
    let room = room(name);
    let (dot, out) = (room.join("dot"), room.join("out"));
    fs::write(&out, "as it was").expect("a file");
    // Written by a shell, so that no program that another test starts meanwhile has it open.
    let write = "printf '#!/bin/sh\\n%s\\n' \"$2\" >\"$1\" && chmod +x \"$1\"";
    let made = Command::new("sh").args(["-c", write, "sh"]).arg(&dot).arg(script).status().expect("a shell");
    assert!(made.success());
    let words = [OsStr::new("--svg"), OsStr::new("-o"), out.as_os_str()];
    let got = program(Some(&room)).arg("draw").arg(example("echo.table")).args(words).output().expect("a shell");
    assert_eq!((got.status.code(), text(&got.stdout)), (Some(2), ""), "{}", text(&got.stderr));
    assert_eq!(fs::read(&out).expect("the file"), b"as it was");
    let told = text(&got.stderr).strip_prefix("macaroosh: Graphviz's program 'dot' gave no image: ");
    told.unwrap_or_else(|| panic!("{}", text(&got.stderr))).to_string()
}

#[test]
fn an_empty_image_is_none() {
    assert_eq!(told_with("dot-empty", "exit 0"), "it ended as if all were well, and wrote nothing\n");
}

#[test]
fn how_graphviz_failed_is_told() {
    assert_eq!(told_with("dot-status", "echo no fonts >&2; exit 3"), "it failed with status 3 and said:\nno fonts\n");
    assert_eq!(told_with("dot-silent", "echo an image; exit 3"), "it failed with status 3 and said nothing\n");
    assert_eq!(told_with("dot-127", "echo gone >&2; exit 127"), "it failed with status 127 and said:\ngone\n");
    assert_eq!(told_with("dot-killed", "kill -9 $$"), "it was killed by signal 9 and said nothing\n");
    let said = "echo too much >&2; kill -15 $$";
    assert_eq!(told_with("dot-stopped", said), "it was killed by signal 15 and said:\ntoo much\n");
}
