//! The table of figures, tests/figures.txt of the repository, whose head says how it is written. What is no line of it panics.

use judge::Limits;
use macaroosh::calls::{Answer, First, Step};
use macaroosh::terms::rules::Edition;
use macaroosh::ECHO;
use std::collections::BTreeMap;
use std::fmt::Debug;
use std::str::FromStr;

const TEXT: &str = include_str!("../../../tests/figures.txt");

/// A case of the table.
#[derive(Clone, Debug, Default)]
pub struct Case {
    pub name: String,
    pub bundle: Vec<u8>,
    /// Whether it has no table, so that the echo table may stand in front of it.
    pub schedule: bool,
    /// What the report program writes.
    pub report: String,
    /// What a run answers where that is not what the report program writes.
    calls: Option<Answer>,
    /// The words that a run leaves.
    pub words: Option<Vec<u64>>,
    /// Its receipts and sends.
    pub receipts: Option<[u32; 2]>,
    /// Forms, and the bundle in each.
    pub to: Vec<(u64, Vec<u8>)>,
    /// The first step after it.
    pub first: Option<First>,
    /// Logs that are replayed over it.
    pub logs: Vec<Log>,
    /// Searches after it.
    pub searches: Vec<Search>,
    /// Lists that are checked for it.
    pub lists: Vec<List>,
}

/// A log that is replayed over a case.
#[derive(Clone, Debug)]
pub struct Log {
    pub text: String,
    pub answer: Answer,
    /// The bundle that is written; empty where nothing is.
    pub makes: Vec<u8>,
}

/// A search after a case.
#[derive(Clone, Debug)]
pub struct Search {
    pub limits: Limits,
    pub answer: Answer,
    pub tried: u64,
    /// The steps that are written; empty where none are.
    pub writes: Vec<u8>,
}

/// A list that is checked for a case.
#[derive(Clone, Debug)]
pub struct List {
    pub answer: Answer,
    pub words: Vec<u64>,
}

impl Case {
    /// What a run answers.
    pub fn answer(&self) -> Answer {
        self.calls.unwrap_or_else(|| {
            let line = self.report.lines().next().and_then(|line| line.strip_prefix("result "));
            answer(line.unwrap_or_else(|| panic!("{}: there is no result", self.name)))
        })
    }

    /// Bytes in place of the bundle, and each standing table that they are read beside: with a schedule, the echo table, or none
    /// where it stands in front.
    pub fn beside<'a>(&self, bytes: &[u8]) -> [(Vec<u8>, &'a [u8]); 2] {
        let front: &[u8] = if self.schedule { &ECHO } else { &[] };
        [(bytes.to_vec(), &ECHO), ([front, bytes].concat(), &[])]
    }
}

/// A table that is moved to an edition.
#[derive(Clone, Debug)]
pub struct Moved {
    pub to: Edition,
    pub table: Vec<u8>,
    pub answer: Answer,
    /// The table that is written; empty where nothing is.
    pub writes: Vec<u8>,
}

/// All cases.
pub fn cases() -> Vec<Case> {
    let named = named();
    let mut cases: Vec<Case> = Vec::new();
    for line in lines().filter(|line| !line.starts_with('$') && !line.starts_with("moves ")) {
        if let Some(name) = line.strip_prefix('[').and_then(|line| line.strip_suffix(']')) {
            assert!(cases.iter().all(|case| case.name != name), "two cases are {name}");
            cases.push(Case { name: name.to_string(), ..Case::default() });
        } else {
            said(cases.last_mut().unwrap_or_else(|| panic!("a line before the first case: {line}")), line, &named);
        }
    }
    cases
}

/// The case of that name.
pub fn case(name: &str) -> Case {
    cases().into_iter().find(|case| case.name == name).unwrap_or_else(|| panic!("there is no case {name}"))
}

/// All tables that are moved.
pub fn moves() -> Vec<Moved> {
    let named = named();
    lines().filter_map(|line| line.strip_prefix("moves ")).map(|line| moved(line, &named)).collect()
}

fn lines() -> impl Iterator<Item = &'static str> {
    TEXT.lines().filter(|line| !line.is_empty() && !line.starts_with('#'))
}

// The bytes that have names.
fn named() -> BTreeMap<&'static str, Vec<u8>> {
    let mut named = BTreeMap::new();
    for (name, text) in lines().filter(|line| line.starts_with('$')).filter_map(|line| line.split_once(" = ")) {
        let bytes = bytes(text, &named);
        assert!(named.insert(name, bytes).is_none(), "two are named {name}");
    }
    named
}

// The edition, the answer's three numbers, the table, and what is written.
fn moved(said: &str, named: &BTreeMap<&str, Vec<u8>>) -> Moved {
    let (before, writes) = said.split_once(" -> ").unwrap_or((said, ""));
    let (to, rest) = before.split_once(' ').unwrap_or((before, ""));
    let (numbers, table) = first_words(rest, 3);
    let to = Edition::named(to).unwrap_or_else(|| panic!("no edition: {said}"));
    Moved { to, table: bytes(table, named), answer: answer(&numbers), writes: bytes(writes, named) }
}

// What a line says of a case.
fn said(case: &mut Case, line: &str, named: &BTreeMap<&str, Vec<u8>>) {
    let (word, rest) = line.split_once(' ').unwrap_or((line, ""));
    match word {
        "schedule" | "bundle" => {
            case.schedule = word == "schedule";
            case.bundle = bytes(rest, named);
        }
        "result" | "sent" | "stopped" => case.report += &format!("{line}\n"),
        "p" => {
            let (boards, counts) = rest.split_once(' ').unwrap_or_else(|| panic!("boards and counts: {line}"));
            let (first, last) = boards.split_once("..").unwrap_or((boards, boards));
            for board in number::<usize>(first)..=number(last) {
                case.report += &format!("p {board} {counts}\n");
            }
        }
        "words" => case.words = Some(words(rest)),
        "receipts" => case.receipts = Some(numbers(rest)),
        "list" => {
            let (numbers, listed) = first_words(rest, 3);
            case.lists.push(List { answer: answer(&numbers), words: words(listed) });
        }
        "calls" => case.calls = Some(answer(rest)),
        "to" => {
            let (form, text) = rest.split_once(' ').unwrap_or_else(|| panic!("a form and bytes: {line}"));
            case.to.push((number(form), bytes(text, named)));
        }
        "search" => case.searches.push(search(rest, named)),
        "log" => case.logs.push(log(rest)),
        "makes" => match case.logs.last_mut() {
            Some(log) => log.makes = bytes(rest, named),
            None => panic!("no log before: {line}"),
        },
        "first" if rest == "none" => case.first = Some(Ok(None)),
        "first" => case.first = Some(Ok(Some(Step::of(numbers(rest))))),
        _ => panic!("no line of a case: {line}"),
    }
}

// Depth and budget, the answer's three numbers, how many are tried, and the steps.
fn search(said: &str, named: &BTreeMap<&str, Vec<u8>>) -> Search {
    let (limits, rest) = first_words(said, 2);
    let (numbers, rest) = first_words(rest, 3);
    let (tried, steps) = first_words(rest, 1);
    let [depth, budget] = self::numbers(&limits.replace("all", &u64::MAX.to_string()));
    let limits = Limits { depth, budget };
    Search { limits, answer: answer(&numbers), tried: number(&tried), writes: bytes(steps, named) }
}

// The answer's three numbers, and then the text.
fn log(said: &str) -> Log {
    let (numbers, text) = first_words(said, 3);
    let text = text.replace(';', "\n").replace('!', "\r");
    Log { text, answer: answer(&numbers), makes: Vec::new() }
}

// The first words, so many of them, and the rest.
fn first_words(said: &str, count: usize) -> (String, &str) {
    let words: Vec<&str> = said.splitn(count + 1, ' ').collect();
    (words[..words.len().min(count)].join(" "), words.get(count).copied().unwrap_or(""))
}

// Words; a slash may stand between configurations.
fn words(text: &str) -> Vec<u64> {
    repeated(text).filter(|&(_, item)| item != "/").flat_map(|(times, word)| vec![number(word); times]).collect()
}

fn bytes(text: &str, named: &BTreeMap<&str, Vec<u8>>) -> Vec<u8> {
    repeated(text)
        .flat_map(|(times, item)| named.get(item).cloned().unwrap_or_else(|| hex(item)).repeat(times))
        .collect()
}

fn hex(digits: &str) -> Vec<u8> {
    let pairs = digits.as_bytes().chunks(2).map(|pair| std::str::from_utf8(pair).ok().filter(|pair| pair.len() == 2));
    let byte = |pair: Option<&str>| pair.and_then(|pair| u8::from_str_radix(pair, 16).ok());
    pairs.map(|pair| byte(pair).unwrap_or_else(|| panic!("no bytes: {digits}"))).collect()
}

// The items of a line, and how often each stands there.
fn repeated(text: &str) -> impl Iterator<Item = (usize, &str)> {
    text.split(' ')
        .filter(|item| !item.is_empty())
        .map(|item| item.split_once('*').map_or((1, item), |(times, item)| (number(times), item)))
}

fn number<N: FromStr>(text: &str) -> N {
    text.parse().unwrap_or_else(|_| panic!("no number: {text}"))
}

fn numbers<N: FromStr + Debug, const LENGTH: usize>(text: &str) -> [N; LENGTH] {
    let all: Vec<N> = text.split(' ').map(number).collect();
    all.try_into().unwrap_or_else(|_| panic!("{LENGTH} numbers: {text}"))
}

fn answer(text: &str) -> Answer {
    let [refusal, place, count] = numbers::<u32, 3>(text);
    Answer { refusal: u8::try_from(refusal).expect("a refusal's number"), place, count }
}
