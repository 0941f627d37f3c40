//! The calls that Rust declares are those of the C header: the same names, parameters in the same order, and the same types.
//! The linker looks at names only. The header's maxima and outcomes are those of Rust too, and its refusals those of the library.

use macaroosh::calls::{NONE, SPENT};
use macaroosh::terms::refusals;
use macaroosh::{MOST_BYTES, MOST_DEPTH, MOST_DRAWING, MOST_LISTED, MOST_LISTED_BOARDS, MOST_TABLE, MOST_WORDS};
use std::collections::BTreeSet;

const HEADER: &str = include_str!("../../crates/capi/macaroosh.h");
const DECLARED: &str = include_str!("../src/library/ffi.rs");

// A call: its name, each parameter's name and type, and the type that it gives, all as Rust writes them.
type Call = (String, Vec<(String, String)>, String);

fn words(text: &str) -> String {
    text.split_whitespace().collect::<Vec<&str>>().join(" ")
}

// The text without what stands from each `open` to the next `close`.
fn without(text: &str, open: &str, close: &str) -> String {
    let mut parts = text.split(open);
    let first = parts.next().unwrap_or_default().to_string();
    parts.fold(first, |kept, part| kept + part.split_once(close).map_or("", |(_, after)| after))
}

// What a C declaration has before its name, as a type of Rust.
fn rust_type(c: &str) -> String {
    let plain = |name: &str| match name {
        "size_t" => "usize".to_string(),
        _ => match name.strip_suffix("_t").and_then(|name| name.strip_prefix("uint")) {
            Some(bits) => format!("u{bits}"),
            None => panic!("no type of Rust is known for '{c}'"),
        },
    };
    match c.split_whitespace().collect::<Vec<&str>>()[..] {
        ["const", name, "*"] => format!("*const {}", plain(name)),
        [name, "*"] => format!("*mut {}", plain(name)),
        [name] => plain(name),
        _ => panic!("no type of Rust is known for '{c}'"),
    }
}

// A type and then a name, in C.
fn typed(c: &str) -> (String, String) {
    let spaced = c.replace('*', " * ");
    let (before, name) = spaced.trim().rsplit_once(' ').unwrap_or_else(|| panic!("a type and a name: {c}"));
    (name.to_string(), rust_type(before))
}

// The header's calls: what is declared and has no body here, as its helpers do.
fn of_header(header: &str) -> BTreeSet<Call> {
    let code = without(&without(header, "/*", "*/"), "#ifdef __cplusplus", "#endif");
    let code: Vec<&str> = code.lines().filter(|line| !line.starts_with('#')).collect();
    let code = code.join("\n");
    let (mut calls, mut rest) = (BTreeSet::new(), code.as_str());
    while let Some(end) = rest.find(&[';', '{'][..]) {
        let (before, after) = rest.split_at(end);
        rest = match after.strip_prefix(';') {
            Some(next) => {
                calls.insert(declared_in_c(before));
                next
            }
            None => after.split_once('}').expect("the end of a body").1,
        };
    }
    calls
}

fn declared_in_c(call: &str) -> Call {
    let (before, after) = call.split_once('(').unwrap_or_else(|| panic!("a call: {call}"));
    let (name, gives) = typed(before);
    let inside = after.strip_suffix(')').unwrap_or_else(|| panic!("a call: {call}"));
    (name, inside.split(',').map(typed).collect(), gives)
}

// The calls of the blocks that declare C functions.
fn of_rust(source: &str) -> BTreeSet<Call> {
    let blocks = source.split("extern \"C\" {").skip(1).filter_map(|after| after.split('}').next());
    let calls = blocks.flat_map(|block| block.split(';')).map(words);
    calls.filter(|call| !call.is_empty()).map(|call| declared_in_rust(&call)).collect()
}

fn declared_in_rust(call: &str) -> Call {
    let parts = call.strip_prefix("pub fn ").and_then(|call| call.split_once('('));
    let (name, after) = parts.unwrap_or_else(|| panic!("a call: {call}"));
    let (inside, gives) = after.split_once(") -> ").unwrap_or_else(|| panic!("a call: {call}"));
    let parameters = inside.split(',').map(words).filter(|parameter| !parameter.is_empty()).map(|parameter| {
        let (name, of) = parameter.split_once(": ").unwrap_or_else(|| panic!("a name and a type: {parameter}"));
        (name.to_string(), of.to_string())
    });
    (name.to_string(), parameters.collect(), gives.to_string())
}

// The calls that only one of the two has.
fn differences(header: &str, source: &str) -> Vec<Call> {
    of_header(header).symmetric_difference(&of_rust(source)).cloned().collect()
}

#[test]
fn rust_declares_the_calls_of_the_header() {
    assert_eq!(differences(HEADER, DECLARED), []);
    let names: Vec<String> = of_header(HEADER).into_iter().map(|(name, ..)| name).collect();
    assert!(names.contains(&"macaroosh_run".to_string()), "the header is not read: {names:?}");
}

// What is wrong, a text that is there, and what takes its place.
type Slip = (&'static str, &'static str, &'static str);

const DRAW_IN_HEADER: &str =
    "uint64_t macaroosh_draw(const uint8_t *table, size_t table_length, uint8_t *out, size_t out_length);";
const DRAW_IN_RUST: &str =
    "pub fn macaroosh_draw(table: *const u8, table_length: usize, out: *mut u8, out_length: usize) -> u64;";

const IN_HEADER: [Slip; 9] = [
    ("another name", "macaroosh_draw(", "macaroosh_drawn("),
    ("a call more", "/* Runs a bundle.", "uint64_t macaroosh_more(size_t length);\n/* Runs a bundle."),
    ("a call less", DRAW_IN_HEADER, ""),
    ("a parameter less", "const uint8_t *table, size_t table_length, ", ""),
    (
        "a length before its memory",
        "const uint8_t *table, size_t table_length",
        "size_t table_length, const uint8_t *table",
    ),
    ("another length", "*table, size_t table_length", "*table, size_t out_length"),
    ("memory that is only read", "uint64_t *words", "const uint64_t *words"),
    ("a length of 32 bits", "size_t words_length", "uint32_t words_length"),
    ("an answer of 32 bits", "uint64_t macaroosh_draw(", "uint32_t macaroosh_draw("),
];

const IN_RUST: [Slip; 9] = [
    ("another name", "fn macaroosh_draw(", "fn macaroosh_drawn("),
    ("a call more", "extern \"C\" {", "extern \"C\" {\n    pub fn macaroosh_more(length: usize) -> u64;"),
    ("a call less", DRAW_IN_RUST, ""),
    ("a parameter less", "table: *const u8, table_length: usize, ", ""),
    ("a length before its memory", "table: *const u8, table_length: usize", "table_length: usize, table: *const u8"),
    ("another length", "*const u8, table_length: usize", "*const u8, out_length: usize"),
    ("memory that is only read", "words: *mut u64", "words: *const u64"),
    ("a length of 32 bits", "words_length: usize", "words_length: u32"),
    ("an answer of 32 bits", "out_length: usize) -> u64", "out_length: usize) -> u32"),
];

#[test]
fn each_slip_is_told() {
    let spoiled = |text: &str, (what, old, new): Slip| {
        assert!(text.contains(old), "{what}: there is no {old}");
        text.replacen(old, new, 1)
    };
    for slip in IN_HEADER {
        assert_ne!(differences(&spoiled(HEADER, slip), DECLARED), [], "in the header: {}", slip.0);
    }
    for slip in IN_RUST {
        assert_ne!(differences(HEADER, &spoiled(DECLARED, slip)), [], "in Rust: {}", slip.0);
    }
}

// A number that the header defines.
fn defined(header: &str, name: &str) -> Option<usize> {
    let start = format!("#define MACAROOSH_{name} ");
    header.lines().find_map(|line| line.strip_prefix(&start)).and_then(|number| number.parse().ok())
}

#[test]
fn the_numbers_are_those_of_rust() {
    let numbers = [
        ("MOST_WORDS", MOST_WORDS),
        ("MOST_BYTES", MOST_BYTES),
        ("MOST_TABLE", MOST_TABLE),
        ("MOST_DRAWING", MOST_DRAWING),
        ("MOST_DEPTH", MOST_DEPTH as usize),
        ("MOST_LISTED_BOARDS", MOST_LISTED_BOARDS),
        ("MOST_LISTED", MOST_LISTED),
        ("NONE", NONE as usize),
        ("SPENT", SPENT as usize),
    ];
    for (name, number) in numbers {
        assert_eq!(defined(HEADER, name), Some(number), "{name}");
    }
}

// The numbers in the header's list of refusals, which has two columns.
fn listed(header: &str) -> BTreeSet<u8> {
    let list = header.split("/* Refusals, in the order").nth(1).and_then(|list| list.split("*/").next());
    let lines = list.expect("the list").lines().skip(1).filter_map(|line| line.strip_prefix(" * "));
    lines.flat_map(|line| line.split("  ")).filter_map(|entry| entry.trim().split(' ').next()?.parse().ok()).collect()
}

#[test]
fn every_refusal_is_listed() {
    // 40 is the report program's own.
    let all: BTreeSet<u8> = refusals::ALL.iter().map(|line| line.number).filter(|&number| number != 40).collect();
    assert_eq!(listed(HEADER), all);
}
