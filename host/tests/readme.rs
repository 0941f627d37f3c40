//! The README: every command that it shows prints what stands under it, its example is the one in the folder of examples, and
//! its picture of the echo table is the one that the program draws.

use macaroosh::{first_step, run, ECHO};
use std::fs;
use std::os::unix::fs::symlink;
use std::path::{Path, PathBuf};
use std::process::{Command, Stdio};

const PAGE: &str = include_str!("../../README.md");
const SHORT: &str = include_str!("../examples/short.rs");
const PROGRAM: &str = env!("CARGO_BIN_EXE_macaroosh");

// What the blocks that show no command begin with: commands alone, bytes, a program and what it prints.
const OTHERS: [&str; 4] =
    ["./macaroosh trace examples/w.bundle ", "01 01 01 ", "use macaroosh::{first_step, run, ECHO};", "5 steps; "];

fn root() -> PathBuf {
    Path::new(env!("CARGO_MANIFEST_DIR")).join("..")
}

// The blocks of a page, without the blanks that make them blocks; an empty line within one stays.
fn blocks(page: &str) -> Vec<String> {
    let mut blocks: Vec<String> = Vec::new();
    let (mut within, mut empty) = (false, 0);
    for line in page.lines() {
        match line.strip_prefix("    ") {
            Some(text) if within => {
                let last = blocks.last_mut().expect("a block");
                *last += &("\n".repeat(empty) + text + "\n");
                empty = 0;
            }
            Some(text) => {
                blocks.push(text.to_string() + "\n");
                (within, empty) = (true, 0);
            }
            None if line.is_empty() => empty += 1,
            None => within = false,
        }
    }
    blocks
}

// A folder where the examples are, and files that a command writes.
fn room(name: &str) -> PathBuf {
    let room = Path::new(env!("CARGO_TARGET_TMPDIR")).join("readme").join(name);
    let _ = fs::remove_dir_all(&room);
    fs::create_dir_all(&room).expect("a folder");
    symlink(root().join("examples"), room.join("examples")).expect("a link");
    room
}

// What a command of the program prints in a folder, standard error after standard output.
fn printed(words: &str, room: &Path) -> String {
    let runner = std::env::var_os("MACAROOSH_RUNNER");
    let mut command = Command::new(runner.clone().unwrap_or_else(|| PROGRAM.into()));
    command.args(runner.map(|_| PROGRAM)).args(words.split(' ')).current_dir(room).stdin(Stdio::null());
    let output = command.output().expect("the program starts");
    String::from_utf8([output.stdout, output.stderr].concat()).expect("text")
}

// The blocks in which a command does not print what stands under it, or that are of no known kind.
fn wrong(page: &str, room: &Path) -> Vec<String> {
    let told = |block: &String| {
        let (first, rest) = block.split_once('\n').expect("a line");
        match first.strip_prefix("$ ./macaroosh ") {
            Some(words) => {
                Some(printed(words, room)).filter(|got| got != rest).map(|got| format!("{first} prints:\n{got}"))
            }
            None => (!OTHERS.iter().any(|other| first.starts_with(other))).then(|| format!("what is this: {first}")),
        }
    };
    blocks(page).iter().filter_map(told).collect()
}

#[test]
fn each_command_prints_what_is_shown() {
    assert_eq!(wrong(PAGE, &room("page")), Vec::<String>::new());
    let commands = blocks(PAGE).iter().filter(|block| block.starts_with("$ ")).count();
    assert!(commands >= 10, "the page is not read: {commands}");
}

#[test]
fn another_output_is_told() {
    for (old, new) in
        [("    result 0 0 5", "    result 0 0 4"), ("         ^\n", "          ^\n"), ("    01 01 01", "    02 01 01")]
    {
        assert!(PAGE.contains(old), "there is no {old}");
        assert_eq!(wrong(&PAGE.replacen(old, new, 1), &room("another")).len(), 1, "{old}");
    }
}

#[test]
fn the_example_is_in_its_file() {
    let blocks = blocks(PAGE);
    let at = blocks.iter().position(|block| block.starts_with(OTHERS[2])).expect("the example");
    assert!(SHORT.ends_with(&blocks[at]), "{}", blocks[at]);
    let bundle = std::fs::read(root().join("examples/w.bundle")).expect("W");
    let ran = run(&bundle, &ECHO).expect("it runs");
    let first = first_step(&bundle, &ECHO).expect("it runs");
    let printed =
        format!("{} steps; board 2 is in state {:?}\nthen {first:?}\n", ran.steps, ran.configuration.state(2));
    assert_eq!(blocks[at + 1], printed);
}

// The texts of an image, in their order.
fn texts(image: &str) -> Vec<&str> {
    let after = image.split("<text ").skip(1).filter_map(|rest| rest.split_once('>'));
    after.filter_map(|(_, rest)| rest.split_once("</text>").map(|(text, _)| text)).collect()
}

#[test]
fn the_picture_is_the_programs() {
    let picture = std::fs::read_to_string(root().join("docs/echo.svg")).expect("a picture");
    let image = printed("draw examples/echo.table --svg", &root());
    assert!(texts(&picture).len() > 10);
    assert_eq!(texts(&picture), texts(&image));
}
