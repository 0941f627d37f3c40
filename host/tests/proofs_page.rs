//! docs/PROOFS.md speaks of what is there: every name in a table stands in a file of its row, every file and every function that
//! the page names exists, and the edits that it lists are those in the folders must-fail.

use std::cell::RefCell;
use std::collections::{BTreeMap, BTreeSet};
use std::fs;
use std::path::{Path, PathBuf};
use std::rc::Rc;

const PAGE: &str = include_str!("../../docs/PROOFS.md");

// The kit's own crates, which are not among ours.
const KIT: [&str; 1] = ["std"];

// The most characters of a line, so that a person can read and compare it.
const WIDEST: usize = 300;

fn root() -> PathBuf {
    Path::new(env!("CARGO_MANIFEST_DIR")).join("..")
}

fn crates() -> PathBuf {
    root().join("crates")
}

// ---- the page
// What stands between backticks.
fn quoted(text: &str) -> Vec<&str> {
    text.split('`').skip(1).step_by(2).collect()
}

struct Table<'a> {
    columns: Vec<&'a str>,
    rows: Vec<Vec<&'a str>>,
}

impl<'a> Table<'a> {
    // The column whose head begins so.
    fn column(&self, head: &str) -> Option<usize> {
        self.columns.iter().position(|column| column.starts_with(head))
    }

    fn cells(&self, head: &str) -> Vec<&'a str> {
        let at = self.column(head);
        at.map_or(vec![], |at| self.rows.iter().filter_map(|row| row.get(at).copied()).collect())
    }
}

fn tables(page: &str) -> Vec<Table<'_>> {
    let mut all: Vec<Table> = vec![];
    let mut inside = false;
    for line in page.lines() {
        let row = line.strip_prefix('|').and_then(|line| line.strip_suffix('|'));
        let cells: Option<Vec<&str>> = row.map(|row| row.split('|').map(str::trim).collect());
        match (cells, inside) {
            (None, _) => inside = false,
            (Some(columns), false) => {
                all.push(Table { columns, rows: vec![] });
                inside = true;
            }
            (Some(cells), true) if cells.iter().all(|cell| cell.starts_with("---")) => {}
            (Some(cells), true) => all.last_mut().expect("a table was begun").rows.push(cells),
        }
    }
    all
}

// ---- what is there
fn is_path(item: &str) -> bool {
    let ends = [".antt", ".rt", ".rs", ".h", ".c", ".txt", ".md"];
    !item.contains(char::is_whitespace) && (item.contains('/') || ends.iter().any(|end| item.ends_with(end)))
}

// A path of the page, which is from `crates/` or from the root.
fn found(path: &str) -> Option<PathBuf> {
    [crates().join(path), root().join(path)].into_iter().find(|path| path.exists())
}

// The files with this ending in a folder and all below it.
fn files(folder: &Path, end: &str) -> Vec<PathBuf> {
    let entries = fs::read_dir(folder).into_iter().flatten().map(|entry| entry.expect("an entry of a folder").path());
    let (folders, plain): (Vec<PathBuf>, Vec<PathBuf>) = entries.partition(|path| path.is_dir());
    let here = plain.into_iter().filter(|path| path.to_string_lossy().ends_with(end));
    here.chain(folders.iter().flat_map(|folder| files(folder, end))).collect()
}

thread_local! {
    // What was read, since each page with a slip asks for the same files.
    static READ: RefCell<BTreeMap<PathBuf, Rc<str>>> = RefCell::default();
}

// A file without the lines that are comments.
fn text(path: &PathBuf) -> Rc<str> {
    let read = || {
        let whole = fs::read_to_string(path).unwrap_or_else(|error| panic!("{}: {error}", path.display()));
        let code = whole.lines().filter(|line| !["--", "//"].iter().any(|mark| line.trim_start().starts_with(mark)));
        Rc::from(code.collect::<Vec<&str>>().join("\n"))
    };
    READ.with(|all| all.borrow_mut().entry(path.clone()).or_insert_with(read).clone())
}

// The crate of a path of the page, as a folder.
fn crate_of(path: &str) -> PathBuf {
    crates().join(path.split('/').next().unwrap_or_default())
}

// The edits, as CRATE/NAME.
fn edits() -> BTreeSet<String> {
    let named = |path: PathBuf| {
        let name = path.file_stem()?.to_string_lossy().to_string();
        let owner = path.parent()?.parent()?.file_name()?.to_string_lossy().to_string();
        Some(format!("{owner}/{name}"))
    };
    files(&crates(), ".edit").into_iter().filter_map(named).collect()
}

// ---- names
// Is the word there, not as a part of a longer one?
fn has_word(text: &str, word: &str) -> bool {
    let part = |c: char| c.is_alphanumeric() || ['_', '-', '\''].contains(&c);
    text.match_indices(word).any(|(at, _)| {
        let (before, after) = (&text[..at], &text[at + word.len()..]);
        !before.chars().next_back().map_or(false, part) && !after.chars().next().map_or(false, part)
    })
}

// Is a name declared with its type? Fields are, and the statements in proofs.
fn declares(text: &str, name: &str) -> bool {
    let declared = format!("pub {name} :");
    text.lines().any(|line| line.trim_start().starts_with(&declared))
}

// The words of names that are in none of these files. A field (`.field`) has to be declared there; a word that is no field may
// also be the name of a statement in the proofs of the files' crates.
fn missing(names: &[&str], paths: &[&str]) -> Vec<String> {
    let texts: Vec<Rc<str>> = paths.iter().filter_map(|path| found(path)).map(|path| text(&path)).collect();
    let owners: BTreeSet<PathBuf> = paths.iter().map(|path| crate_of(path)).collect();
    let proofs = owners.iter().flat_map(|owner| files(&owner.join("proofs"), ".antt"));
    let proofs: Vec<Rc<str>> = proofs.map(|path| text(&path)).collect();
    let words = names.iter().flat_map(|name| name.split_whitespace());
    let words = words.filter(|word| word.contains(char::is_alphanumeric));
    let lost = words.filter(|word| match word.strip_prefix('.') {
        Some(field) => !texts.iter().any(|text| declares(text, field)),
        None => !texts.iter().any(|text| has_word(text, word)) && !proofs.iter().any(|text| declares(text, word)),
    });
    lost.map(|word| format!("{word} is not in {}", paths.join(", "))).collect()
}

// Rows of statements with their files, where "as above" stands for those of the row before; and rows that have both in one cell.
fn wrong_names(table: &Table) -> Vec<String> {
    let mut wrong = vec![];
    let mut above: Vec<&str> = vec![];
    for (statement, file) in table.cells("Statement").into_iter().zip(table.cells("File")) {
        let own = quoted(file);
        let mut paths: Vec<&str> = own.iter().copied().filter(|item| is_path(item)).collect();
        if file.contains("as above") {
            paths.extend(&above);
        }
        let names = quoted(statement).into_iter().chain(own.into_iter().filter(|item| !is_path(item)));
        wrong.extend(missing(&names.collect::<Vec<&str>>(), &paths));
        above = paths;
    }
    for place in table.cells("Where it is") {
        let (paths, names): (Vec<&str>, Vec<&str>) = quoted(place).into_iter().partition(|item| is_path(item));
        wrong.extend(missing(&names, &paths));
    }
    wrong
}

// Rows about functions of a crate: what else they name is in its code or its definitions.
fn wrong_helpers(table: &Table) -> Vec<String> {
    let helpers = table.column("Helper").map_or(&[][..], |_| &table.rows[..]);
    let of_row = |row: &Vec<&str>| {
        let items: Vec<&str> = row.iter().flat_map(|cell| quoted(cell)).collect();
        let owners = items.iter().filter_map(|item| item.split_once("::")).map(|(owner, _)| crates().join(owner));
        let known: Vec<PathBuf> =
            owners.flat_map(|owner| [".rt", ".antt"].map(|end| files(&owner, end))).flatten().collect();
        let known: Vec<Rc<str>> = known.iter().map(text).collect();
        let plain = items.into_iter().filter(|item| !item.contains("::"));
        let lost = plain.filter(|item| !known.iter().any(|text| has_word(text, item)));
        lost.map(|item| format!("{item} is not in the crates of {}", row[0])).collect::<Vec<String>>()
    };
    helpers.iter().flat_map(of_row).collect()
}

// ---- files, functions, edits
// Files and folders that are not there, nor edits. A bare name is in the folder that was named last.
fn wrong_paths(page: &str) -> Vec<String> {
    let (all, edits) = (files(&crates(), ""), edits());
    let mut wrong = vec![];
    let mut last = root();
    for item in quoted(page).into_iter().filter(|item| is_path(item)) {
        let folder = item.ends_with('/') && all.iter().any(|file| file.to_string_lossy().contains(item));
        if let Some(path) = found(item) {
            if item.contains('/') && path.is_file() {
                last = path.parent().map_or(last, Path::to_path_buf);
            }
        } else if !folder && !last.join(item).is_file() && !edits.contains(item) {
            wrong.push(format!("there is no {item}"));
        }
    }
    wrong
}

// Functions, as CRATE::NAME, that are not in the crate's code.
fn wrong_calls(page: &str) -> Vec<String> {
    let calls =
        quoted(page).into_iter().filter_map(|item| Some((item, item.split_once("::")?.0, item.rsplit_once("::")?.1)));
    let calls = calls.filter(|(_, owner, _)| !KIT.contains(owner));
    let lost = calls.filter(|(_, owner, name)| {
        let sources = files(&crates().join(owner).join("src"), ".rt");
        !sources
            .iter()
            .any(|path| [format!("fn {name}("), format!("fn {name}<")].iter().any(|f| text(path).contains(f)))
    });
    lost.map(|(item, ..)| format!("there is no function {item}")).collect()
}

// Edits that a table names and that are not there, and the other way round. A figure's edit is one of `figures` or `further`.
fn wrong_edits(page: &str) -> Vec<String> {
    let (there, mut named) = (edits(), BTreeSet::new());
    for table in tables(page) {
        let figures = table.cells("As a figure").into_iter().flat_map(quoted);
        named.extend(figures.map(|name| {
            let further = format!("further/{name}");
            if there.contains(&further) {
                further
            } else {
                format!("figures/{name}")
            }
        }));
        let others = ["In code", "More edits"].map(|head| table.cells(head)).concat();
        named.extend(others.into_iter().flat_map(quoted).map(str::to_string));
    }
    let differ: Vec<String> = there.symmetric_difference(&named).cloned().collect();
    differ.into_iter().map(|edit| format!("{edit} is an edit, or is named, but not both")).collect()
}

fn wide_lines(page: &str) -> Vec<String> {
    let wide = page.lines().enumerate().filter(|(_, line)| line.chars().count() > WIDEST);
    wide.map(|(i, _)| format!("line {} has over {WIDEST} characters", i + 1)).collect()
}

// All that is wrong with a page.
fn wrong(page: &str) -> Vec<String> {
    let rows = tables(page).iter().flat_map(|table| [wrong_names(table), wrong_helpers(table)]).flatten().collect();
    [rows, wrong_paths(page), wrong_calls(page), wrong_edits(page), wide_lines(page)].concat()
}

#[test]
fn every_name_on_the_page_is_there() {
    assert_eq!(wrong(PAGE), Vec::<String>::new());
    let statements: usize = tables(PAGE).iter().map(|table| table.cells("Statement").len()).sum();
    assert!(statements >= 50 && edits().len() >= 70, "the page is not read: {statements}, {}", edits().len());
}

// What is wrong, a text that is there, what takes its place, and a part of what is then told.
type Slip = (&'static str, &'static str, &'static str, &'static str);

const SLIPS: [Slip; 15] = [
    ("a statement's name", "`demand3 .translated`", "`demand33 .translated`", "demand33"),
    ("a statement within a module", "`read_by`", "`read_bye`", "read_bye"),
    ("a part of a statement's name", "`plain_counter .tags`", "`counter .tags`", "counter"),
    ("a field", "`StepMoves .one`", "`StepMoves .on`", ".on is"),
    ("a field that has no record", "`demand3 .own`", "`demand3 .standing`", ".standing"),
    ("a record", "`FirstPossible`", "`FirstPosible`", "FirstPosible"),
    ("another file", "`claims/specs/Plain.antt` |", "`claims/specs/Demand2.antt` |", "PlainStep"),
    ("a file", "`senders/specs/Set.antt`", "`senders/specs/Sets.antt`", "senders/specs/Sets.antt"),
    ("a file without its folder", "`Refusals.antt`: the table part", "`Refusal.antt`: the table part", "Refusal.antt"),
    ("a function", "`bundle::read_fault`", "`bundle::read_faults`", "bundle::read_faults"),
    ("a helper's fact", "(`CountsTo`)", "(`CountTo`)", "CountTo"),
    ("a form's place", "`lowest_in_transit`", "`lowest_transit`", "lowest_transit"),
    ("an edit of code", "`threshold/byte-ff-is-255`", "`threshold/byte-ff-is-256`", "threshold/byte-ff-is-256"),
    ("an edit of a figure", "| `slip-hears-itself` |", "| |", "figures/slip-hears-itself"),
    (
        "an edit in the text",
        "`step/writes-one-word-more`, `capi/",
        "`step/writes-one-more`, `capi/",
        "step/writes-one-more",
    ),
];

#[test]
fn each_slip_is_told() {
    for (what, old, new, told) in SLIPS {
        assert!(PAGE.contains(old), "{what}: there is no {old}");
        let wrong = wrong(&PAGE.replacen(old, new, 1));
        assert!(wrong.iter().any(|line| line.contains(told)), "{what}: {wrong:?}");
    }
    let wide = PAGE.replacen("# Which", &format!("# {} Which", "very ".repeat(60)), 1);
    assert!(wrong(&wide).iter().any(|line| line.contains("line 1 has")));
}
