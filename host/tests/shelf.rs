//! Tables in the other edition at the command line: one with `-o`, many with `--into`; what is refused, what is in the way, and what
//! becomes of the files.

mod start;

use judge::dice::Dice;
use judge::editions::EditionOutline;
use judge::makers::shelf::{any, whole};
use judge::model::{Edition, Model};
use start::{given, program, PROGRAM};
use std::ffi::{OsStr, OsString};
use std::fs::{self, File};
use std::os::unix::fs::MetadataExt;
use std::path::{Path, PathBuf};
use std::process::{Command, Output, Stdio};

fn example(name: &str) -> PathBuf {
    Path::new(env!("CARGO_MANIFEST_DIR")).join("../examples").join(name)
}

fn bytes(path: &Path) -> Vec<u8> {
    fs::read(path).unwrap_or_else(|error| panic!("{}: {error}", path.display()))
}

fn text(bytes: &[u8]) -> &str {
    std::str::from_utf8(bytes).expect("text")
}

// Empty folders for a test.
fn rooms<const COUNT: usize>(test: &str, names: [&str; COUNT]) -> [PathBuf; COUNT] {
    let room = Path::new(env!("CARGO_TARGET_TMPDIR")).join("shelf").join(test);
    let _ = fs::remove_dir_all(&room);
    names.map(|name| {
        fs::create_dir_all(room.join(name)).expect("a folder");
        room.join(name)
    })
}

fn asked<S: AsRef<OsStr>>(words: &[S]) -> Output {
    program().args(words).stdin(Stdio::null()).output().expect("the program starts")
}

// The words of a move of tables into a folder.
fn words(to: &str, folder: &Path, tables: &[PathBuf], more: &[&str]) -> Vec<OsString> {
    let first = ["edition", "--to", to, "--into"].map(OsString::from);
    let paths = [folder].into_iter().chain(tables.iter().map(PathBuf::as_path)).map(OsString::from);
    first.into_iter().chain(paths).chain(more.iter().map(OsString::from)).collect()
}

fn into(to: &str, folder: &Path, tables: &[PathBuf], more: &[&str]) -> Output {
    asked(&words(to, folder, tables, more))
}

// The files of a folder, in order.
fn files(folder: &Path) -> Vec<PathBuf> {
    let mut all: Vec<PathBuf> =
        fs::read_dir(folder).expect("a folder").map(|entry| entry.expect("a file").path()).collect();
    all.sort();
    all
}

fn names(folder: &Path) -> Vec<String> {
    files(folder).iter().map(|path| path.file_name().expect("a name").to_string_lossy().into_owned()).collect()
}

#[track_caller]
fn is(got: &Output, status: i32, output: &str, told: &str) {
    assert_eq!((got.status.code(), text(&got.stdout), text(&got.stderr)), (Some(status), output, told));
}

#[test]
fn four_hundred_tables_go_there_and_back() {
    let [shelf, second, first] = rooms("hundreds", ["shelf", "second", "first"]);
    for seed in 1..=400 {
        let table = whole(&mut Dice::new(seed), Edition::First);
        fs::write(shelf.join(format!("{seed:03}.table")), table).expect("a table");
    }
    is(&into("second", &second, &files(&shelf), &[]), 0, "", "400 moved to the second edition, 0 refused\n");
    is(&into("first", &first, &files(&second), &[]), 0, "", "400 moved to the first edition, 0 refused\n");
    assert_eq!(names(&second), names(&shelf));
    assert_eq!(names(&first), names(&shelf));
    for name in names(&shelf) {
        let table = bytes(&shelf.join(&name));
        assert_eq!(Ok(bytes(&second.join(&name))), Model.moved(&table, Edition::Second), "{name}");
        assert_eq!(bytes(&first.join(&name)), table, "{name}");
    }
}

#[test]
fn a_schedule_runs_the_same_beside_either() {
    let [room] = rooms("schedule", ["tables"]);
    let second = room.join("echo.table");
    let moved = asked(&["edition".into(), "--to=second".into(), example("echo.table").into_os_string()]);
    fs::write(&second, moved.stdout).expect("a table");
    for command in ["run", "trace", "first"] {
        for bundle in ["w.bundle", "w-counting.bundle", "w-plain.bundle", "w-echo-twice.bundle", "quiet.bundle"] {
            let beside = |table: &Path| {
                let first = [command, "--plain", "--standing"].map(OsString::from);
                asked(&[&first[..], &[table.into(), example(bundle).into()]].concat())
            };
            let (one, other) = (beside(&example("echo.table")), beside(&second));
            assert_eq!((one.status.code(), one.stdout), (other.status.code(), other.stdout), "{command} {bundle}");
        }
    }
}

#[test]
fn one_table_is_written_to_its_file_or_to_standard_output() {
    let [room] = rooms("one", ["tables"]);
    let (echo, out, back) = (example("echo.table"), room.join("second"), room.join("first"));
    let second = Model.moved(&bytes(&echo), Edition::Second).expect("a table");
    let to = |edition: &str, from: &Path, out: &Path| {
        asked(&[
            OsStr::new("edition"),
            from.as_os_str(),
            "--to".as_ref(),
            edition.as_ref(),
            "-o".as_ref(),
            out.as_ref(),
        ])
    };
    let told = format!("wrote 58 bytes to {}: a second-edition table of 4 states and 7 rules\n", out.display());
    is(&to("second", &echo, &out), 0, "", &told);
    let told = format!("wrote 51 bytes to {}: a first-edition table of 4 states and 7 rules\n", back.display());
    is(&to("first", &out, &back), 0, "", &told);
    assert_eq!((bytes(&out), bytes(&back)), (second.clone(), bytes(&echo)));
    let got = given(&["edition", "--to=second", "-"], &bytes(&echo));
    assert_eq!((got.status.code(), &got.stdout), (Some(0), &second));
    assert_eq!(text(&got.stderr), "wrote 58 bytes: a second-edition table of 4 states and 7 rules\n");
    let got = given(&["edition", "--to=first", "--plain", "-"], &second);
    assert_eq!((got.status.code(), got.stdout, text(&got.stderr)), (Some(0), bytes(&echo), "result 0 0 51\n"));
    // The file may be the table's own; a refused table leaves it as it was.
    assert_eq!(to("second", &back, &back).status.code(), Some(0));
    assert_eq!(to("second", &back, &back).status.code(), Some(1));
    assert_eq!(bytes(&back), second);
}

// What is told of a refused table, and for programs.
#[track_caller]
fn refused(to: &str, table: &[u8], told: &str, plain: &str) {
    is(&given(&["edition", "--to", to, "-"], table), 1, "", told);
    is(&given(&["edition", "--to", to, "-", "--plain"], table), 1, "", plain);
}

const COUNTS: &str =
    "refused 2: a count of the table (1 to 16 states, 1 to 64 rules, 1 to 4 types) or k (1 to 8) is out of range";
const DIVIDES: &str = "refused 32 at rule 2: the rule has a divisor other than 1, which the first edition cannot say";
const ALREADY: &str = "refused 33: the table is in that edition already";

#[test]
fn a_refused_table_is_told_with_its_figures() {
    let [echo, majority, w, drawing] =
        ["echo.table", "majority.table", "w.bundle", "echo.dot"].map(|name| bytes(&example(name)));
    let e = "rule 2 has e = 2 for type 0";
    refused("first", &majority, &format!("{DIVIDES}\n{e}\n"), "result 32 2 0\n");
    let second = "its types byte is 17: 1 type in the second edition";
    refused("second", &majority, &format!("{ALREADY}\n{second}\n"), "result 33 0 0\n");
    let first = "its types byte is 1: 1 type in the first edition";
    refused("first", &echo, &format!("{ALREADY}\n{first}\n"), "result 33 0 0\n");
    let bundle = "this is a bundle, and without a table of its own";
    refused("second", &w, &format!("{COUNTS}\n{bundle}\n"), "result 2 0 0\n");
    refused("first", &drawing, &format!("{COUNTS}\nthis is a drawing; see undraw\n"), "result 2 0 0\n");
    refused("second", b"", "refused 1: the table part is under 8 bytes\n", "result 1 0 0\n");
    // Each divisor of that rule.
    let two = "\
refused 32 at rule 0: the rule has a divisor other than 1, which the first edition cannot say
rule 0 has e = 8 for type 0
rule 0 has e = 2 for type 2
";
    let three = b"\x01\0\0\0\0\0\0\x08\0\0\0\x01\0\0\0\x02\x10\0\x0e\0\x01\x01\x13\x01";
    refused("first", three, two, "result 32 0 0\n");
}

#[test]
fn a_refused_table_is_named_and_the_others_go_on() {
    let [out] = rooms("refused", ["out"]);
    let tables = ["asks-t.table", "majority.table", "w.bundle", "echo.table"].map(example);
    let named = |at: usize| format!("'{}'", tables[at].display());
    let told = format!(
        "{}: {ALREADY}; its types byte is 17: 1 type in the second edition\n{}: {COUNTS}; this is a bundle, and without \
         a table of its own\n2 moved to the second edition, 2 refused\n",
        named(1),
        named(2)
    );
    is(&into("second", &out, &tables, &[]), 1, "", &told);
    assert_eq!(names(&out), ["asks-t.table", "echo.table"]);
    // The same again, since both have that content already.
    let plain = "asks-t.table 0 0 58\nmajority.table 33 0 0\nw.bundle 2 0 0\necho.table 0 0 58\n";
    is(&into("second", &out, &tables, &["--plain"]), 1, plain, "");
    assert_eq!(bytes(&out.join("echo.table")), Model.moved(&bytes(&tables[3]), Edition::Second).expect("a table"));
}

#[test]
fn any_tables_become_what_the_model_says() {
    let [shelf, out] = rooms("any", ["shelf", "out"]);
    for (edition, to) in [(Edition::First, "first"), (Edition::Second, "second")] {
        let (mut expected, mut worst) = (String::new(), 0);
        for seed in 1..=60 {
            let (table, name) = (any(&mut Dice::new(seed)), format!("{to}-{seed:02}"));
            fs::write(shelf.join(&name), &table).expect("a table");
            expected += &match Model.moved(&table, edition) {
                Ok(moved) => format!("{name} 0 0 {}\n", moved.len()),
                Err(refusal) => {
                    worst = 1;
                    format!("{name} {} {} 0\n", refusal.number, refusal.place)
                }
            };
        }
        let tables: Vec<PathBuf> =
            files(&shelf).into_iter().filter(|path| path.to_string_lossy().contains(&format!("{to}-"))).collect();
        is(&into(to, &out, &tables, &["--plain"]), worst, &expected, "");
    }
    for name in names(&out) {
        let edition = if name.starts_with("first") { Edition::First } else { Edition::Second };
        assert_eq!(Ok(bytes(&out.join(&name))), Model.moved(&bytes(&shelf.join(&name)), edition), "{name}");
    }
}

#[test]
fn a_file_of_other_content_is_in_the_way() {
    let [out] = rooms("way", ["out"]);
    let tables = ["asks-t.table", "echo.table"].map(example);
    let (other, same) = (out.join("asks-t.table"), out.join("echo.table"));
    fs::write(&other, "as it was").expect("a file");
    let told = format!(
        "macaroosh: '{}' is in the way: it has other content; --replace replaces it\n1 moved to the second edition, \
         0 refused, 1 left out\n",
        other.display()
    );
    is(&into("second", &out, &tables, &[]), 2, "", &told);
    assert_eq!((bytes(&other), bytes(&same).len()), (b"as it was".to_vec(), 58));
    // As long, and of other bytes.
    fs::write(&other, [0; 58]).expect("a file");
    is(&into("second", &out, &tables, &[]), 2, "", &told);
    assert_eq!(bytes(&other), [0; 58]);
    // What is left out has no line for programs.
    let way = told.lines().next().expect("a line");
    is(&into("second", &out, &tables, &["--plain"]), 2, "echo.table 0 0 58\n", &format!("{way}\n"));
    // A file that is the same already is not written anew.
    let before = fs::metadata(&same).expect("the file").ino();
    is(&into("second", &out, &tables, &["--replace"]), 0, "", "2 moved to the second edition, 0 refused\n");
    assert_eq!(fs::metadata(&same).expect("the file").ino(), before);
    assert_eq!(bytes(&other), Model.moved(&bytes(&tables[0]), Edition::Second).expect("a table"));
}

#[test]
fn what_is_no_file_is_in_the_way_in_any_case() {
    let [out, _] = rooms("no-file", ["out", "out/asks-t.table"]);
    let tables = ["asks-t.table", "echo.table"].map(example);
    let pipe = out.join("echo.table");
    assert!(Command::new("mkfifo").arg(&pipe).status().expect("mkfifo").success());
    let told: String = ["asks-t.table", "echo.table"]
        .map(|name| format!("macaroosh: '{}' is in the way: it is no file\n", out.join(name).display()))
        .concat();
    for more in [&[][..], &["--replace"]] {
        let all = format!("{told}0 moved to the second edition, 0 refused, 2 left out\n");
        is(&into("second", &out, &tables, more), 2, "", &all);
    }
}

#[test]
fn a_shelf_may_be_replaced_where_it_stands() {
    let [shelf] = rooms("in-place", ["shelf"]);
    let tables = ["asks-t.table", "echo.table"].map(|name| {
        fs::copy(example(name), shelf.join(name)).expect("a table");
        shelf.join(name)
    });
    let before = tables.clone().map(|path| bytes(&path));
    assert_eq!(into("second", &shelf, &tables, &[]).status.code(), Some(2));
    assert_eq!(tables.clone().map(|path| bytes(&path)), before);
    assert_eq!(into("second", &shelf, &tables, &["--replace"]).status.code(), Some(0));
    assert_eq!(tables.clone().map(|path| bytes(&path).len()), [58, 58]);
    assert_eq!(into("first", &shelf, &tables, &["--replace"]).status.code(), Some(0));
    assert_eq!(tables.map(|path| bytes(&path)), before);
}

#[test]
fn what_cannot_be_read_is_told_and_the_others_go_on() {
    let [room, out] = rooms("unread", ["tables", "out"]);
    let (none, long) = (room.join("none"), room.join("long"));
    File::create(&long).and_then(|file| file.set_len(1 << 30)).expect("a file of holes");
    let tables = [none.clone(), example("majority.table"), long.clone(), room, example("echo.table")];
    let got = into("second", &out, &tables, &["--plain"]);
    assert_eq!((got.status.code(), text(&got.stdout)), (Some(2), "majority.table 33 0 0\necho.table 0 0 58\n"));
    let lines: Vec<&str> = text(&got.stderr).lines().collect();
    assert_eq!(lines.len(), 3, "{lines:?}");
    assert_eq!(
        lines[0],
        format!("macaroosh: cannot read '{}': No such file or directory (os error 2)", none.display())
    );
    assert!(lines[1].contains("is over 1048576 bytes; a table has at most 1192"), "{lines:?}");
    assert!(lines[2].contains("Is a directory"), "{lines:?}");
    assert_eq!(names(&out), ["echo.table"]);
    fs::remove_file(&long).expect("removed");
}

#[test]
fn no_file_is_left_half_written() {
    let [out] = rooms("half", ["out"]);
    let old = out.join("asks-t.table");
    fs::write(&old, "as it was").expect("a file");
    // No room on the device, by a limit on the size of files.
    let tables = ["asks-t.table", "echo.table"].map(example);
    let mut limited = Command::new("sh");
    limited.args(["-c", "trap '' XFSZ; ulimit -f 0; exec \"$@\"", "sh"]);
    limited.args(std::env::var_os("MACAROOSH_RUNNER")).arg(PROGRAM);
    let got = limited.args(words("second", &out, &tables, &["--replace"])).output().expect("a shell");
    let last = text(&got.stderr).lines().last().map(str::to_string);
    assert_eq!(got.status.code(), Some(2));
    assert_eq!(last.as_deref(), Some("0 moved to the second edition, 0 refused, 2 left out"));
    assert_eq!((names(&out), bytes(&old)), (vec!["asks-t.table".to_string()], b"as it was".to_vec()));
}

// Bad use: nothing on standard output, and the words on standard error.
#[track_caller]
fn mistake(words: &[&str], told: &str) {
    let got = asked(words);
    assert_eq!((got.status.code(), text(&got.stdout)), (Some(2), ""));
    assert!(text(&got.stderr).contains(told), "{}", text(&got.stderr));
}

#[test]
fn wrong_words_are_told() {
    mistake(&["edition", "x"], "which edition: --to first or --to second?");
    mistake(&["edition", "x", "--to", "2"], "there is no edition '2'; the editions are first, second");
    mistake(&["edition", "x", "--to", "plain"], "there is no edition 'plain'; the editions are first, second");
    mistake(&["translate", "x", "--to", "second"], "there is no form 'second'");
    mistake(&["edition", "--to", "first"], "which table?");
    mistake(&["edition", "--to", "first", "x", "y"], "'y' is one word too many; --into FOLDER takes several");
    mistake(&["edition", "--to", "first", "x", "--into"], "--into needs a folder after it");
    mistake(&["edition", "--to", "first", "--into", "y"], "which tables? Name their files");
    mistake(
        &["edition", "--to", "first", "--into", "y", "x", "-o", "z"],
        "-o is one file, --into a folder; choose one",
    );
    mistake(&["edition", "--to", "first", "--into", "y", "--into", "z", "x"], "--into is given twice");
    mistake(&["edition", "--to", "first", "--into", "y", "-"], "standard input has none");
    mistake(&["edition", "--to", "first", "--into", "y", "x/.."], "'x/..' is no name of a file");
    mistake(&["edition", "--to", "first", "x", "--replace"], "--replace is for --into alone");
    mistake(
        &["edition", "--to", "first", "x", "--json"],
        "--json is for run, trace, first, replay, search and check alone",
    );
    mistake(&["edition", "--to", "first", "x", "--partial"], "--partial is for run and trace alone");
    mistake(&["edition", "--to", "first", "x", "--standing", "y"], "this command reads a table alone");
    mistake(&["run", "--into", "y", "x"], "--into is for edition alone");
    mistake(&["edition", "--to", "first", "--into", "no/such/folder", "x"], "No such file or directory");
    mistake(&["edition", "--to", "first", "--into", "/dev/null", "x"], "'/dev/null' is no folder");
}

#[test]
fn two_tables_of_one_name_are_told_before_anything_is_written() {
    let [shelf, out] = rooms("one-name", ["shelf", "out"]);
    let again = shelf.join("echo.table");
    fs::copy(example("echo.table"), &again).expect("a table");
    let got = into("second", &out, &[example("asks-t.table"), example("echo.table"), again], &[]);
    assert_eq!((got.status.code(), text(&got.stdout)), (Some(2), ""));
    assert!(text(&got.stderr).contains("two tables are named 'echo.table'"), "{}", text(&got.stderr));
    assert_eq!(names(&out), Vec::<String>::new());
}

#[test]
fn names_do_not_write_to_the_terminal() {
    let [shelf, out] = rooms("names", ["shelf", "out"]);
    let tables = ["a\nb", "\u{1b}[31m"].map(|name| shelf.join(name));
    fs::copy(example("echo.table"), &tables[0]).expect("a table");
    fs::copy(example("majority.table"), &tables[1]).expect("a table");
    let plain = "a\\nb 0 0 58\n\\x1b[31m 33 0 0\n";
    is(&into("second", &out, &tables, &["--plain"]), 1, plain, "");
    let got = into("second", &out, &tables, &[]);
    assert!(text(&got.stderr).contains("/\\x1b[31m': refused 33"), "{}", text(&got.stderr));
    assert_eq!(names(&out), ["a\nb"]);
}
