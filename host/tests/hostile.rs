//! What must hold where folders, files and inputs are against it: the script in a folder with settings for cargo, files that
//! may not be written, streams, links and signals in the middle of a write, names that write to a terminal, damaged inputs.

use judge::dice::{each_seed_and, part_of, seeds, Dice};
use judge::makers::{bundles, logs, shelf, sketches};
use std::ffi::{CStr, OsStr, OsString};
use std::fs::{self, File, OpenOptions, Permissions};
use std::io::{Read, Write};
use std::os::raw::{c_char, c_int};
use std::os::unix::ffi::{OsStrExt, OsStringExt};
use std::os::unix::fs::{symlink, FileTypeExt, MetadataExt, PermissionsExt};
use std::os::unix::io::AsRawFd;
use std::os::unix::process::ExitStatusExt;
use std::path::{Path, PathBuf};
use std::process::{Child, Command, Output, Stdio};

const PROGRAM: &str = env!("CARGO_BIN_EXE_macaroosh");

fn emulator() -> Option<OsString> {
    std::env::var_os("MACAROOSH_RUNNER")
}

// The program, under the emulator where the build was for another processor.
fn program() -> Command {
    let mut words = emulator().into_iter().chain([OsString::from(PROGRAM)]);
    let mut command = Command::new(words.next().expect("a word"));
    command.args(words);
    command
}

// The program by way of a shell, which may do something with its streams first.
fn shell(script: &str, words: &[OsString]) -> Command {
    let mut command = Command::new("sh");
    command.args(["-c", script, "sh"]).args(emulator()).arg(PROGRAM).args(words).stdin(Stdio::null());
    command
}

fn root() -> PathBuf {
    Path::new(env!("CARGO_MANIFEST_DIR")).join("..")
}

fn example(name: &str) -> PathBuf {
    root().join("examples").join(name)
}

// An empty folder for a test.
fn room(name: &str) -> PathBuf {
    emptied(Path::new(env!("CARGO_TARGET_TMPDIR")).join("hostile").join(name))
}

fn emptied(room: PathBuf) -> PathBuf {
    let _ = fs::remove_dir_all(&room);
    fs::create_dir_all(&room).expect("a folder");
    room
}

fn asked<S: AsRef<OsStr>>(words: &[S]) -> Output {
    program().args(words).stdin(Stdio::null()).output().expect("the program starts")
}

fn text(bytes: &[u8]) -> &str {
    std::str::from_utf8(bytes).expect("text")
}

fn words(words: &[&str], paths: &[&Path]) -> Vec<OsString> {
    words.iter().map(OsString::from).chain(paths.iter().map(OsString::from)).collect()
}

// Status 2, nothing on standard output, and the words on standard error.
#[track_caller]
fn mistake(got: &Output, told: &str) {
    assert_eq!((got.status.code(), text(&got.stdout)), (Some(2), ""), "{}", text(&got.stderr));
    assert!(text(&got.stderr).contains(told), "{}", text(&got.stderr));
}

const RAN: &str = "result 0 0 5\np 0 2 0 0\np 1 2 0 0\np 2 3 2 1\nsent 3\nstopped 0\n";
const LEFT: &str = "result 24 4 4\np 0 2 0 0\np 1 2 0 0\np 2 2 1 1\nsent 3\nstopped 0\n";

mod script {
    use super::*;

    // A checkout in small: the real scripts around a program that shows its folder and its words and ends with status 1.
    fn checkout(at: PathBuf) -> PathBuf {
        let at = emptied(at);
        for folder in ["tools", "crates/capi/src", "crates/capi_c/src", "host/src", "target/staticlib"] {
            fs::create_dir_all(at.join(folder)).expect("a folder");
        }
        for file in ["macaroosh", "tools/archive", "tools/cargo", "tools/setup", "crates.txt"] {
            fs::copy(root().join(file), at.join(file)).expect("a copy");
        }
        let files = [
            (
                "host/Cargo.toml",
                "[package]\nname = \"macaroosh\"\nversion = \"0.1.0\"\nedition = \"2021\"\n\n[workspace]\n",
            ),
            ("host/Cargo.lock", "version = 3\n\n[[package]]\nname = \"macaroosh\"\nversion = \"0.1.0\"\n"),
            ("host/build.rs", "fn main() {}\n"),
            ("host/src/main.rs", MAIN),
            ("crates/capi/src/lib.text", ""),
            ("target/staticlib/libcapi.a", ""),
        ];
        for (file, text) in files {
            fs::write(at.join(file), text).expect("a file");
        }
        at
    }

    const MAIN: &str = "\
fn main() {
    print!(\"{:?}\", std::env::current_dir().unwrap());
    std::env::args_os().skip(1).for_each(|word| print!(\" {word:?}\"));
    std::process::exit(1);
}
";

    // A program of a test.
    fn stub(path: &Path, script: &str) {
        fs::create_dir_all(path.parent().expect("a folder")).expect("a folder");
        fs::write(path, format!("#!/bin/sh\n{script}\n")).expect("a script");
        fs::set_permissions(path, Permissions::from_mode(0o755)).expect("its mode");
    }

    // A folder whose settings have cargo start a program that leaves a trace.
    fn trap(at: &Path) -> PathBuf {
        let (wrapper, trace) = (at.join("wrapper"), at.join("was-here"));
        stub(&wrapper, &format!("touch '{}'; exec \"$@\"", trace.display()));
        fs::create_dir_all(at.join(".cargo")).expect("a folder");
        let settings = format!("[build]\nrustc-wrapper = '{}'\n", wrapper.display());
        fs::write(at.join(".cargo/config.toml"), settings).expect("settings");
        trace
    }

    // Only the commands that the script itself needs, and the stubs of a test, which may not be among them.
    fn only(room: &Path, stubs: &[(&str, &str)]) -> PathBuf {
        let bin = emptied(room.join("bin"));
        let needed =
            ["bash", "dirname", "readlink", "find", "mktemp", "rm", "awk", "tee", "touch", "date", "mkdir", "cp"];
        for name in needed {
            let found = Command::new("sh").args(["-c", "command -v \"$0\"", name]).output().expect("a shell").stdout;
            symlink(text(&found).trim_end(), bin.join(name)).expect("a link");
        }
        // Elsewhere the script would ask for a cargo of a fixed path.
        stub(&bin.join("uname"), "echo x86_64");
        for (name, script) in stubs {
            stub(&bin.join(name), script);
        }
        bin
    }

    fn start(checkout: &Path, path: Option<&Path>) -> Command {
        let mut command = match path {
            None => Command::new(checkout.join("macaroosh")),
            Some(path) => {
                let mut command = Command::new("/usr/bin/env");
                command.arg(format!("PATH={}", path.display())).arg(path.join("bash")).arg(checkout.join("macaroosh"));
                command
            }
        };
        command.stdin(Stdio::null());
        command
    }

    // Status 2, and one sentence that says why.
    #[track_caller]
    fn fails(got: &Output, told: &str) {
        mistake(got, told);
        assert_eq!(text(&got.stderr).lines().count(), 1, "{}", text(&got.stderr));
        assert!(text(&got.stderr).starts_with("macaroosh: "), "{}", text(&got.stderr));
        // What was said is kept in a file, which is not needed here.
        if let Some((_, said)) = text(&got.stderr).trim_end().split_once(" said is in ") {
            fs::remove_file(said).expect("what was said");
        }
    }

    #[test]
    fn settings_of_the_callers_folder_are_not_obeyed() {
        let room = room("settings");
        let trace = trap(&room);
        // The checkout is below that folder too.
        let checkout = checkout(room.join("checkout"));
        for from in [room.clone(), emptied(room.join("inner")), room.join("checkout/host")] {
            let got = start(&checkout, None).current_dir(&from).args(["run", "a b", ""]).output().expect("the script");
            let from = fs::canonicalize(&from).expect("a folder");
            let shown = format!("{from:?} \"run\" \"a b\" \"\"");
            assert_eq!((got.status.code(), text(&got.stdout), text(&got.stderr)), (Some(1), &*shown, ""));
            assert!(!trace.exists(), "a program of the caller's folder was started");
        }
        let mut cargo = Command::new(checkout.join("tools/cargo"));
        cargo.args(["build", "--release", "--target-dir"]).arg(room.join("other")).current_dir(&room);
        assert_eq!(cargo.output().expect("the script").status.code(), Some(0));
        assert!(!trace.exists(), "a program of the caller's folder was started");
    }

    // The place of the program in a checkout that thinks it is on x86-64.
    fn program_of(checkout: &Path) -> PathBuf {
        checkout.join("host/target/release/macaroosh")
    }

    // As cargo would, at its place.
    fn built(checkout: &Path) {
        stub(&program_of(checkout), "echo \"$@\"");
    }

    #[test]
    fn once_it_is_built_nothing_else_is_needed() {
        let room = room("once-built");
        let checkout = checkout(room.join("checkout"));
        built(&checkout);
        let none = only(&room, &[]);
        let got = start(&checkout, Some(&none)).arg("words").output().expect("the script");
        assert_eq!((got.status.code(), text(&got.stdout), text(&got.stderr)), (Some(0), "words\n", ""));
        // A source that is newer is built.
        let source = checkout.join("host/src/main.rs");
        while fs::metadata(&source).expect("a file").modified().ok()
            <= fs::metadata(program_of(&checkout)).expect("a file").modified().ok()
        {
            fs::write(&source, "edited").expect("a file");
        }
        let build = format!("echo '#!/bin/sh\necho new' >'{}'", program_of(&checkout).display());
        let stubs = only(&room, &[("cargo", &build), ("gcc", "")]);
        for _ in 0..2 {
            let got = start(&checkout, Some(&stubs)).output().expect("the script");
            assert_eq!((got.status.code(), text(&got.stdout), text(&got.stderr)), (Some(0), "new\n", ""));
        }
    }

    #[test]
    fn elsewhere_the_emulator_starts_it() {
        let room = room("emulated");
        let checkout = checkout(room.join("checkout"));
        stub(&checkout.join("host/target/x86_64-unknown-linux-gnu/release/macaroosh"), "echo \"$@\"");
        let (arm, emulator) = (("uname", "echo aarch64"), ("qemu-x86_64", "echo emulated; exec \"$@\""));
        let got = start(&checkout, Some(&only(&room, &[arm, emulator]))).arg("words").output().expect("the script");
        assert_eq!((got.status.code(), text(&got.stdout), text(&got.stderr)), (Some(0), "emulated\nwords\n", ""));
        let got = start(&checkout, Some(&only(&room, &[arm]))).arg("words").output().expect("the script");
        fails(&got, "this machine needs 'qemu-x86_64' to run the program");
    }

    #[test]
    fn a_checkout_of_another_user_works_once_it_is_built() {
        let room = emptied(std::env::temp_dir().join(format!("macaroosh-hostile-{}", std::process::id())));
        fs::set_permissions(&room, Permissions::from_mode(0o755)).expect("its mode");
        let checkout = checkout(room.join("checkout"));
        built(&checkout);
        if let Some(mut command) = as_nobody(Path::new("/usr/bin/env")) {
            let path = only(&room, &[("cargo", "exit 9"), ("gcc", "")]);
            command.arg(format!("PATH={}", path.display())).arg(checkout.join("macaroosh")).arg("words");
            let got = command.output().expect("the script");
            assert_eq!((got.status.code(), text(&got.stdout), text(&got.stderr)), (Some(0), "words\n", ""));
        }
        fs::remove_dir_all(&room).expect("removed");
    }

    #[test]
    fn what_fails_before_the_program_is_told_in_a_sentence() {
        let room = room("fails");
        let checkout = checkout(room.join("checkout"));
        let start = |stubs: &[(&str, &str)]| {
            start(&checkout, Some(&only(&room, stubs))).args(["run", "x"]).output().expect("the script")
        };
        fails(
            &start(&[("apt-get", "echo no network; exit 100")]),
            "the program could not be built; what cargo said is in ",
        );
        fails(&start(&[("cargo", "echo error; exit 101"), ("gcc", "")]), "the program could not be built");
        // Cargo says that it is done, and nothing is there.
        fails(&start(&[("cargo", ""), ("gcc", "")]), "release/macaroosh' is not there or cannot be started");
        fs::remove_file(checkout.join("target/staticlib/libcapi.a")).expect("removed");
        fails(&start(&[]), "its command 'rt' is not found");
        fails(&start(&[("rt", "echo 'no proof'; exit 1")]), "the library could not be proved; what rt said is in ");
    }
}

// A command as the user nobody, where this is root and there is a way.
fn as_nobody(first: &Path) -> Option<Command> {
    let mut command = Command::new("setpriv");
    command.args(["--reuid=65534", "--regid=65534", "--clear-groups"]);
    let able = Command::new("setpriv").args(["--reuid=65534", "--regid=65534", "--clear-groups", "true"]).output();
    if able.map_or(true, |able| !able.status.success()) {
        eprintln!("not tried as another user: setpriv is missing, or this is not root");
        return None;
    }
    command.arg(first);
    Some(command)
}

#[test]
fn a_file_that_may_not_be_written_is_not_replaced() {
    let (here, w) = (std::env::temp_dir().join(format!("macaroosh-unwritable-{}", std::process::id())), "w.bundle");
    let room = emptied(here);
    fs::set_permissions(&room, Permissions::from_mode(0o777)).expect("its mode");
    let (copy, out, bundle) = (room.join("program"), room.join("out"), room.join(w));
    fs::copy(PROGRAM, &copy).expect("a copy");
    fs::copy(example(w), &bundle).expect("a copy");
    // Of another user, who lets nobody else write it; then one that nobody at all may write.
    for mode in [0o644, 0o444] {
        let _ = fs::remove_file(&out);
        fs::write(&out, "as it was").expect("a file");
        fs::set_permissions(&out, Permissions::from_mode(mode)).expect("its mode");
        let first = emulator().map_or(copy.clone(), PathBuf::from);
        if let Some(mut command) = as_nobody(&first) {
            command.args(emulator().map(|_| &copy)).args(words(&["run"], &[&bundle, Path::new("-o"), &out]));
            mistake(&command.output().expect("the program starts"), "cannot write");
        }
        assert_eq!(fs::read(&out).expect("the file"), b"as it was", "{mode:o}");
    }
    mistake(&asked(&words(&["run"], &[&bundle, Path::new("-o"), &out])), "it may not be written");
    assert_eq!(fs::read(&out).expect("the file"), b"as it was");
    assert_eq!(fs::read_dir(&room).expect("the folder").count(), 3);
    fs::remove_dir_all(&room).expect("removed");
}

#[test]
fn streams_keep_what_they_have() {
    let room = room("streams");
    let (w, out) = (example("w.bundle"), room.join("out"));
    let of = |stream: &str, script: &str| {
        let _ = fs::remove_file(&out);
        let all = [OsStr::new("run"), OsStr::new("--plain"), w.as_os_str(), OsStr::new("-o"), OsStr::new(stream)];
        let script = format!("out=$1; shift; {script}");
        let mut command = Command::new("sh");
        command.args(["-c", &script, "sh"]).arg(&out).args(emulator()).arg(PROGRAM).args(all).stdin(Stdio::null());
        let got = command.output().expect("a shell");
        assert_eq!((got.status.code(), text(&got.stderr)), (Some(0), ""), "{stream}");
        fs::read_to_string(&out).expect("the file")
    };
    for stream in ["/dev/stdout", "/dev/fd/1", "/proc/self/fd/1"] {
        let written = of(stream, "{ echo before && \"$@\" && echo after; } >\"$out\"");
        assert_eq!(written, format!("before\n{RAN}after\n"), "{stream}");
        assert_eq!(of(stream, "echo before >\"$out\"; \"$@\" >>\"$out\""), format!("before\n{RAN}"), "{stream}");
    }
    for (stream, number) in [("/dev/stderr", 2), ("/dev/fd/2", 2), ("/dev/fd/3", 3)] {
        let written =
            of(stream, &format!("{{ echo before >&{number} && \"$@\" && echo after >&{number}; }} {number}>\"$out\""));
        assert_eq!(written, format!("before\n{RAN}after\n"), "{stream}");
    }
    // By way of a link too.
    symlink("/dev/stdout", room.join("link")).expect("a link");
    let link = room.join("link");
    let written = of(link.to_str().expect("a name"), "{ echo before && \"$@\"; } >\"$out\"");
    assert_eq!(written, format!("before\n{RAN}"));
    assert_eq!(fs::read_dir(&room).expect("the folder").count(), 2);
    // One that is not open is no place.
    mistake(&asked(&words(&["run"], &[&w, Path::new("-o"), Path::new("/dev/fd/99")])), "cannot write '/dev/fd/99'");
}

#[test]
fn a_pipe_with_a_name_is_written_to() {
    let room = room("pipe");
    let pipe = room.join("pipe");
    let made = Command::new("mkfifo").arg(&pipe).status().expect("mkfifo");
    assert!(made.success());
    let mut command = program();
    command.args(words(&["run", "--plain"], &[&example("w.bundle"), Path::new("-o"), &pipe])).stdin(Stdio::null());
    let child = command.spawn().expect("the program starts");
    assert_eq!(fs::read_to_string(&pipe).expect("its text"), RAN);
    assert_eq!(child.wait_with_output().expect("its end").status.code(), Some(0));
    assert!(fs::metadata(&pipe).expect("the pipe").file_type().is_fifo());
}

#[test]
fn a_closed_stream_is_told() {
    if emulator().is_some() {
        return eprintln!("not tried: an emulator may open files of its own under these numbers");
    }
    let (w, twice) = (example("w.bundle"), example("w-echo-twice.bundle"));
    let closed = "cannot write standard output: it is closed";
    for all in
        [words(&["run"], &[&w]), words(&["run"], &[&twice]), words(&["translate"], &[&twice]), words(&["--help"], &[])]
    {
        mistake(&shell("exec \"$@\" >&-", &all).output().expect("a shell"), closed);
    }
    let to = |stream| words(&["run", "-o", stream], &[&w]);
    mistake(&shell("exec \"$@\" >&-", &to("/dev/stdout")).output().expect("a shell"), "it is closed");
    assert_eq!(shell("exec \"$@\" 2>&-", &to("/dev/stderr")).status().expect("a shell").code(), Some(2));
    // One that is open, but not for writing.
    mistake(&shell("exec \"$@\" 1</dev/null", &words(&["run"], &[&w])).output().expect("a shell"), "cannot write");
    // No input is another thing than an empty one.
    mistake(
        &shell("exec \"$@\" <&-", &words(&["run", "-"], &[])).output().expect("a shell"),
        "standard input: it is closed",
    );
    // Where standard output is not needed it may be closed.
    let out = room("closed").join("out");
    let all = words(&["run", "--plain"], &[&w, Path::new("-o"), &out]);
    assert_eq!(shell("exec \"$@\" >&-", &all).status().expect("a shell").code(), Some(0));
    assert_eq!(fs::read_to_string(&out).expect("the file"), RAN);
}

#[test]
fn links_stay_links() {
    let room = room("links");
    let path = |name: &str| room.join(name);
    let run = |out: &Path| asked(&words(&["run", "--plain"], &[&example("w.bundle"), Path::new("-o"), out]));
    fs::create_dir(path("folder")).expect("a folder");
    fs::write(path("folder/old"), "as it was").expect("a file");
    let links = [("to-old", "folder/old"), ("to-link", "to-old"), ("to-new", "folder/new"), ("to-to-new", "to-new")];
    for (link, target) in links {
        symlink(target, path(link)).expect("a link");
    }
    for (link, end) in [("to-link", "folder/old"), ("to-to-new", "folder/new")] {
        assert_eq!(run(&path(link)).status.code(), Some(0), "{link}");
        assert_eq!(fs::read_to_string(path(end)).expect("the file"), RAN, "{link}");
        assert!(fs::symlink_metadata(path(end)).expect("the file").is_file(), "{link}");
    }
    for (link, target) in links {
        assert_eq!(fs::read_link(path(link)).expect("a link"), Path::new(target));
    }
    symlink("two", path("one")).expect("a link");
    symlink("one", path("two")).expect("a link");
    mistake(&run(&path("one")), "its links lead round in a loop");
    symlink("nothing/new", path("to-nothing")).expect("a link");
    mistake(&run(&path("to-nothing")), "No such file or directory");
    assert_eq!(fs::read_dir(path("folder")).expect("the folder").count(), 2);
    assert_eq!(fs::read_dir(&room).expect("the folder").count(), 8);
}

// A bundle of so many waits that its trace takes a while.
fn long(room: &Path) -> PathBuf {
    let steps = 1_000;
    let mut bundle = vec![1, 0, 3, 255, 255];
    bundle.extend([0, 4, 255, 255].iter().cycle().take(4 * (steps - 1)));
    bundle.extend((4 * steps as u16).to_le_bytes());
    bundle.extend((4 * steps as u16 + 1).to_le_bytes());
    bundle.extend([1, 0, 0, 0]);
    let path = room.join("long.bundle");
    fs::write(&path, bundle).expect("a file");
    path
}

// The unfinished file in a folder.
fn unfinished(folder: &Path) -> Option<PathBuf> {
    let mut entries = fs::read_dir(folder).expect("the folder").filter_map(Result::ok).map(|entry| entry.path());
    entries.find(|path| path.file_name().map_or(false, |name| name.as_bytes().starts_with(b".macaroosh.")))
}

fn traced(bundle: &Path, out: &Path) -> Child {
    let mut command = program();
    command
        .args(words(&["trace"], &[bundle, Path::new("-o"), out]))
        .stdin(Stdio::null())
        .spawn()
        .expect("the program starts")
}

#[test]
fn an_unfinished_file_is_never_more_open_than_the_old_one() {
    let room = room("mode");
    let (bundle, folder) = (long(&room), emptied(room.join("folder")));
    let out = folder.join("out");
    let set = |mode: u32| {
        let _ = fs::remove_file(&out);
        File::create(&out).expect("a file");
        fs::set_permissions(&out, Permissions::from_mode(mode)).expect("its mode");
    };
    let mut seen = 0;
    for mode in [0o600, 0o640, 0o200].iter().cycle().take(1_000) {
        set(*mode);
        let mut child = traced(&bundle, &out);
        while child.try_wait().expect("the program").is_none() {
            // It may be gone again before it is looked at.
            if let Some(open) = unfinished(&folder).and_then(|path| fs::metadata(path).ok()) {
                assert_eq!(open.mode() & 0o7777 & !mode, 0, "{:o} for {mode:o}", open.mode());
                seen += 1;
            }
        }
        assert_eq!(fs::metadata(&out).expect("the file").mode() & 0o7777, *mode);
        if seen > 100 {
            break;
        }
    }
    assert!(seen > 0, "no unfinished file was ever seen");
    // Bits that the mask would take, and a new file, which has what the mask leaves.
    set(0o666);
    let masked = |out: &Path| {
        shell("umask 027; exec \"$@\"", &words(&["run"], &[&example("w.bundle"), Path::new("-o"), out])).status()
    };
    assert!(masked(&out).expect("a shell").success());
    assert_eq!(fs::metadata(&out).expect("the file").mode() & 0o7777, 0o666);
    let new = folder.join("new");
    assert!(masked(&new).expect("a shell").success());
    assert_eq!(fs::metadata(&new).expect("the file").mode() & 0o7777, 0o640);
}

#[test]
fn a_file_keeps_its_owner() {
    let out = room("owner").join("out");
    fs::write(&out, "as it was").expect("a file");
    let given = Command::new("chown").arg("65534:65533").arg(&out).output().expect("chown");
    if !given.status.success() {
        return eprintln!("not tried: only root may give files away");
    }
    let got = asked(&words(&["run", "--plain", "-o"], &[&out, &example("w.bundle")]));
    assert_eq!((got.status.code(), fs::read_to_string(&out).expect("the file").as_str()), (Some(0), RAN));
    let new = fs::metadata(&out).expect("the file");
    assert_eq!((new.uid(), new.gid()), (65534, 65533));
}

extern "C" {
    fn kill(process: c_int, signal: c_int) -> c_int;
    fn grantpt(terminal: c_int) -> c_int;
    fn unlockpt(terminal: c_int) -> c_int;
    fn ptsname(terminal: c_int) -> *const c_char;
}

const KILLED: c_int = 9;

// A signal for a program, unless it has ended.
fn send(signal: c_int, child: &mut Child) {
    if child.try_wait().expect("the program").is_none() {
        // SAFETY: the child is not waited for yet, so that its number is its own.
        unsafe { kill(child.id() as c_int, signal) };
    }
}

#[test]
fn an_end_in_the_middle_of_a_write_leaves_the_old_file_or_the_new_one() {
    let room = room("ends");
    let (bundle, folder) = (long(&room), emptied(room.join("folder")));
    let (out, old) = (folder.join("out"), "as it was\n".repeat(1_000).into_bytes());
    assert_eq!(traced(&bundle, &out).wait().expect("its end").code(), Some(0));
    let new = fs::read(&out).expect("the file");
    let mut dice = Dice::new(1);
    let mut in_the_middle = 0;
    for signal in [1, 2, 15, KILLED].iter().cycle().take(part_of(160).max(40) as usize) {
        fs::write(&out, &old).expect("a file");
        let mut child = traced(&bundle, &out);
        // Mostly as soon as the new file is begun, else at any moment.
        let mut patience = if dice.once_in(4) { dice.below(200) } else { usize::MAX };
        while patience > 0 && unfinished(&folder).is_none() && child.try_wait().expect("the program").is_none() {
            patience -= 1;
        }
        (0..dice.below(1_000)).for_each(|_| std::hint::spin_loop());
        send(*signal, &mut child);
        let status = child.wait().expect("its end");
        let got = fs::read(&out).expect("the file");
        assert!(got == old || got == new, "{} bytes after signal {signal}", got.len());
        if status.signal().is_none() {
            assert_eq!((status.code(), got == new), (Some(0), true));
        } else if got == old {
            in_the_middle += 1;
        }
        match unfinished(&folder) {
            Some(left) if *signal == KILLED => fs::remove_file(left).expect("removed"),
            left => assert_eq!(left, None, "after signal {signal}"),
        }
    }
    assert!(in_the_middle > 0, "no end came before the new file was whole");
}

#[test]
fn a_signal_that_is_ignored_stays_ignored() {
    let room = room("ignored");
    let (bundle, folder) = (long(&room), emptied(room.join("folder")));
    let out = folder.join("out");
    for _ in 0..part_of(20) {
        let _ = fs::remove_file(&out);
        let all = words(&["trace"], &[&bundle, Path::new("-o"), &out]);
        let mut child = shell("trap '' HUP INT TERM; exec \"$@\"", &all).spawn().expect("a shell");
        while unfinished(&folder).is_none() && child.try_wait().expect("the program").is_none() {}
        for signal in [1, 2, 15] {
            send(signal, &mut child);
        }
        assert_eq!(child.wait().expect("its end").code(), Some(0));
        assert!(out.exists());
    }
}

#[test]
fn a_slow_input_that_ends_in_a_signal_leaves_the_old_file() {
    let room = room("slow");
    let out = room.join("out");
    fs::write(&out, "as it was").expect("a file");
    for signal in [15, KILLED] {
        let mut command = program();
        command.args(words(&["translate", "-"], &[Path::new("-o"), &out])).stdin(Stdio::piped());
        let mut child = command.spawn().expect("the program starts");
        let mut input = child.stdin.take().expect("its input");
        input.write_all(&fs::read(example("w.bundle")).expect("an example")[..20]).expect("some of it");
        send(signal, &mut child);
        assert_eq!(child.wait().expect("its end").signal(), Some(signal));
        assert_eq!(fs::read(&out).expect("the file"), b"as it was");
        assert_eq!(fs::read_dir(&room).expect("the folder").count(), 1);
    }
}

#[test]
fn a_file_past_the_limit_leaves_no_unfinished_one() {
    let room = room("limit");
    let out = room.join("out");
    let all = words(&["trace"], &[&example("w.bundle"), Path::new("-o"), &out]);
    let got = shell("ulimit -f 0; exec \"$@\"", &all).status().expect("a shell");
    assert!(!got.success());
    assert_eq!(fs::read_dir(&room).expect("the folder").count(), 0);
}

#[test]
fn a_refused_input_leaves_the_file_unless_it_is_asked_for() {
    let room = room("partial");
    let (twice, out) = (example("w-echo-twice.bundle"), room.join("out"));
    let refused = |first: &[&str]| {
        fs::write(&out, "as it was").expect("a file");
        let got = asked(&words(first, &[&twice, Path::new("-o"), &out]));
        assert_eq!(got.status.code(), Some(1), "{first:?}");
        (text(&got.stdout).to_string(), fs::read_to_string(&out).expect("the file"))
    };
    let kept = |shown: &str| (shown.to_string(), "as it was".to_string());
    assert_eq!(refused(&["run", "--plain"]), kept(LEFT));
    assert_eq!(refused(&["first", "--plain"]), kept("result 24 4\nnone\n"));
    assert_eq!(refused(&["translate"]), kept(""));
    let (shown, file) = refused(&["trace"]);
    assert_eq!((shown.lines().count(), &*file), (10, "as it was"));
    assert_eq!(refused(&["run", "--plain", "--partial"]), (String::new(), LEFT.to_string()));
    assert_eq!(refused(&["trace", "--partial"]), (String::new(), shown));
    for command in ["first", "translate", "draw", "undraw", "log"] {
        let all = [OsStr::new(command), OsStr::new("x"), OsStr::new("--partial")];
        mistake(&asked(&all), "--partial is for run and trace alone");
    }
}

#[test]
fn a_file_that_is_asked_for_has_what_there_is() {
    let out = room("partial-whole").join("out");
    let got = asked(&words(&["run", "--plain", "--partial", "-o"], &[&out, &example("w.bundle")]));
    assert_eq!(got.status.code(), Some(0));
    assert_eq!(fs::read_to_string(&out).expect("the file"), RAN);
    // Where nothing was left there is nothing to write.
    let got = asked(&words(&["run", "--partial", "/dev/null", "-o"], &[&out]));
    assert_eq!(got.status.code(), Some(1));
    assert_eq!(fs::read_to_string(&out).expect("the file"), RAN);
}

#[test]
fn names_do_not_write_to_the_terminal() {
    let room = room("names");
    let name = OsString::from_vec(b"\x1b[31mred\n\x07\xff".to_vec());
    let shown = "\\x1b[31mred\\n\\x07\\xff";
    let (path, out) = (room.join(&name), room.join("folder"));
    mistake(&asked(&words(&["run"], &[&path])), &format!("{shown}': No such file or directory"));
    fs::create_dir(&out).expect("a folder");
    let missing = out.join(&name).join("out");
    mistake(&asked(&words(&["run"], &[&example("w.bundle"), Path::new("-o"), &missing])), &format!("{shown}/out'"));
    let got = asked(&words(&["translate"], &[&example("w.bundle"), Path::new("-o"), &path]));
    assert_eq!(got.status.code(), Some(0));
    assert!(text(&got.stderr).ends_with(&format!("/{shown}\n")), "{}", text(&got.stderr));
    // Words too, as commands, options, forms, and one too many.
    let w = example("w.bundle");
    let option = OsString::from_vec(b"--\x1b]0;x\x07".to_vec());
    for all in [
        vec![name.as_os_str()],
        vec![OsStr::new("run"), w.as_os_str(), name.as_os_str()],
        vec![OsStr::new("translate"), w.as_os_str(), OsStr::new("--to"), name.as_os_str()],
        vec![OsStr::new("run"), w.as_os_str(), option.as_os_str()],
        vec![OsStr::new("run"), w.as_os_str(), OsStr::new("-o"), option.as_os_str()],
    ] {
        let got = asked(&all);
        mistake(&got, "\\x1b");
        assert!(got.stderr.iter().all(|byte| matches!(byte, b'\n' | b' '..=b'~')), "{:?}", got.stderr);
    }
}

#[test]
fn values_may_stand_after_a_sign() {
    let (w, table) = (example("w.bundle"), example("echo.table"));
    let got = asked(&words(&["translate", "--to=plain"], &[&w]));
    assert_eq!((got.status.code(), got.stdout), (Some(0), fs::read(example("w-plain.bundle")).expect("an example")));
    // A name need not be text, nor be free of the sign.
    let copy = room("values").join(OsString::from_vec(b"a=b\xff".to_vec()));
    fs::copy(&table, &copy).expect("a copy");
    let mut standing = OsString::from("--standing=");
    standing.push(&copy);
    let got = asked(&[OsStr::new("run"), OsStr::new("--plain"), &standing, w.as_os_str()]);
    assert_eq!((got.status.code(), text(&got.stdout)), (Some(0), RAN), "{}", text(&got.stderr));
    let wrong = [
        (&["translate", "x", "--to=round"][..], "there is no form 'round'"),
        (&["translate", "x", "--to="], "--to needs a form, edition or step after it"),
        (&["run", "x", "--standing="], "--standing needs a file after it"),
        (&["translate", "x", "--to=plain", "--to", "plain"], "--to is given twice"),
        (&["run", "x", "--plain=yes"], "--plain takes no value"),
        (&["run", "--plain=yes", "x"], "--plain takes no value"),
        (&["run", "x", "--plian=yes"], "there is no option '--plian'"),
        (&["run", "x", "-o", "--plain"], "-o needs a file after it, and '--plain' is an option"),
        (&["run", "x", "-o", "--"], "-o needs a file after it"),
        (&["run", "x", "--standing", "--plain"], "--standing needs a file after it, and '--plain' is an option"),
        (&["run", "--", "--to=plain"], "cannot read '--to=plain'"),
    ];
    for (all, told) in wrong {
        mistake(&asked(all), told);
    }
    assert!(!Path::new("--plain").exists());
}

#[test]
fn the_version_is_told() {
    let manifest = fs::read_to_string(root().join("host/Cargo.toml")).expect("the manifest");
    let version =
        manifest.lines().find_map(|line| line.strip_prefix("version = ")).expect("a version").trim_matches('"');
    let got = asked(&["--version"]);
    assert_eq!((got.status.code(), text(&got.stdout)), (Some(0), &*format!("macaroosh {version}\n")));
}

// Both ends of a new terminal: that of a person and that of a program.
fn terminal() -> (File, File) {
    let person = OpenOptions::new().read(true).write(true).open("/dev/ptmx").expect("a terminal");
    // SAFETY: the number is of an open file, and the name is copied before the next call.
    let name = unsafe {
        assert_eq!((grantpt(person.as_raw_fd()), unlockpt(person.as_raw_fd())), (0, 0));
        CStr::from_ptr(ptsname(person.as_raw_fd())).to_owned()
    };
    let name = OsStr::from_bytes(name.to_bytes()).to_owned();
    (person, OpenOptions::new().read(true).write(true).open(name).expect("its other end"))
}

#[test]
fn bytes_are_not_written_to_a_terminal() {
    let (w, dot, table) = (example("w.bundle"), example("echo.dot"), example("echo.table"));
    let out = room("terminal").join("out");
    let (_person, end) = terminal();
    let asked = |first: &[&str], paths: &[&Path]| {
        let mut command = program();
        command.args(words(first, paths)).stdin(Stdio::null()).stdout(end.try_clone().expect("its other end"));
        command.stderr(Stdio::piped()).spawn().and_then(Child::wait_with_output).expect("the program starts")
    };
    let of_bytes: [(&[&str], &PathBuf); 4] = [
        (&["translate"], &w),
        (&["undraw"], &dot),
        (&["draw", "--png"], &table),
        (&["edition", "--to", "second"], &table),
    ];
    for (first, path) in of_bytes {
        mistake(&asked(first, &[path]), "give -o FILE");
        let got = asked(first, &[path, Path::new("-o"), &out]);
        assert_eq!(got.status.code(), Some(0), "{}", text(&got.stderr));
    }
    for (first, path) in [(&["run"][..], &w), (&["log"], &w), (&["draw"], &table), (&["draw", "--svg"], &table)] {
        assert_eq!(asked(first, &[path]).status.code(), Some(0), "{first:?}");
    }
}

// What a person at a terminal sees on standard error of a command.
fn seen_at_a_terminal(words: &[OsString]) -> String {
    let (mut person, end) = terminal();
    let mut command = program();
    command.args(words).stdin(Stdio::null()).stdout(Stdio::null()).stderr(end);
    command.status().expect("the program starts");
    // Its end is closed with the command; what was written is read first.
    drop(command);
    let (mut seen, mut some) = (Vec::new(), [0; 4_096]);
    while let Some(count) = person.read(&mut some).ok().filter(|&count| count > 0) {
        seen.extend(&some[..count]);
    }
    String::from_utf8(seen).expect("text")
}

#[test]
fn how_far_a_shelf_is_moved_is_shown_at_a_terminal() {
    let (room, to) = (room("progress"), ["edition", "--to", "second", "--into"]);
    let paths: Vec<PathBuf> = (10..25).map(|i| room.join(i.to_string())).collect();
    let [few, many] = ["few", "many"].map(|name| {
        fs::create_dir(room.join(name)).expect("a folder");
        room.join(name)
    });
    for path in &paths {
        fs::copy(example("echo.table"), path).expect("a table");
    }
    fs::copy(example("majority.table"), &paths[3]).expect("a table");
    let asked = |folder: &Path, paths: &[PathBuf]| {
        let all: Vec<&Path> = [folder].into_iter().chain(paths.iter().map(PathBuf::as_path)).collect();
        seen_at_a_terminal(&words(&to, &all))
    };
    let few = asked(&few, &paths[5..]);
    assert_eq!(few, "10 moved to the second edition, 0 refused\r\n");
    let many = asked(&many, &paths);
    let shown: Vec<&str> = many.split('\r').map(str::trim_end).filter(|line| !line.is_empty()).collect();
    let far = |from: usize, to: usize| (from..=to).map(|done| format!("{done} of 15 tables")).collect::<Vec<_>>();
    let refused = format!("'{}': refused 33", paths[3].display());
    assert!(shown[4].starts_with(&refused), "{shown:?}");
    assert_eq!(shown[..4], far(0, 3));
    assert_eq!(shown[5..16], far(4, 14));
    assert_eq!(shown[16], "14 moved to the second edition, 1 refused");
}

#[test]
fn how_much_a_search_has_tried_is_shown_at_a_terminal() {
    let path = room("tried").join("bundle");
    // 43 boards hear 21 faulty ones of four types by rule 0 and wait for nothing else: no search of four steps comes to its end. The
    // other rules leave another state, so that their tries take little time.
    let rules = (0..64).flat_map(|rule| [vec![u8::from(rule > 0); 2], vec![0; 12]].concat());
    let table = [&[1, 0, 0, 0][..], &rules.collect::<Vec<u8>>(), &[0x84, 3, 0x80, 3, 2, 64, 4, 3]].concat();
    fs::write(&path, bundles::closed(&[table, vec![0; 43]].concat(), &[], 43, [64, 21, 21, 1])).expect("a bundle");
    let seen = |budget: &str| seen_at_a_terminal(&words(&["search", "--depth=4", "--budget", budget], &[&path]));
    assert_eq!(seen("100000000"), "");
    let lines = seen("300000000");
    let shown: Vec<&str> = lines.split('\r').map(str::trim_end).filter(|line| !line.is_empty()).collect();
    let far = |tried: &str| format!("{tried} tried of 300,000,000, nothing found yet");
    assert_eq!(shown, [far("100,000,000"), far("200,000,000")]);
    // Elsewhere it is asked for at once.
    assert_eq!(text(&asked(&words(&["search", "--depth=4", "--budget=100000001"], &[&path])).stderr), "");
}

#[test]
fn how_much_of_a_list_is_made_is_shown_at_a_terminal() {
    let out = room("listed").join("list");
    let lines = seen_at_a_terminal(&words(&["list", "-o"], &[&out, &example("no-bubble.bundle")]));
    let mut shown: Vec<&str> = lines.split('\r').map(str::trim_end).filter(|line| !line.is_empty()).collect();
    let wrote = shown.pop().expect("what was written");
    assert!(wrote.starts_with("wrote 704 bytes to "), "{wrote}");
    let met = [1, 4, 6, 7, 7, 8, 8, 8];
    let far = |(at, met): (usize, &usize)| match met {
        1 => "0 of 1 configuration looked at".to_string(),
        _ => format!("{at} of {met} configurations looked at"),
    };
    assert_eq!(shown, met.iter().enumerate().map(far).collect::<Vec<_>>());
}

// A bundle, a table, a drawing or a log with up to four places flipped, cut or filled in.
fn damaged(seed: u64) -> Vec<u8> {
    let dice = &mut Dice::new(seed);
    let mut bytes = match seed % 4 {
        0 => bundles::any(dice),
        1 => shelf::any(dice),
        2 => sketches::text(dice),
        _ => {
            let replay = logs::any(dice);
            if dice.once_in(2) {
                replay.bundle
            } else {
                replay.log
            }
        }
    };
    for _ in 0..dice.below(5) {
        let at = dice.below(bytes.len() + 1);
        let end = bytes.len().min(at + dice.between(1, 9));
        match dice.below(3) {
            0 => bytes.iter_mut().skip(at).take(1).for_each(|byte| *byte ^= 1 << dice.below(8)),
            1 => bytes.drain(at..end).for_each(drop),
            _ => {
                let more: Vec<u8> = (at..=end).map(|_| dice.below(256) as u8).collect();
                bytes.splice(at..at, more).for_each(drop);
            }
        }
    }
    bytes
}

#[test]
fn no_damaged_input_makes_any_command_stumble() {
    const COMMANDS: [&[&str]; 17] = [
        &["run"],
        &["run", "--plain"],
        &["trace"],
        &["first"],
        &["translate"],
        &["translate", "--to=message"],
        &["translate", "--to=counting"],
        &["translate", "--to=plain"],
        &["draw"],
        &["undraw"],
        &["undraw", "--plain"],
        &["log"],
        &["log", "--plain"],
        &["edition", "--to=first"],
        &["edition", "--to=second"],
        &["edition", "--to=second", "--plain"],
        &["search", "--depth=2", "--budget=2000"],
    ];
    // As a bundle and as a log.
    const REPLAYS: [&[&str]; 4] =
        [&["replay"], &["replay", "--trace", "--json"], &["replay", "--follow"], &["replay", "--follow", "--plain"]];
    let room = room("damaged");
    // Sound ones are rare: these are bundles in each form, tables in each edition and a drawing.
    let sound = [35, 41, 89, 92, 122, 192];
    let statuses = each_seed_and(&sound, seeds("MACAROOSH_DAMAGED", part_of(part_of(1_000))), |seed| {
        let path = room.join(seed.to_string());
        fs::write(&path, damaged(seed)).expect("a file");
        let statuses = COMMANDS.map(|command| {
            let got = asked(&words(command, &[&path]));
            let told = String::from_utf8_lossy(&got.stderr).into_owned();
            assert!(matches!(got.status.code(), Some(0 | 1)), "seed {seed}, {command:?}: {}, {told}", got.status);
            assert!(!told.contains("mistake") && !told.contains("panicked"), "seed {seed}, {command:?}: {told}");
            got.status.code() == Some(0)
        });
        for (command, bundle) in REPLAYS.iter().flat_map(|command| [(command, true), (command, false)]) {
            let (empty, log) = (example("w-empty.bundle"), example("w.log"));
            let paths = if bundle { [&path, &log] } else { [&empty, &path] };
            let got = asked(&words(command, &paths.map(PathBuf::as_path)));
            let told = String::from_utf8_lossy(&got.stderr).into_owned();
            assert!(matches!(got.status.code(), Some(0 | 1)), "seed {seed}, {command:?}: {}, {told}", got.status);
            assert!(told.bytes().all(|byte| byte == b'\n' || byte >= b' '), "seed {seed}, {command:?}: {told}");
        }
        // As a list, and as the bundle of one; few have one, so that it is asked for apart.
        let (bundle, list) = (example("no-bubble.bundle"), example("no-bubble.list"));
        let of_lists = [(&["check", "--plain", "--of"][..], vec![&bundle, &path]), (&["list"], vec![&path])];
        for (command, paths) in of_lists.into_iter().chain([(&["check", "--json", "--of"][..], vec![&path, &list])]) {
            let paths: Vec<&Path> = paths.into_iter().map(PathBuf::as_path).collect();
            let got = asked(&words(command, &paths));
            let told = String::from_utf8_lossy(&got.stderr).into_owned();
            assert!(matches!(got.status.code(), Some(0 | 1)), "seed {seed}, {command:?}: {}, {told}", got.status);
            assert!(!told.contains("panicked"), "seed {seed}, {command:?}: {told}");
        }
        // As a standing table too.
        let got = asked(&words(&["run", "--standing"], &[&path, &example("w.bundle")]));
        assert!(matches!(got.status.code(), Some(0 | 1)), "seed {seed}, as a standing table: {}", got.status);
        fs::remove_file(&path).expect("removed");
        statuses
    });
    // Some are sound after all, so that each command had something to do.
    for (at, command) in COMMANDS.iter().enumerate() {
        let answered = statuses.iter().filter(|all| all[at]).count();
        assert!((1..statuses.len()).contains(&answered), "{command:?}");
    }
}
