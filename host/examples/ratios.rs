//! The proved library beside the hand-written fast version, measured in turns in one run; docs/COST.md has the cases.
//!
//! - `ratios` prints a line for each case, question and form: both times of one call, and their ratio.
//! - `ratios write FOLDER` writes each case's bundle there, a list beside its bundle as FILE.list, and prints a line for each
//!   measurement: file, question, and of a search how many are tried.
//! - `ratios one library|rust run|translate|first|replay|search-D|check FILE COUNT` only asks the question so often, to be counted from
//!   outside; D is a search's depth.
//!
//! A replay is that of the bundle's own log over the bundle without its steps; less a run of the bundle it is the log's reader.

use judge::fast::Fast;
use judge::logs::log_of;
use judge::makers::bundles::without_steps;
use judge::makers::cases::{cases, lists, searches, Case, ListCase, SearchCase};
use judge::model::{read, Model};
use judge::{Bench, Checks, Library, Limits, Replays, Searches};
use macaroosh::calls::{Answer, First, NONE};
use macaroosh::{Form, ECHO, MOST_DEPTH, MOST_WORDS};
use std::process::ExitCode;
use std::time::{Duration, Instant};

// Whoever answers every question.
trait Side: Bench + Replays + Searches + Checks {}

impl<S: Bench + Replays + Searches + Checks> Side for S {}

fn main() -> ExitCode {
    let words: Vec<String> = std::env::args().skip(1).collect();
    let words: Vec<&str> = words.iter().map(String::as_str).collect();
    let done = match words[..] {
        [] => ratios(),
        ["write", folder] => write(folder),
        ["one", side, question, file, count] => one(side, question, file, count),
        _ => Err("as 'ratios', 'ratios write FOLDER' or 'ratios one SIDE QUESTION FILE COUNT'".to_string()),
    };
    match done {
        Ok(()) => ExitCode::SUCCESS,
        Err(cause) => {
            eprintln!("ratios: {cause}");
            ExitCode::FAILURE
        }
    }
}

// What is asked of a case.
fn questions(case: &Case) -> &'static [&'static str] {
    match case.form {
        _ if case.stuck => &["first"],
        Form::Message => &["run", "translate", "first", "replay"],
        Form::Counting | Form::Plain => &["run", "translate", "first"],
    }
}

fn ratios() -> Result<(), String> {
    if std::env::var_os("MACAROOSH_RUNNER").is_some() {
        eprintln!("times under an emulator say nothing: measure/instructions counts instead");
    }
    println!("{:<12} {:<9} {:<9} {:>12} {:>12} {:>7}", "case", "form", "question", "library ns", "rust ns", "ratio");
    for case in cases() {
        agree(&case)?;
        let mut of_run = [0.0; 2];
        for question in questions(&case) {
            let both = times(&case.bundle, &[], question)?;
            tell(case.name, case.form, question, both);
            match *question {
                "run" => of_run = both,
                "replay" => tell(case.name, case.form, "reader", [both[0] - of_run[0], both[1] - of_run[1]]),
                _ => {}
            }
        }
    }
    for case in searches() {
        let tried = tried(&case)?;
        let both = times(&case.bundle, &[], &question(&case))?;
        tell(case.name, Form::Counting, &question(&case), both);
        tell(case.name, Form::Counting, "try", both.map(|time| time / tried as f64));
    }
    for case in lists() {
        accepted(&case)?;
        tell(case.name, Form::Counting, "check", times(&case.bundle, &case.list, "check")?);
    }
    Ok(())
}

fn tell(name: &str, form: Form, question: &str, [library, rust]: [f64; 2]) {
    let (form, ratio) = (form.name(), library / rust);
    println!("{name:<12} {form:<9} {question:<9} {library:>12.2} {rust:>12.2} {ratio:>7.2}");
}

// What is asked of a search.
fn question(case: &SearchCase) -> String {
    format!("search-{}", case.depth)
}

fn write(folder: &str) -> Result<(), String> {
    for case in cases() {
        agree(&case)?;
        let name = format!("{}-{}", case.name, case.form.name());
        std::fs::write(format!("{folder}/{name}"), &case.bundle)
            .map_err(|cause| format!("{folder}/{name}: {cause}"))?;
        questions(&case).iter().for_each(|question| println!("{name} {question}"));
    }
    for case in searches() {
        let tried = tried(&case)?;
        std::fs::write(format!("{folder}/{}", case.name), &case.bundle)
            .map_err(|cause| format!("{folder}/{}: {cause}", case.name))?;
        println!("{} {} {tried}", case.name, question(&case));
    }
    for case in lists() {
        accepted(&case)?;
        let list: Vec<u8> = case.list.iter().flat_map(|word| word.to_le_bytes()).collect();
        for (name, bytes) in [(case.name.to_string(), &case.bundle), (list_of(case.name), &list)] {
            std::fs::write(format!("{folder}/{name}"), bytes).map_err(|cause| format!("{folder}/{name}: {cause}"))?;
        }
        println!("{} check", case.name);
    }
    Ok(())
}

fn one(side: &str, question: &str, file: &str, count: &str) -> Result<(), String> {
    let bench: &dyn Side = match side {
        "library" => &Library,
        "rust" => &Fast,
        _ => return Err(format!("there is no side '{side}'")),
    };
    let bundle = std::fs::read(file).map_err(|cause| format!("{file}: {cause}"))?;
    let count = count.parse().map_err(|_| format!("'{count}' is no count"))?;
    let list = if question == "check" { words(&list_of(file))? } else { Vec::new() };
    Asked::new(&bundle, &list)?.ask(bench, &bundle, question, count);
    Ok(())
}

// The file of a bundle's list.
fn list_of(file: &str) -> String {
    format!("{file}.list")
}

// The words of a file.
fn words(file: &str) -> Result<Vec<u64>, String> {
    let bytes = std::fs::read(file).map_err(|cause| format!("{file}: {cause}"))?;
    let word = |bytes: &[u8]| bytes.iter().rev().fold(0, |word, &byte| word << 8 | u64::from(byte));
    Ok(bytes.chunks_exact(8).map(word).collect())
}

// Refuses a case on which the model, the library and the fast version differ.
fn agree(case: &Case) -> Result<(), String> {
    let answers = |bench: &dyn Side| -> Result<Asked, String> {
        let mut asked = Asked::new(&case.bundle, &[])?;
        for question in ["run", "translate", "first", "replay"] {
            asked.ask(bench, &case.bundle, question, 1);
        }
        Ok(asked)
    };
    let told = answers(&Model)?;
    if told.run.map(|answer| answer.refusal) != Some(0) || case.stuck != (told.first == Some(Ok(None))) {
        return Err(format!("{} in {} form is not as it should be", case.name, case.form.name()));
    }
    if told != answers(&Library)? || told != answers(&Fast)? {
        return Err(format!("the benches differ on {} in {} form", case.name, case.form.name()));
    }
    Ok(())
}

// How many a search tries that finds nothing; refuses one on which the model, the library and the fast version differ.
fn tried(case: &SearchCase) -> Result<u64, String> {
    let answers = |bench: &dyn Side| -> Result<Asked, String> {
        let mut asked = Asked::new(&case.bundle, &[])?;
        asked.ask(bench, &case.bundle, &question(case), 1);
        Ok(asked)
    };
    let told = answers(&Model)?;
    if told.search != Some(Answer { refusal: 0, place: 0, count: NONE }) {
        return Err(format!("{} is not as it should be", case.name));
    }
    if told != answers(&Library)? || told != answers(&Fast)? {
        return Err(format!("the benches differ on {}", case.name));
    }
    Ok(told.tried)
}

// Refuses a list that the model, the library and the fast version do not all accept.
fn accepted(case: &ListCase) -> Result<(), String> {
    for bench in [&Model as &dyn Side, &Library, &Fast] {
        if bench.check_list(&case.bundle, &ECHO, &case.list).refusal != 0 {
            return Err(format!("{} is not accepted", case.name));
        }
    }
    Ok(())
}

// What is replayed, what is checked, lent memory, and the last answer to each question.
#[derive(PartialEq)]
struct Asked {
    empty: Vec<u8>,
    list: Vec<u64>,
    log: Vec<u8>,
    words: Vec<u64>,
    out: Vec<u8>,
    made: Vec<u8>,
    found: [u8; 4 * MOST_DEPTH as usize],
    tried: u64,
    run: Option<Answer>,
    translate: Option<Answer>,
    first: Option<First>,
    replay: Option<Answer>,
    search: Option<Answer>,
    check: Option<Answer>,
}

impl Asked {
    fn new(bundle: &[u8], list: &[u64]) -> Result<Asked, String> {
        let steps = read(bundle, &ECHO).map_err(|refusal| refusal.to_string())?.steps;
        Ok(Asked {
            empty: without_steps(bundle),
            list: list.to_vec(),
            log: log_of(&steps).into_bytes(),
            words: vec![0; MOST_WORDS],
            out: vec![0; bundle.len()],
            made: vec![0; bundle.len()],
            found: [0; 4 * MOST_DEPTH as usize],
            tried: 0,
            run: None,
            translate: None,
            first: None,
            replay: None,
            search: None,
            check: None,
        })
    }

    // The answers are kept, so that no call is left out.
    fn ask(&mut self, bench: &dyn Side, bundle: &[u8], question: &str, count: u32) {
        let depth = question.strip_prefix("search-").and_then(|depth| depth.parse().ok()).unwrap_or(0);
        let limits = Limits { depth, budget: u64::MAX };
        for _ in 0..count {
            match question {
                "run" => self.run = Some(bench.run(bundle, &ECHO, &mut self.words)),
                "translate" => self.translate = Some(bench.translate(bundle, &ECHO, &mut self.out)),
                "check" => self.check = Some(bench.check_list(bundle, &ECHO, &self.list)),
                "first" => self.first = Some(bench.first_step(bundle, &ECHO)),
                _ if question.starts_with("search-") => {
                    let answer = bench.search(bundle, &ECHO, limits, &mut self.found, &mut self.tried);
                    self.search = Some(answer);
                }
                _ => {
                    self.replay = Some(bench.replay(&self.empty, &ECHO, &self.log, &mut self.made, &mut self.words));
                }
            }
        }
    }
}

// The least time of one call of the library and of the fast version, in nanoseconds: rounds of calls in turns, each as
// many as fill some milliseconds.
fn times(bundle: &[u8], list: &[u64], question: &str) -> Result<[f64; 2], String> {
    const SIDES: [&dyn Side; 2] = [&Library, &Fast];
    let mut asked = Asked::new(bundle, list)?;
    let mut timed = |bench, count| {
        let start = Instant::now();
        asked.ask(bench, bundle, question, count);
        start.elapsed()
    };
    let counts = SIDES.map(|bench| {
        let mut count = 1;
        while timed(bench, count) < Duration::from_millis(4) {
            count *= 2;
        }
        count
    });
    let mut least = [f64::INFINITY; 2];
    for _ in 0..20 {
        for ((bench, count), least) in SIDES.into_iter().zip(counts).zip(&mut least) {
            *least = least.min(timed(bench, count).as_nanos() as f64 / f64::from(count));
        }
    }
    Ok(least)
}
