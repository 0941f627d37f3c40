//! One step, to be counted from outside: its instructions by measure/growth, the words it stores by measure/written.
//!
//! - `growth write FOLDER` writes the bundles of each pair there, NAME-0 without and NAME-1 with the last step, and prints a line
//!   for each pair: NAME, form, types, kind, boards, how many words are stored one by one before the step, and the places of those
//!   that it has to do with.
//! - `growth ask library|rust|more NAME 0|1` reads both bundles, prints the addresses of the first lent word and of the end, and
//!   asks one of the bundles to be run. `more` is the library, and one store more into its first word.

use judge::fast::Fast;
use judge::makers::growth::growth;
use judge::{Bench, Library};
use macaroosh::calls::{Answer, First};
use macaroosh::{ECHO, MOST_WORDS};
use std::process::ExitCode;

fn main() -> ExitCode {
    let words: Vec<String> = std::env::args().skip(1).collect();
    let words: Vec<&str> = words.iter().map(String::as_str).collect();
    let done = match words[..] {
        ["write", folder] => write(folder),
        ["ask", side, name, which] => ask(side, name, which),
        _ => Err("as 'growth write FOLDER' or 'growth ask SIDE NAME 0|1'".to_string()),
    };
    match done {
        Ok(()) => ExitCode::SUCCESS,
        Err(cause) => {
            eprintln!("growth: {cause}");
            ExitCode::FAILURE
        }
    }
}

fn write(folder: &str) -> Result<(), String> {
    for pair in growth() {
        let form = pair.form.name();
        let name = format!("{form}-{}-{}-{}", pair.types, pair.kind, pair.correct);
        for (which, bundle) in pair.bundles.iter().enumerate() {
            let file = format!("{folder}/{name}-{which}");
            std::fs::write(&file, bundle).map_err(|cause| format!("{file}: {cause}"))?;
        }
        let places: Vec<String> = pair.places.iter().map(usize::to_string).collect();
        let (stores, places) = (pair.stores, places.join(" "));
        println!("{name} {form} {} {} {} {stores} {places}", pair.types, pair.kind, pair.correct);
    }
    Ok(())
}

fn ask(side: &str, name: &str, which: &str) -> Result<(), String> {
    let more = More { nothing: u64::from(side.is_empty()) };
    let bench: &dyn Bench = match side {
        "library" => &Library,
        "rust" => &Fast,
        "more" => &more,
        _ => return Err(format!("there is no side '{side}'")),
    };
    let which = usize::from(which == "1");
    let read = |which| {
        let file = format!("{name}-{which}");
        std::fs::read(&file).map_err(|cause| format!("{file}: {cause}"))
    };
    let bundles = [read(0)?, read(1)?];
    // Only the call stores into these words: so many are zero as the system gives them, and they are never freed.
    let lent = &mut vec![0; 1 << 18].leak()[..MOST_WORDS];
    let ends = lent.as_ptr_range();
    println!("{} {}", ends.start as usize, ends.end as usize);
    let answer = bench.run(&bundles[which], &ECHO, lent);
    if answer.refusal != 0 {
        return Err(format!("{name}-{which} is refused with {}", answer.refusal));
    }
    Ok(())
}

// One store more than the library, which changes nothing.
struct More {
    // 0, which the compiler does not know.
    nothing: u64,
}

impl Bench for More {
    fn run(&self, bundle: &[u8], standing: &[u8], words: &mut [u64]) -> Answer {
        let answer = Library.run(bundle, standing, words);
        words[0] ^= self.nothing;
        answer
    }

    fn translate(&self, bundle: &[u8], standing: &[u8], out: &mut [u8]) -> Answer {
        Library.translate(bundle, standing, out)
    }

    fn translate_to(&self, bundle: &[u8], standing: &[u8], form: u64, out: &mut [u8]) -> Answer {
        Library.translate_to(bundle, standing, form, out)
    }

    fn first_step(&self, bundle: &[u8], standing: &[u8]) -> First {
        Library.first_step(bundle, standing)
    }
}
