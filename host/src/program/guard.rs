//! A mistake of the program itself, told in one sentence and not with a status of Rust's own.

use std::any::Any;
use std::panic::{self, UnwindSafe};
use std::sync::Mutex;

// Where the program stumbled.
static PLACE: Mutex<String> = Mutex::new(String::new());

/// What `work` gives; if it panics, a sentence that says so.
pub fn guarded<T>(work: impl FnOnce() -> Result<T, String> + UnwindSafe) -> Result<T, String> {
    let usual = panic::take_hook();
    panic::set_hook(Box::new(|stumble| {
        if let (Ok(mut place), Some(location)) = (PLACE.lock(), stumble.location()) {
            *place = location.to_string();
        }
    }));
    let done = panic::catch_unwind(work).unwrap_or_else(|cause| Err(told(cause.as_ref())));
    panic::set_hook(usual);
    done
}

fn told(cause: &(dyn Any + Send)) -> String {
    let cause = match (cause.downcast_ref::<&str>(), cause.downcast_ref::<String>()) {
        (Some(text), _) => text,
        (_, Some(text)) => text.as_str(),
        _ => "no reason is given",
    };
    let place = PLACE.lock().map_or(String::new(), |place| place.clone());
    format!("macaroosh: the program itself has a mistake, at {place}: {}\n", cause.replace('\n', " "))
}

#[cfg(test)]
mod tests {
    use super::*;

    #[test]
    fn a_panic_is_told_in_one_line() {
        assert_eq!(guarded(|| Ok(1)), Ok(1));
        assert_eq!(guarded(|| Err::<u8, _>("bad use".to_string())), Err("bad use".to_string()));
        let got = guarded(|| if PLACE.lock().is_ok() { panic!("no\nsuch {}", "step") } else { Ok(1) });
        let told = got.expect_err("a sentence");
        assert!(told.starts_with("macaroosh: the program itself has a mistake, at src/program/guard.rs:"), "{told}");
        assert!(told.ends_with(": no such step\n"), "{told}");
    }
}
