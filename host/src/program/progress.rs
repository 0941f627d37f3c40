//! A line at a terminal that says how far something is.

use crate::{system, tell};

/// The line, on standard error.
pub struct Progress {
    // How wide it is; nothing where it is not shown.
    wide: Option<usize>,
}

impl Progress {
    /// None but where it is asked for and standard error is a terminal.
    pub fn of(asked: bool) -> Progress {
        Progress { wide: Some(0).filter(|_| asked && system::is_terminal(2)) }
    }

    /// Whether it is shown.
    pub fn is_shown(&self) -> bool {
        self.wide.is_some()
    }

    /// Says how far it is, over what was said before.
    pub fn show(&mut self, far: &str) {
        if let Some(wide) = self.wide {
            tell(&format!("\r{far:<wide$}"));
            self.wide = Some(far.chars().count());
        }
    }

    /// A text in place of the line.
    pub fn tell(&mut self, text: &str) {
        let cleared = self.wide.map_or(String::new(), |wide| format!("\r{}\r", " ".repeat(wide)));
        tell(&(cleared + text));
        self.wide = self.wide.map(|_| 0);
    }
}
