//! The proved library among the benches.

use crate::bench::{Bench, Checks, Counts, Draws, Limits, Moves, Replays, Searches};
use crate::model::Edition;
use macaroosh::calls::{self, Answer, First, Receipts};

/// The proved library as one of those that are compared.
pub struct Library;

impl Bench for Library {
    fn run(&self, bundle: &[u8], standing: &[u8], words: &mut [u64]) -> Answer {
        calls::run(bundle, standing, words)
    }

    fn translate(&self, bundle: &[u8], standing: &[u8], out: &mut [u8]) -> Answer {
        calls::translate(bundle, standing, out)
    }

    fn translate_to(&self, bundle: &[u8], standing: &[u8], form: u64, out: &mut [u8]) -> Answer {
        calls::translate_to(bundle, standing, form, out)
    }

    fn first_step(&self, bundle: &[u8], standing: &[u8]) -> First {
        calls::first_step(bundle, standing)
    }
}

impl Counts for Library {
    fn receipts(&self, bundle: &[u8], standing: &[u8], words: &mut [u64]) -> Receipts {
        calls::receipts(bundle, standing, words)
    }
}

impl Draws for Library {
    fn draw(&self, table: &[u8], out: &mut [u8]) -> Answer {
        calls::draw(table, out)
    }

    fn undraw(&self, text: &[u8], out: &mut [u8]) -> Answer {
        calls::undraw(text, out)
    }
}

impl Replays for Library {
    fn replay(&self, bundle: &[u8], standing: &[u8], log: &[u8], out: &mut [u8], words: &mut [u64]) -> Answer {
        calls::replay(bundle, standing, log, out, words)
    }
}

impl Searches for Library {
    fn search(&self, bundle: &[u8], standing: &[u8], limits: Limits, out: &mut [u8], tried: &mut u64) -> Answer {
        calls::search(bundle, standing, limits.depth, limits.budget, out, tried)
    }
}

impl Checks for Library {
    fn check_list(&self, bundle: &[u8], standing: &[u8], list: &[u64]) -> Answer {
        calls::check_list(bundle, standing, list)
    }
}

impl Moves for Library {
    fn to_edition(&self, to: Edition, table: &[u8], out: &mut [u8]) -> Answer {
        match to {
            Edition::First => calls::to_first(table, out),
            Edition::Second => calls::to_second(table, out),
        }
    }
}
