//! Two benches on one bundle, table, drawing, log, search or list: every answer, and every lent word and byte.

use crate::bench::{Bench, Checks, Counts, Draws, Limits, Moves, Replays, Searches};
use crate::dice::Dice;
use crate::drawings::{Drawing, Text};
use crate::editions::EditionOutline;
use crate::logs::LogOutline;
use crate::makers::lists::List;
use crate::makers::logs::Replay;
use crate::makers::searches::Search;
use crate::model::{read, read_table, Edition, Model};
use macaroosh::calls::{Answer, First, Receipts, SPENT};
use macaroosh::{Form, MOST_DEPTH};
use std::fmt::Debug;

/// What two benches answered alike.
#[derive(Debug)]
pub struct Alike {
    /// The refusals of run and translation that came up.
    pub refusals: Vec<u8>,
    /// The first step.
    pub first: First,
}

/// Asks both benches all questions, translation to each form and to none among them, with lent memory that is empty, too short
/// by one, exact and long, filled with the same junk for both. Gives what came up, or says where the benches differ.
pub fn compare(
    one: &dyn Bench,
    other: &dyn Bench,
    bundle: &[u8],
    standing: &[u8],
    dice: &mut Dice,
) -> Result<Alike, String> {
    let mut refusals = Vec::new();
    for length in lengths(words_of(bundle, standing), dice) {
        let lent = junk_words(length, dice);
        let ours = |lent: &mut [u64]| one.run(bundle, standing, lent);
        let theirs = |lent: &mut [u64]| other.run(bundle, standing, lent);
        refusals.push(same("run", lent, ours, theirs)?.refusal);
    }
    for length in lengths(bundle.len(), dice) {
        let ours = |lent: &mut [u8]| one.translate(bundle, standing, lent);
        let theirs = |lent: &mut [u8]| other.translate(bundle, standing, lent);
        refusals.push(same("translate", junk(length, dice), ours, theirs)?.refusal);
    }
    // Those of the forms, and one of none.
    for form in [0, 1, 2, dice.beyond(Form::ALL.len())] {
        for length in lengths(bundle.len(), dice) {
            let ours = |lent: &mut [u8]| one.translate_to(bundle, standing, form, lent);
            let theirs = |lent: &mut [u8]| other.translate_to(bundle, standing, form, lent);
            refusals.push(same(&format!("translate to {form}"), junk(length, dice), ours, theirs)?.refusal);
        }
    }
    let (ours, theirs) = (one.first_step(bundle, standing), other.first_step(bundle, standing));
    if ours != theirs {
        return Err(format!("first step: {ours:?} against {theirs:?}"));
    }
    Ok(Alike { refusals, first: ours })
}

/// The same for the receipts and sends of a run, with each answer.
pub fn compare_receipts(
    one: &dyn Counts,
    other: &dyn Counts,
    bundle: &[u8],
    standing: &[u8],
    dice: &mut Dice,
) -> Result<Vec<Receipts>, String> {
    let mut answers = Vec::new();
    for length in lengths(words_of(bundle, standing), dice) {
        let ours = |lent: &mut [u64]| one.receipts(bundle, standing, lent);
        let theirs = |lent: &mut [u64]| other.receipts(bundle, standing, lent);
        answers.push(same("receipts", junk_words(length, dice), ours, theirs)?);
    }
    Ok(answers)
}

/// The same for the drawing of a table part, with its refusals.
pub fn compare_draw(one: &dyn Draws, other: &dyn Draws, table: &[u8], dice: &mut Dice) -> Result<Vec<u8>, String> {
    let mut refusals = Vec::new();
    let bytes = read_table(table).map_or(7, |table| Model.text(&Drawing::of(&table)).len());
    for length in lengths(bytes, dice) {
        let ours = |lent: &mut [u8]| one.draw(table, lent);
        let theirs = |lent: &mut [u8]| other.draw(table, lent);
        refusals.push(same("draw", junk(length, dice), ours, theirs)?.refusal);
    }
    Ok(refusals)
}

/// The same for the table that a text draws, with its refusals.
pub fn compare_undraw(one: &dyn Draws, other: &dyn Draws, text: &[u8], dice: &mut Dice) -> Result<Vec<u8>, String> {
    let mut refusals = Vec::new();
    let bytes = Model.table(text).map_or(7, |part| part.len());
    for length in lengths(bytes, dice) {
        let ours = |lent: &mut [u8]| one.undraw(text, lent);
        let theirs = |lent: &mut [u8]| other.undraw(text, lent);
        refusals.push(same("undraw", junk(length, dice), ours, theirs)?.refusal);
    }
    Ok(refusals)
}

/// The same for a log's replay, with its refusals: each length of the lent bytes beside each of the lent words.
pub fn compare_replay(
    one: &dyn Replays,
    other: &dyn Replays,
    replay: &Replay,
    dice: &mut Dice,
) -> Result<Vec<u8>, String> {
    let Replay { bundle, standing, log, .. } = replay;
    // Also for a log that is refused, so that there would be room for whoever takes it.
    let bytes = bundle.len() + 4 * Model.pieces(log).len();
    let words = words_of(bundle, standing);
    let mut refusals = Vec::new();
    for out_length in lengths(bytes, dice) {
        for words_length in lengths(words, dice) {
            let (out, words) = (junk(out_length, dice), junk_words(words_length, dice));
            let asked = |who: &dyn Replays| {
                let (mut out, mut words) = (out.clone(), words.clone());
                let answer = who.replay(bundle, standing, log, &mut out, &mut words);
                (answer, out, words)
            };
            let (ours, theirs) = (asked(one), asked(other));
            let name = format!("replay with {out_length} bytes and {words_length} words lent");
            if ours.0 != theirs.0 {
                return Err(format!("{name}: {:?} against {:?}", ours.0, theirs.0));
            }
            same_memory(&format!("{name}: byte"), &ours.1, &theirs.1)?;
            same_memory(&format!("{name}: word"), &ours.2, &theirs.2)?;
            refusals.push(ours.0.refusal);
        }
    }
    Ok(refusals)
}

/// The same for a table part in each edition, with its refusals by the edition asked for.
pub fn compare_moves(
    one: &dyn Moves,
    other: &dyn Moves,
    table: &[u8],
    dice: &mut Dice,
) -> Result<Vec<(Edition, u8)>, String> {
    let mut refusals = Vec::new();
    for to in Edition::ALL {
        // Also for a table that is refused, so that there would be room for whoever takes it.
        let bytes = read_table(table).map_or(7, |table| Model.in_edition(&table, to).len());
        for length in lengths(bytes, dice) {
            let ours = |lent: &mut [u8]| one.to_edition(to, table, lent);
            let theirs = |lent: &mut [u8]| other.to_edition(to, table, lent);
            let name = format!("to the {} edition", to.name());
            refusals.push((to, same(&name, junk(length, dice), ours, theirs)?.refusal));
        }
    }
    Ok(refusals)
}

/// The same for a search, with its refusals and outcomes: each length of the lent bytes beside each budget, of those around what a
/// whole walk tries, where that is little.
pub fn compare_search(
    one: &dyn Searches,
    other: &dyn Searches,
    search: &Search,
    dice: &mut Dice,
) -> Result<Vec<(u8, u32)>, String> {
    let Search { bundle, standing, depth, .. } = search;
    let mut seen = Vec::new();
    // A search that is too deep has room that would do for its lowest byte.
    for length in lengths(4 * (*depth as u8 as usize), dice) {
        for budget in budgets(search, dice) {
            let (out, before) = (junk(length, dice), dice.junk());
            let asked = |who: &dyn Searches| {
                let (mut out, mut tried) = (out.clone(), before);
                let answer = who.search(bundle, standing, Limits { depth: *depth, budget }, &mut out, &mut tried);
                (answer, tried, out)
            };
            let (ours, theirs) = (asked(one), asked(other));
            let name = format!("search of depth {depth} and budget {budget} with {length} lent");
            if (ours.0, ours.1) != (theirs.0, theirs.1) {
                return Err(format!("{name}: {:?} against {:?}", (ours.0, ours.1), (theirs.0, theirs.1)));
            }
            same_memory(&format!("{name}: at"), &ours.2, &theirs.2)?;
            seen.push((ours.0.refusal, ours.0.count));
        }
    }
    Ok(seen)
}

/// The same for a list, with the answer.
pub fn compare_list(one: &dyn Checks, other: &dyn Checks, list: &List) -> Result<Answer, String> {
    let asked = |who: &dyn Checks| who.check_list(&list.bundle, &list.standing, &list.words);
    let (ours, theirs) = (asked(one), asked(other));
    if ours != theirs {
        return Err(format!("list of {} words: {ours:?} against {theirs:?}", list.words.len()));
    }
    Ok(ours)
}

// The most that is tried in one search.
const MOST_TRIED: u64 = 5_000;

// Around what a whole walk tries, none and all; or where that is much, up to the most.
fn budgets(search: &Search, dice: &mut Dice) -> Vec<u64> {
    let mut tried = 0;
    let room = &mut [0; 4 * MOST_DEPTH as usize];
    let limits = Limits { depth: search.depth, budget: MOST_TRIED };
    let answer = Model.search(&search.bundle, &search.standing, limits, room, &mut tried);
    let below = dice.below(tried as usize + 1) as u64;
    if answer.refusal == 0 && answer.count == SPENT {
        vec![0, below, MOST_TRIED]
    } else {
        vec![0, below, tried.saturating_sub(1), tried, tried + 1, (1 << 32) + below, u64::MAX]
    }
}

// How many words a bundle's run needs; where reading refuses, any length will do.
fn words_of(bundle: &[u8], standing: &[u8]) -> usize {
    read(bundle, standing).map_or(7, |bundle| bundle.start().words().len())
}

fn lengths(exact: usize, dice: &mut Dice) -> [usize; 4] {
    [0, exact.saturating_sub(1), exact, exact + dice.between(1, 40)]
}

fn junk(length: usize, dice: &mut Dice) -> Vec<u8> {
    (0..length).map(|_| dice.junk() as u8).collect()
}

fn junk_words(length: usize, dice: &mut Dice) -> Vec<u64> {
    (0..length).map(|_| dice.junk()).collect()
}

// The answer of a call, where both give it and leave the lent memory alike.
fn same<L: Clone + Debug + PartialEq, A: Debug + PartialEq>(
    name: &str,
    lent: Vec<L>,
    one: impl Fn(&mut [L]) -> A,
    other: impl Fn(&mut [L]) -> A,
) -> Result<A, String> {
    let (mut ours, mut theirs) = (lent.clone(), lent);
    let answers = (one(&mut ours), other(&mut theirs));
    if answers.0 != answers.1 {
        return Err(format!("{name} with {} lent: {:?} against {:?}", ours.len(), answers.0, answers.1));
    }
    same_memory(&format!("{name} with {} lent: at", ours.len()), &ours, &theirs)?;
    Ok(answers.0)
}

// Where lent memory that was alike is not alike any more.
fn same_memory<L: Debug + PartialEq>(name: &str, ours: &[L], theirs: &[L]) -> Result<(), String> {
    match (0..ours.len()).find(|&i| ours[i] != theirs[i]) {
        Some(i) => Err(format!("{name} {i}: {:?} against {:?}", ours[i], theirs[i])),
        None => Ok(()),
    }
}
