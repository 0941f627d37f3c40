//! Tables and texts for the tests of drawings: sound, with any blanks and any numbers, damaged, or noise; the same for the
//! same seed.

use crate::dice::Dice;
use crate::drawings::{Drawing, Text};
use crate::makers::bundles;
use crate::model::{read_table, Coefficients, Edition, Model, Rule};

/// A table part of any kind.
pub fn table(dice: &mut Dice) -> Vec<u8> {
    match dice.below(12) {
        0 => bundles::noise(dice),
        1..=4 => bundles::faulty_table(dice),
        5 => {
            let part = sound(dice).bytes();
            bundles::damaged(dice, part)
        }
        _ => sound(dice).bytes(),
    }
}

/// A text of any kind.
pub fn text(dice: &mut Dice) -> Vec<u8> {
    let mut drawing = sound(dice);
    if dice.once_in(3) {
        for _ in 0..dice.between(1, 3) {
            spoil(dice, &mut drawing);
        }
    }
    let written = Model.text(&drawing);
    let text = if dice.once_in(3) { written.into_bytes() } else { spaced(dice, &tokens(&written)) };
    match dice.below(20) {
        0 => bundles::noise(dice),
        1..=9 => damaged(dice, text),
        _ => text,
    }
}

/// The tokens of a drawing, in order; a string is one of them.
pub fn tokens(text: &str) -> Vec<String> {
    let mut tokens = Vec::new();
    let mut rest = text.trim_start();
    while let Some(first) = rest.chars().next() {
        let whole = match first {
            '"' => rest[1..].find('"').map(|quote| quote + 2),
            '-' => Some(2),
            '{' | '}' | '[' | ']' | '=' | ';' => Some(1),
            _ => rest.find(|c: char| !c.is_ascii_alphanumeric()),
        };
        let (token, others) = rest.split_at(whole.unwrap_or(rest.len()));
        tokens.push(token.to_string());
        rest = others.trim_start();
    }
    tokens
}

/// What a table without a fault is drawn as; its coefficients are any.
pub(super) fn sound(dice: &mut Dice) -> Drawing {
    let table = read_table(&bundles::table(dice)).expect("a table without a fault");
    let mut drawing = Drawing::of(&table);
    if dice.once_in(2) {
        for coefficients in drawing.rules.iter_mut().flat_map(|rule| &mut rule.coefficients) {
            for number in [&mut coefficients.a, &mut coefficients.b, &mut coefficients.d] {
                let any = dice.below(256) as u8 as i8;
                *number = [any, any, 127, -128, 100, -100, 10, -10][dice.below(8)];
            }
        }
    }
    drawing
}

// A number that the form allows and a table perhaps not.
fn spoil(dice: &mut Dice, drawing: &mut Drawing) {
    let any = |dice: &mut Dice, few: usize| if dice.once_in(4) { dice.below(256) } else { dice.below(few) };
    match dice.below(15) {
        0 => {
            drawing.types_byte = usize::from(dice.one_of(&[&bundles::TYPES_BYTES[..], &[6, 40]].concat()));
            let (edition, types) = drawing.edition();
            drawing.rules.iter_mut().for_each(|rule| rule.coefficients.resize(types, Coefficients::whole([1, -1, 0])));
            if edition == Edition::First {
                all_divisors(drawing).for_each(|e| *e = 1);
            }
        }
        1 => drawing.factor = [0, 9, 255][dice.below(3)],
        2 => drawing.states.resize([0, 17, 255, 256][dice.below(4)], [0, 0]),
        3 => {
            // 256 and some: as many as a byte can't tell from some.
            let wait = Rule { from: 0, to: 0, coefficients: vec![Coefficients::whole([0; 3]); drawing.edition().1] };
            drawing.rules.resize([0, 65, 256 + drawing.rules.len()][dice.below(3)], wait);
        }
        // No state is initial.
        4 => drawing.states.iter_mut().for_each(|state| state[0] &= 2),
        5..=8 => {
            let at = dice.below(drawing.states.len());
            let mask = any(dice, 1 << drawing.edition().1.min(4));
            let flags = any(dice, 4);
            if let Some(state) = drawing.states.get_mut(at) {
                *state = [flags as u8, mask as u8];
            }
        }
        9..=11 if drawing.edition().0 == Edition::Second => {
            // Often in the first rule, so that one rule has two faults.
            let count = all_divisors(drawing).count();
            let at = if dice.once_in(2) { 0 } else { dice.below(count) };
            let other = dice.one_of(&bundles::DIVISORS);
            all_divisors(drawing).skip(at).take(1).for_each(|e| *e = other);
        }
        _ => {
            let at = if dice.once_in(2) { 0 } else { dice.below(drawing.rules.len()) };
            let ends = [any(dice, drawing.states.len() + 1), any(dice, drawing.states.len() + 1)];
            if let Some(rule) = drawing.rules.get_mut(at) {
                rule.from = ends[0];
                rule.to = ends[1];
            }
        }
    }
}

/// Every e, rule by rule.
pub(super) fn all_divisors(drawing: &mut Drawing) -> impl Iterator<Item = &mut u8> {
    drawing.rules.iter_mut().flat_map(|rule| &mut rule.coefficients).map(|coefficients| &mut coefficients.e)
}

// The tokens with any blanks before, between and after them, few or many.
fn spaced(dice: &mut Dice, tokens: &[String]) -> Vec<u8> {
    let often = dice.between(1, 6);
    let blanks = |dice: &mut Dice| -> Vec<u8> {
        let count = if dice.once_in(often) { dice.between(1, 4) } else { 0 };
        (0..count).map(|_| b" \t\n\r"[dice.below(4)]).collect()
    };
    let mut text = blanks(dice);
    for token in tokens {
        text.extend(token.bytes());
        text.extend(blanks(dice));
        // Where a blank is needed it is only rarely left out.
        if token == "digraph" && !dice.once_in(40) {
            text.push(b' ');
        }
    }
    text
}

// The text with one to three changes, mostly of bytes that mean something in it.
fn damaged(dice: &mut Dice, mut text: Vec<u8>) -> Vec<u8> {
    const KNOWN: &[u8] = b"0123456789-->> \"\"[]{}=;,,sstTkl+\t\n\r";
    const NUMBERS: [&str; 14] =
        ["0", "00", "01", "-0", "+1", "-1", "9", "99", "127", "128", "-128", "-129", "255", "256"];
    for _ in 0..dice.between(1, 3) {
        // The end is a place of its own.
        let at = if dice.once_in(12) { text.len() } else { dice.below(text.len()) };
        let byte = if dice.once_in(6) { dice.below(256) as u8 } else { KNOWN[dice.below(KNOWN.len())] };
        let range = at..text.len().min(at + dice.between(1, 30));
        match dice.below(10) {
            0 => text.insert(at, byte),
            1 => text.insert(at, text.get(at).map_or(byte, |&twice| twice)),
            2..=3 => text.splice(at..text.len().min(at + 1), [byte]).for_each(drop),
            4 => text.drain(at..text.len().min(at + 1)).for_each(drop),
            5 => {
                // The next number is another one.
                let first = (at..text.len()).find(|&i| text[i].is_ascii_digit()).unwrap_or(at);
                let last = (first..text.len()).find(|&i| !text[i].is_ascii_digit()).unwrap_or(text.len());
                text.splice(first..last, NUMBERS[dice.below(NUMBERS.len())].bytes()).for_each(drop);
            }
            6 => text.drain(range).for_each(drop),
            7 => {
                let again = text[range].to_vec();
                text.splice(at..at, again).for_each(drop);
            }
            8 => swap_lines(dice, &mut text),
            _ => text.truncate(at),
        }
    }
    text
}

// Two lines in each other's place: a state after a rule, or not in order.
fn swap_lines(dice: &mut Dice, text: &mut Vec<u8>) {
    let mut lines: Vec<&[u8]> = text.split_inclusive(|&byte| byte == b';').collect();
    let (one, other) = (dice.below(lines.len()), dice.below(lines.len()));
    if one.max(other) < lines.len() {
        lines.swap(one, other);
    }
    *text = lines.concat();
}
