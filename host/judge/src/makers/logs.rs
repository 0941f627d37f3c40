//! Logs for tests, and what they are replayed over: sound, damaged, with other numbers, ends, blanks or words, and of about as
//! many lines as there may be; the same for the same seed.

use crate::dice::Dice;
use crate::logs::{can_be_said, line_of, log_of};
use crate::makers::bundles;
use crate::model::read;
use macaroosh::calls::Step;
use macaroosh::{Form, ECHO};

/// A log and what it is replayed over.
#[derive(Clone, Debug)]
pub struct Replay {
    /// What is special about it, of `kinds`.
    pub kind: &'static str,
    /// The bundle, mostly without steps.
    pub bundle: Vec<u8>,
    /// The standing table.
    pub standing: Vec<u8>,
    /// The log.
    pub log: Vec<u8>,
}

/// Every kind of log that is made.
pub fn kinds() -> impl Iterator<Item = &'static str> {
    SHORT.iter().chain(&LONG).map(|&(kind, _)| kind)
}

/// A log of any kind.
pub fn any(dice: &mut Dice) -> Replay {
    let long = dice.once_in(40);
    let (kind, change) = if long {
        LONG[dice.below(LONG.len())]
    } else if dice.once_in(6) {
        SHORT[0]
    } else {
        SHORT[dice.below(SHORT.len())]
    };
    let mut replay = if long { repeated(dice) } else { sound(dice) };
    replay.kind = kind;
    change(dice, &mut replay);
    replay
}

/// A log whose lines all have the right shape, over a bundle that is read and without steps; most run to their end.
pub fn sound(dice: &mut Dice) -> Replay {
    let (bundle, standing) = bundles::in_message_form(dice);
    let mut steps = read(&bundle, &standing).expect("a bundle that is read").steps;
    steps.retain(|&step| can_be_said(step));
    Replay { kind: "sound", bundle: bundles::without_steps(&bundle), standing, log: log_of(&steps).into_bytes() }
}

type Kind = (&'static str, fn(&mut Dice, &mut Replay));

const SHORT: [Kind; 19] = [
    ("sound", |_, _| {}),
    ("empty", |_, replay| replay.log.clear()),
    ("a byte changed", |dice, replay| {
        let at = dice.below(replay.log.len());
        let byte = stray(dice, &replay.log, at);
        replay.log.splice(at..replay.log.len().min(at + 1), [byte]).for_each(drop);
    }),
    ("a byte removed", |dice, replay| {
        let at = dice.below(replay.log.len());
        replay.log.drain(at..replay.log.len().min(at + 1)).for_each(drop);
    }),
    ("a byte inserted", |dice, replay| {
        let at = dice.below(replay.log.len() + 1);
        let byte = stray(dice, &replay.log, at);
        replay.log.insert(at, byte);
    }),
    ("cut short", |dice, replay| replay.log.truncate(dice.below(replay.log.len() + 1))),
    ("noise", |dice, replay| replay.log = bundles::noise(dice)),
    ("a number of another kind", |dice, replay| {
        let number = NUMBERS[dice.below(NUMBERS.len())];
        in_a_line(dice, replay, |dice, words| put_number(dice, words, number));
    }),
    ("any numbers", |dice, replay| {
        in_a_line(dice, replay, |dice, words| {
            for word in words.iter_mut().skip(1).step_by(2) {
                *word = if dice.once_in(2) { any_number(dice) } else { word.clone() };
            }
        });
    }),
    ("carriage returns", |dice, replay| {
        let all = dice.once_in(2);
        let at = dice.below(count(replay));
        let ended = |i, line: &[u8]| if all || i == at { [line, b"\r\n"].concat() } else { [line, b"\n"].concat() };
        replay.log = lines(&replay.log).iter().enumerate().flat_map(|(i, line)| ended(i, line)).collect();
    }),
    ("no last line feed", |dice, replay| {
        if dice.once_in(2) {
            replay.log.extend(any_line(dice).bytes());
        }
        replay.log.pop();
    }),
    ("an empty line", |dice, replay| {
        let at = dice.below(count(replay) + 1);
        replay.log = put_line(&replay.log, at, b"\n");
    }),
    ("blanks", |dice, replay| {
        let blank = ["", "  ", "\t", " \t", "\u{b}", "\u{a0}"][dice.below(6)];
        in_a_line(dice, replay, |dice, words| {
            let at = dice.below(words.len() + 1);
            if at == 0 || at == words.len() || dice.once_in(2) {
                // A blank more at an end of the line, or between two words.
                words.insert(at, String::new());
            } else {
                let word = words.remove(at);
                words[at - 1] += &(blank.to_string() + &word);
            }
        });
    }),
    ("words", |dice, replay| {
        in_a_line(dice, replay, |dice, words| {
            let (one, other, half) = (dice.below(words.len()), dice.below(words.len()), words.len() / 2);
            match dice.below(6) {
                0 => words.swap(one, other),
                1 => words.truncate(one),
                2 => words.truncate(words.len().saturating_sub(2)),
                3 => words.rotate_left(half),
                4 => words[one] = words[one].to_uppercase(),
                _ => words.push("type".to_string()),
            }
        });
    }),
    ("lines in another order", |dice, replay| {
        let mut all = lines(&replay.log);
        if !all.is_empty() {
            let (one, other) = (dice.below(all.len()), dice.below(all.len()));
            all.swap(one, other);
            all.insert(one, all[other].clone());
        }
        replay.log = joined(&all);
    }),
    ("a bundle with steps", |dice, replay| {
        let step = Step::of([0, dice.below(3) as u8, 255, 255]);
        replay.bundle = bundles::with(&replay.bundle, step);
        spoil_some(dice, replay);
    }),
    ("a bundle in another form", |dice, replay| {
        if let Some(form) = replay.bundle.last_mut() {
            *form = dice.one_of(&[Form::Counting.number(), Form::Plain.number()]);
        }
        spoil_some(dice, replay);
    }),
    ("a spoiled bundle", |dice, replay| {
        replay.bundle = bundles::damaged(dice, replay.bundle.clone());
        spoil_some(dice, replay);
    }),
    ("any bundle", |dice, replay| {
        let (bundle, standing) = bundles::case(dice);
        *replay = Replay { bundle, standing, ..replay.clone() };
        spoil_some(dice, replay);
    }),
];

const LONG: [Kind; 6] = [
    ("4,095 lines", |_, replay| replay.log = first_lines(&replay.log, 4_095)),
    ("4,096 lines", |_, replay| replay.log = first_lines(&replay.log, 4_096)),
    ("4,097 lines", |_, replay| replay.log = first_lines(&replay.log, 4_097)),
    ("a wrong line 4,096", |dice, replay| {
        replay.log = first_lines(&replay.log, 4_096);
        replay.log.extend(wrong_line(dice).bytes());
    }),
    ("a wrong line before line 4,096", |dice, replay| {
        let at = if dice.once_in(2) { 4_095 } else { dice.below(4_096) };
        let right = dice.between(4_095, 4_098);
        replay.log = put_line(&first_lines(&replay.log, right), at, &[wrong_line(dice).as_bytes(), b"\n"].concat());
    }),
    ("4,096 lines, the last without a line feed", |_, replay| {
        replay.log = first_lines(&replay.log, 4_096);
        replay.log.pop();
    }),
];

// Texts in the place of a number: a line may say the first six, and none of the others.
const NUMBERS: [&str; 32] = [
    "0",
    "9",
    "100",
    "199",
    "249",
    "254",
    "255",
    "256",
    "257",
    "260",
    "300",
    "510",
    "511",
    "512",
    "999",
    "1000",
    "2540",
    "00",
    "01",
    "007",
    "0254",
    "65536",
    "4294967297",
    "18446744073709551617",
    "340282366920938463463374607431768211457",
    "-1",
    "-0",
    "+1",
    "1.",
    "0x1",
    "1e1",
    "",
];

// A log of 4,098 lines or more: of a sound one's lines again and again, or of waits, so that it runs to its end.
fn repeated(dice: &mut Dice) -> Replay {
    let of_lines = sound(dice);
    if count(&of_lines) > 0 && dice.once_in(2) {
        let log = of_lines.log.repeat(4_098 / count(&of_lines) + 1);
        return Replay { log, ..of_lines };
    }
    let sends = (0..3).map(|board| Step { board, rule: 3, kind: 255, source: 255 });
    let waits: Vec<Step> = sends.chain((3..4_098).map(|_| Step::of([dice.below(3) as u8, 4, 255, 255]))).collect();
    let bundle = bundles::closed(&[1, 1, 1], &[], 3, [4, 1, 1, 0]);
    Replay { bundle, standing: ECHO.to_vec(), log: log_of(&waits).into_bytes(), ..of_lines }
}

// How many lines it has.
fn count(replay: &Replay) -> usize {
    lines(&replay.log).len()
}

// The lines without their ends.
fn lines(log: &[u8]) -> Vec<Vec<u8>> {
    let whole = log.strip_suffix(b"\n").map(|log| log.split(|&byte| byte == b'\n').map(<[u8]>::to_vec));
    whole.map_or_else(Vec::new, Iterator::collect)
}

fn joined(lines: &[Vec<u8>]) -> Vec<u8> {
    lines.iter().flat_map(|line| [line, &b"\n"[..]].concat()).collect()
}

fn first_lines(log: &[u8], count: usize) -> Vec<u8> {
    joined(&lines(log)[..count])
}

// The log with a piece more, which becomes line `at`.
fn put_line(log: &[u8], at: usize, piece: &[u8]) -> Vec<u8> {
    let all = lines(log);
    let (before, after) = all.split_at(at.min(all.len()));
    [&joined(before), piece, &joined(after)].concat()
}

// Changes one line, by its words; a log without lines gets one first.
fn in_a_line(dice: &mut Dice, replay: &mut Replay, change: impl Fn(&mut Dice, &mut Vec<String>)) {
    if replay.log.is_empty() {
        replay.log = any_line(dice).into_bytes();
    }
    let mut all = lines(&replay.log);
    let at = dice.below(all.len());
    let mut words: Vec<String> = String::from_utf8_lossy(&all[at]).split(' ').map(str::to_string).collect();
    change(dice, &mut words);
    all[at] = words.join(" ").into_bytes();
    replay.log = joined(&all);
}

// Another text for one of a line's numbers.
fn put_number(dice: &mut Dice, words: &mut [String], number: &str) {
    let at = 2 * dice.below(words.len() / 2) + 1;
    words[at] = number.to_string();
}

fn any_number(dice: &mut Dice) -> String {
    let most = [4, 10, 100, 255][dice.below(4)];
    dice.below(most).to_string()
}

// A line of the right shape.
fn any_line(dice: &mut Dice) -> String {
    let numbers = [0; 4].map(|_| dice.below(255) as u8);
    let silent = dice.once_in(2);
    line_of(Step::of(if silent { [numbers[0], numbers[1], 255, 255] } else { numbers }))
}

// A line of another shape, its line feed left out.
fn wrong_line(dice: &mut Dice) -> String {
    let right = any_line(dice).trim_end().to_string();
    match dice.below(5) {
        0 => String::new(),
        1 => "x".to_string(),
        2 => right + " ",
        3 => right + "\r",
        _ => "board 255 rule 0".to_string(),
    }
}

// A byte for a place in a log: one that means something there, the other case of a letter, one twice, or any.
fn stray(dice: &mut Dice, log: &[u8], at: usize) -> u8 {
    let there = log.get(at).copied().unwrap_or(b'0');
    let (known, any) = (dice.one_of(b"0123456789 \n\r\t+-boardruletypefrom"), dice.below(256) as u8);
    dice.one_of(&[known, known, known, any, there, there ^ 0x20])
}

// Now and then another log, since a bundle's refusals come before a line's.
fn spoil_some(dice: &mut Dice, replay: &mut Replay) {
    if dice.once_in(3) {
        replay.log = [wrong_line(dice).as_bytes(), b"\n"].concat();
    }
}
