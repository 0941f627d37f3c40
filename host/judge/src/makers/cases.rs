//! The bundles that speed is measured on, all read beside the echo table. The model has accepted each of their steps.

use crate::dice::Dice;
use crate::lists::closure;
use crate::makers::bundles::{closed, in_form, little_endian};
use crate::model::{read, Bundle, Configuration, Model, Outline};
use macaroosh::calls::Step;
use macaroosh::{Form, ECHO, MOST_LISTED};

/// A bundle to measure with.
pub struct Case {
    /// What it shows, in a word or two.
    pub name: &'static str,
    /// Its form.
    pub form: Form,
    /// Its bytes.
    pub bundle: Vec<u8>,
    /// Whether no step is possible after it, so that only the first-step question tells something.
    pub stuck: bool,
}

/// All cases, each in every form.
pub fn cases() -> Vec<Case> {
    let of = |name, stuck, message: Vec<u8>| {
        Form::ALL.map(|form| Case { name, form, bundle: in_form(&Model, &message, form), stuck })
    };
    let all = [
        of("echo-w", false, w()),
        of("echo-4096", false, echo()),
        of("wide-4096", false, wide(table)),
        of("divided-4096", false, wide(divided)),
        of("none-leaves", true, none_leaves()),
        of("none-met", true, none_met()),
        of("none-waits", true, none_waits()),
    ];
    all.into_iter().flatten().collect()
}

/// A search to measure with.
pub struct SearchCase {
    /// What it shows, in a word or two.
    pub name: &'static str,
    /// Its bundle, without steps and in counting form.
    pub bundle: Vec<u8>,
    /// How deep it goes; nothing is found there.
    pub depth: u64,
}

/// All searches: the echo table with boards that have no echo to send, or all one; and the table of the largest sizes.
pub fn searches() -> Vec<SearchCase> {
    let of = |name, before: Vec<u8>, correct, numbers, depth| SearchCase {
        name,
        bundle: closed(&before, &[], correct, numbers),
        depth,
    };
    vec![
        of("echo-v0", vec![0; 6], 6, [8, 2, 2, 1], 5),
        of("echo-v1", vec![1; 6], 6, [8, 2, 2, 1], 3),
        of("echo-v1-12", vec![1; 9], 9, [12, 3, 3, 1], 3),
        of("wide", [wide_table(table), (0..14).map(|p| p % 3).collect()].concat(), 14, [19, 5, 5, 1], 2),
    ]
}

/// A list to measure with.
pub struct ListCase {
    /// What it shows, in a word or two.
    pub name: &'static str,
    /// Its bundle, without steps and in counting form.
    pub bundle: Vec<u8>,
    /// All configurations that are reached from there; it is accepted.
    pub list: Vec<u64>,
}

/// All lists: the echo table with boards that have no echo to send, few and many; and the most of the largest configurations.
pub fn lists() -> Vec<ListCase> {
    let of = |name, before: Vec<u8>, correct, numbers| {
        let bundle = closed(&before, &[], correct, numbers);
        let whole = read(&bundle, &ECHO).expect("a bundle");
        let list = closure(&whole, &[whole.start().words()], MOST_LISTED).expect("not too many").concat();
        ListCase { name, bundle, list }
    };
    vec![
        of("list-8", vec![0; 3], 3, [4, 1, 1, 1]),
        of("list-243", vec![0; 5], 5, [7, 2, 2, 1]),
        of("list-512", [most_listed(), vec![0, 4, 4, 6, 6, 6]].concat(), 6, [7, 1, 1, 1]),
    ]
}

// A table of 16 states, 64 rules and T = 4 from which six boards reach 512 configurations where one more is faulty. Board 0 goes round
// states 0 to 3 and hears of each type what there is; boards 1 and 2 go from state 4 to state 5 on a faulty message of type 0, and send
// type 3, which board 0 hears; boards 3 to 5 stay in state 6, whose rules ask too much.
fn most_listed() -> Vec<u8> {
    let flags = |s: usize| u8::from([0, 4, 6].contains(&s)) + 2 * u8::from(s > 6);
    let states = (0..16).map(|s| [flags(s), if s == 5 { 8 } else { 0 }]);
    // For n = 7 and t = 1 none of these asks for anything.
    let little = |r: usize, m: usize| [[0, 0, 0], [255, 0, 1], [0, 255, 1], [255, 1, 0]][(r + m) % 4];
    let asks =
        |r: usize, kind: usize, count: u8| [0, 1, 2, 3].map(|m| if m == kind { [0, 0, count] } else { little(r, m) });
    let rules = (0..64).map(|r| match r % 16 {
        0..=7 => rule(r % 4, r / 4 % 2 + r / 16 % 2 * 2, asks(r, 4, 0)),
        8..=10 => rule(4, 5, asks(r, 0, 1)),
        11 | 12 => rule(5, 5, asks(r, 0, 2)),
        _ => rule(6, 7, asks(r, r / 16, 3)),
    });
    table(states.collect(), rules.collect())
}

// Schedule W of the outline.
fn w() -> Vec<u8> {
    let steps = [[0, 3, 255, 255], [1, 3, 255, 255], [2, 3, 0, 0], [2, 4, 0, 3], [2, 5, 0, 1]].map(Step::of);
    closed(&[1, 1, 1], &steps, 3, [4, 1, 1, 0])
}

// The echo table, 64 correct boards, 4,096 steps: each board hears every echo.
fn echo() -> Vec<u8> {
    walked(&[], &[1; 64], [64, 21, 0, 0])
}

// What makes a table part of states and of rules as the first edition has them.
type Maker = fn(Vec<[u8; 2]>, Vec<Vec<u8>>) -> Vec<u8>;

// The largest sizes: 16 states, 64 rules, T = 4, n = 64, f = 21, 4,096 steps.
fn wide(table: Maker) -> Vec<u8> {
    let starts: Vec<u8> = (0..43).map(|p| p % 3).collect();
    walked(&wide_table(table), &starts, [64, 21, 21, 0])
}

// A table of 16 states, 64 rules and T = 4; states 0 to 2 are initial.
fn wide_table(table: Maker) -> Vec<u8> {
    // Three states for each number of types sent, and a fourth for all of them.
    let level = |state: usize| (state / 3).min(4);
    let states = (0..16).map(|s| [u8::from(level(s) == 0) + 2 * u8::from(level(s) == 4), (1 << level(s)) - 1]);
    let rules = (0..64).map(|r| {
        let (from, way) = (r / 4, r % 4);
        let to = if way < 2 { 3 * level(from) + (from + way) % 3 } else { (from + 3).min(12 + way) };
        // Ways 2 and 3 lead on: with 3 messages of the last type sent, or with t + 1.
        let asks = |m: usize| match way {
            2 if m + 1 == level(from) => [0, 0, 3],
            3 if m + 1 == level(from) => [0, 1, 1],
            _ => [[0, 0, 0], [255, 2, 9], [0, 255, 5], [255, 0, 1]][(r + m) % 4],
        };
        rule(from, to, [asks(0), asks(1), asks(2), asks(3)])
    });
    table(states.collect(), rules.collect())
}

// All 64 boards are in a state that none of the 64 rules leaves.
fn none_leaves() -> Vec<u8> {
    let states = (0..16).map(|s| [u8::from(s == 0), 0]);
    let rules = (0..64).map(|_| rule(1, 1, [[0; 3]; 4]));
    [table(states.collect(), rules.collect()), closed(&[0; 64], &[], 64, [64, 0, 0, 0])].concat()
}

// All 64 boards have sent every type and received nothing; 60 of the 64 rules leave their state, and ask too much of the
// last type.
fn none_met() -> Vec<u8> {
    let states = (0..16).map(|s: usize| [u8::from(s == 0), (1 << s.min(4)) - 1]);
    let sends = (0..4).map(|s| rule(s, s + 1, [[0; 3]; 4]));
    let rules = sends.chain((0..60).map(|_| rule(4, 5, [[0; 3], [0; 3], [0; 3], [0, 0, 127]])));
    let table = table(states.collect(), rules.collect());
    let steps = (0..4).flat_map(|rule| (0..64).map(move |board| Step { board, rule, kind: 255, source: 255 }));
    [table, closed(&[0; 64], &steps.collect::<Vec<Step>>(), 64, [64, 0, 0, 0])].concat()
}

// All 64 boards are in a state where each of the 64 rules waits, and nothing is in transit.
fn none_waits() -> Vec<u8> {
    let states = (0..16).map(|s| [u8::from(s == 0), 0]);
    let rules = (0..64).map(|_| rule(0, 0, [[0; 3]; 4]));
    [table(states.collect(), rules.collect()), closed(&[0; 64], &[], 64, [64, 0, 0, 0])].concat()
}

fn rule(from: usize, to: usize, asks: [[u8; 3]; 4]) -> Vec<u8> {
    [&[from as u8, to as u8], &asks.concat()[..]].concat()
}

// A table part of T = 4 and k = 3.
fn table(states: Vec<[u8; 2]>, rules: Vec<Vec<u8>>) -> Vec<u8> {
    let (of_states, of_rules) = (states.concat(), rules.concat());
    let distances = [little_endian(of_states.len() + of_rules.len()), little_endian(of_rules.len())];
    [&of_states, &of_rules, &distances.concat()[..], &[states.len() as u8, rules.len() as u8, 4, 3]].concat()
}

// The same in the second edition with the same thresholds: each sum is multiplied by its divisor, and as much is taken off as
// rounding up puts on again.
fn divided(states: Vec<[u8; 2]>, rules: Vec<Vec<u8>>) -> Vec<u8> {
    let group = |(sum, at): (&[u8], usize)| {
        let e = (at % 8 + 1) as u8;
        let [a, b, d] = [sum[0], sum[1], sum[2]].map(|byte| byte.wrapping_mul(e));
        [a, b, d.wrapping_sub(e - 1), e]
    };
    let rules = rules.iter().enumerate().map(|(r, rule)| {
        let groups: Vec<[u8; 4]> = rule[2..].chunks(3).zip(r..).map(group).collect();
        [&rule[..2], &groups.concat()].concat()
    });
    let mut part = table(states, rules.collect());
    let types_byte = part.len() - 2;
    part[types_byte] += 16;
    part
}

// The front and the starts with 4,096 steps that the model accepts, each with a receipt where one is possible.
fn walked(front: &[u8], starts: &[u8], numbers: [u8; 4]) -> Vec<u8> {
    let before = [front, starts].concat();
    let empty = read(&closed(&before, &[], starts.len(), numbers), &ECHO).expect("a bundle");
    let dice = &mut Dice::new(1);
    let mut left = empty.start();
    let mut steps = Vec::new();
    while steps.len() < 4_096 {
        let step = next(dice, &empty, &left);
        empty.apply(&mut left, step);
        steps.push(step);
    }
    closed(&before, &steps, starts.len(), numbers)
}

// A step that is accepted, of the boards, rules and messages in turn from where the dice say: a receipt if any is.
fn next(dice: &mut Dice, bundle: &Bundle, left: &Configuration) -> Step {
    let mut turns = |count: usize| {
        let first = dice.below(count);
        (0..count).map(move |i| ((first + i) % count) as u8)
    };
    let (boards, rules) = (turns(bundle.correct()), turns(bundle.table.rules.len()));
    let (types, senders) = (&turns(bundle.table.types), &turns(bundle.n));
    let silent = boards
        .flat_map(|board| rules.clone().map(move |rule| Step { board, rule, kind: 255, source: 255 }))
        .filter(|step| bundle.table.rules[usize::from(step.rule)].from == left.states[usize::from(step.board)]);
    let receipts = silent.clone().flat_map(|step| {
        types.clone().flat_map(move |kind| senders.clone().map(move |source| Step { kind, source, ..step }))
    });
    receipts.chain(silent).find(|&step| Model.check(bundle, left, step).is_ok()).expect("a step is accepted")
}
