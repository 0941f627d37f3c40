//! The comparison of editions can fail: each broken variant of the model differs from the library on some seeded table.

use judge::compare::compare_moves;
use judge::dice::{each, part_of, Dice};
use judge::editions::EditionOutline;
use judge::makers::shelf::any;
use judge::model::{Edition, Model, Rule, Table};
use judge::{Library, Moves};
use macaroosh::calls::Answer;
use macaroosh::Refusal;

const SEEDS: u64 = 3_000;

// The first seed whose table shows the difference, of so many.
fn caught(broken: &dyn Moves, seeds: u64) -> Option<u64> {
    (1..=seeds).find(|&seed| {
        let dice = &mut Dice::new(seed);
        let table = any(dice);
        compare_moves(broken, &Library, &table, dice).is_err()
    })
}

// Another e is written.
struct Writes(u8);

impl EditionOutline for Writes {
    fn new_divisor(&self) -> u8 {
        self.0
    }
}

// The e of type 0 alone is looked at.
struct TypeZero;

impl EditionOutline for TypeZero {
    fn divides(&self, rule: &Rule) -> bool {
        rule.coefficients[0].e != 1
    }
}

// The e of the last type alone is looked at.
struct LastType;

impl EditionOutline for LastType {
    fn divides(&self, rule: &Rule) -> bool {
        rule.coefficients.last().map_or(false, |last| last.e != 1)
    }
}

// A rule is refused where all of its e are other than 1.
struct EveryType;

impl EditionOutline for EveryType {
    fn divides(&self, rule: &Rule) -> bool {
        rule.coefficients.iter().all(|coefficients| coefficients.e != 1)
    }
}

// Divisors are lost.
struct DividesNever;

impl EditionOutline for DividesNever {
    fn divides(&self, _rule: &Rule) -> bool {
        false
    }
}

struct HighestRule;

impl EditionOutline for HighestRule {
    fn dividing(&self, table: &Table) -> Option<usize> {
        table.rules.iter().rposition(|rule| self.divides(rule))
    }
}

// The last rule is not looked at.
struct NotTheLastRule;

impl EditionOutline for NotTheLastRule {
    fn dividing(&self, table: &Table) -> Option<usize> {
        Model.dividing(table).filter(|&rule| rule + 1 < table.rules.len())
    }
}

// 32 to the second edition too.
struct BothWays;

impl EditionOutline for BothWays {
    fn check_edition(&self, table: &Table, to: Edition) -> Result<(), Refusal> {
        Model.check_edition(table, Edition::First).or_else(|refusal| match refusal.number {
            32 => Err(refusal),
            _ => Ok(()),
        })?;
        Model.check_edition(table, to)
    }
}

// What is in that edition already is written as it is.
struct AlreadyTaken;

impl EditionOutline for AlreadyTaken {
    fn check_edition(&self, table: &Table, to: Edition) -> Result<(), Refusal> {
        Model.check_edition(table, to).or_else(|refusal| if refusal.number == 33 { Ok(()) } else { Err(refusal) })
    }
}

// The moved bytes, but for a change.
struct ButBytes(fn(&Table, Edition, &mut Vec<u8>));

impl EditionOutline for ButBytes {
    fn in_edition(&self, table: &Table, to: Edition) -> Vec<u8> {
        let mut bytes = Model.in_edition(table, to);
        (self.0)(table, to, &mut bytes);
        bytes
    }
}

// Bytes of the trailer as they are in the table's own edition; `from` and `to` count from the trailer's first.
fn own_trailer(table: &Table, bytes: &mut [u8], from: usize, to: usize) {
    let own = Model.in_edition(table, table.edition);
    let (old, new) = (own.len() - 8, bytes.len() - 8);
    bytes[new + from..new + to].copy_from_slice(&own[old + from..old + to]);
}

// Each e before a, b, d of its type.
fn divisors_first(table: &Table, to: Edition, bytes: &mut [u8]) {
    if to == Edition::Second {
        let (first, last) = (2 * table.states.len(), bytes.len() - 8);
        for rule in bytes[first..last].chunks_mut(2 + 4 * table.types) {
            rule[2..].chunks_mut(4).for_each(|group| group.rotate_right(1));
        }
    }
}

// The model, but for what becomes of its answer and the lent bytes.
struct But(fn(Edition, &[u8], &mut [u8]) -> Answer);

impl Moves for But {
    fn to_edition(&self, to: Edition, table: &[u8], out: &mut [u8]) -> Answer {
        (self.0)(to, table, out)
    }
}

fn sound(to: Edition, table: &[u8], out: &mut [u8]) -> Answer {
    Model.to_edition(to, table, out)
}

fn refused(refusal: u8) -> Answer {
    Answer { refusal, place: 0, count: 0 }
}

fn refuses_all(_: Edition, _: &[u8], _: &mut [u8]) -> Answer {
    refused(1)
}

// Answers as it should, and writes nothing.
fn idle(to: Edition, table: &[u8], out: &mut [u8]) -> Answer {
    sound(to, table, &mut out.to_vec())
}

// The edition asked for is not looked at.
fn always_to_second(_: Edition, table: &[u8], out: &mut [u8]) -> Answer {
    sound(Edition::Second, table, out)
}

// The types byte is looked at before the table.
fn edition_first(to: Edition, table: &[u8], out: &mut [u8]) -> Answer {
    let types_byte = table.len().checked_sub(2).map(|at| table[at]);
    match types_byte.map(|byte| Edition::of(byte.into()).0) {
        Some(own) if own == to => refused(33),
        _ => sound(to, table, out),
    }
}

// The room is looked at before what that number and those after it are given for.
fn room_before(number: u8, to: Edition, table: &[u8], out: &mut [u8]) -> Answer {
    let answer = sound(to, table, out);
    let long = judge::model::read_table(table).map_or(15, |table| Model.in_edition(&table, to).len());
    if answer.refusal == number && out.len() < long {
        return refused(30);
    }
    answer
}

// The room is measured by the table that is given.
fn room_of_own(to: Edition, table: &[u8], out: &mut [u8]) -> Answer {
    let answer = sound(to, table, out);
    if answer.refusal == 0 && out.len() < table.len() {
        return refused(30);
    }
    answer
}

// One byte more is asked for than is written.
fn a_byte_more(to: Edition, table: &[u8], out: &mut [u8]) -> Answer {
    let last = out.len().saturating_sub(1);
    sound(to, table, &mut out[..last])
}

// Clears a byte past those that are written.
fn writes_past(to: Edition, table: &[u8], out: &mut [u8]) -> Answer {
    let answer = sound(to, table, out);
    if let Some(past) = out.get_mut(answer.count as usize).filter(|_| answer.refusal == 0) {
        *past ^= 1;
    }
    answer
}

// A refusal of that number changes the first byte.
fn writes_and_refuses(number: u8, to: Edition, table: &[u8], out: &mut [u8]) -> Answer {
    let answer = sound(to, table, out);
    if let Some(first) = out.first_mut().filter(|_| answer.refusal == number) {
        *first ^= 1;
    }
    answer
}

fn place_lost(to: Edition, table: &[u8], out: &mut [u8]) -> Answer {
    Answer { place: 0, ..sound(to, table, out) }
}

fn counts_its_own(to: Edition, table: &[u8], out: &mut [u8]) -> Answer {
    let answer = sound(to, table, out);
    Answer { count: if answer.refusal == 0 { table.len() as u32 } else { 0 }, ..answer }
}

fn counts_refused(to: Edition, table: &[u8], out: &mut [u8]) -> Answer {
    let answer = sound(to, table, out);
    Answer { count: answer.count + u32::from(answer.refusal == 30), ..answer }
}

#[test]
fn every_broken_move_is_caught() {
    let broken: [(&str, &(dyn Moves + Sync)); 35] = [
        ("e = 0 written", &Writes(0)),
        ("e = 2 written", &Writes(2)),
        ("the e of type 0 alone", &TypeZero),
        ("the e of the last type alone", &LastType),
        ("every e of a rule", &EveryType),
        ("divisors lost", &DividesNever),
        ("32 on the highest rule", &HighestRule),
        ("the last rule not looked at", &NotTheLastRule),
        ("32 both ways", &BothWays),
        ("33 never", &AlreadyTaken),
        ("distances not changed", &ButBytes(|table, _, bytes| own_trailer(table, bytes, 0, 4))),
        ("the first distance not changed", &ButBytes(|table, _, bytes| own_trailer(table, bytes, 0, 2))),
        ("the second distance not changed", &ButBytes(|table, _, bytes| own_trailer(table, bytes, 2, 4))),
        ("the types byte not changed", &ButBytes(|table, _, bytes| own_trailer(table, bytes, 6, 7))),
        ("e before a, b, d", &ButBytes(|table, to, bytes| divisors_first(table, to, bytes))),
        ("the first flags lost", &ButBytes(|_, _, bytes| bytes[0] &= 1)),
        ("refuses everything", &But(refuses_all)),
        ("an idle body", &But(idle)),
        ("always to the second edition", &But(always_to_second)),
        ("33 before the table's own", &But(edition_first)),
        ("30 before the table's own", &But(|to, table, out| room_before(3, to, table, out))),
        ("30 before 9", &But(|to, table, out| room_before(9, to, table, out))),
        ("30 before 32", &But(|to, table, out| room_before(32, to, table, out))),
        ("30 before 33", &But(|to, table, out| room_before(33, to, table, out))),
        ("room as for the given table", &But(room_of_own)),
        ("room for a byte more", &But(a_byte_more)),
        ("a byte past the end changed", &But(writes_past)),
        ("1 that writes", &But(|to, table, out| writes_and_refuses(1, to, table, out))),
        ("9 that writes", &But(|to, table, out| writes_and_refuses(9, to, table, out))),
        ("30 that writes", &But(|to, table, out| writes_and_refuses(30, to, table, out))),
        ("32 that writes", &But(|to, table, out| writes_and_refuses(32, to, table, out))),
        ("33 that writes", &But(|to, table, out| writes_and_refuses(33, to, table, out))),
        ("the place lost", &But(place_lost)),
        ("the given table's length counted", &But(counts_its_own)),
        ("a refusal that counts", &But(counts_refused)),
    ];
    each(&broken, |&(name, broken)| {
        let seed = caught(broken, SEEDS).unwrap_or_else(|| panic!("not caught: {name}"));
        println!("{name}: seed {seed}");
    });
}

#[test]
fn a_sound_move_is_not_caught() {
    assert_eq!(caught(&But(sound), part_of(SEEDS)), None);
}
