//! The comparison can fail: each broken bench differs from the library on some seeded bundle. The first five are the
//! outline's slips that look harmless, the next four take waits wrongly, five more the plain form, six the form asked for, twelve
//! the second edition of rules; the others are what the outline asks to be caught.

use judge::compare::compare;
use judge::dice::{each, part_of, Dice};
use judge::makers::bundles::case;
use judge::model::{check_sent, sum, Bundle, Coefficients, Configuration, Edition, Messages};
use judge::model::{Model, Outline, Rule, State, Table};
use judge::{Bench, Library};
use macaroosh::calls::{Answer, First, Step};
use macaroosh::{Form, Refusal};

const SEEDS: u64 = 2_000;

// The first seed whose bundle shows the difference, of so many.
fn caught(broken: &dyn Bench, seeds: u64) -> Option<u64> {
    (1..=seeds).find(|&seed| {
        let dice = &mut Dice::new(seed);
        let (bundle, standing) = case(dice);
        compare(broken, &Library, &bundle, &standing, dice).is_err()
    })
}

// One joint count against sent plus f.
struct JointCount;

impl Outline for JointCount {
    fn in_transit(&self, bundle: &Bundle, before: &Configuration, step: Step) -> bool {
        let (p, m) = (usize::from(step.board), usize::from(step.kind));
        match (&before.received[p][m], &before.sent[m]) {
            (Messages::Counts(correct, faulty), Messages::Counts(sent, _)) => correct + faulty < sent + bundle.f,
            _ => Model.in_transit(bundle, before, step),
        }
    }
}

// Thresholds before the receipt.
struct CountsBefore;

impl Outline for CountsBefore {
    fn counted(&self, before: usize, _receives: bool) -> usize {
        before
    }
}

// A board hears its own echo in the step that sends it.
struct HearsItself;

impl Outline for HearsItself {
    fn in_transit(&self, bundle: &Bundle, before: &Configuration, step: Step) -> bool {
        let mut after = before.clone();
        bundle.apply(&mut after, Step { kind: 255, source: 255, ..step });
        Model.in_transit(bundle, &after, step)
    }
}

// Byte FF is 255.
struct Unsigned;

impl Outline for Unsigned {
    fn threshold(&self, bundle: &Bundle, Coefficients { a, b, d, e }: Coefficients) -> i64 {
        let [a, b, d] = [a, b, d].map(|c| i64::from(c as u8));
        let (sum, e) = (a * bundle.n as i64 + b * bundle.t as i64 + d, i64::from(e));
        (sum + e - 1) / e
    }
}

// A sender is checked against all n and not against the received set: one echo counts twice.
struct EchoTwice;

impl Outline for EchoTwice {
    fn in_transit(&self, bundle: &Bundle, before: &Configuration, step: Step) -> bool {
        let q = usize::from(step.source);
        match &before.sent[usize::from(step.kind)] {
            Messages::Set(sent) => q < bundle.n && (q >= bundle.correct() || sent.contains(&q)),
            _ => Model.in_transit(bundle, before, step),
        }
    }
}

// Waits are possible.
struct OffersWaits;

impl Outline for OffersWaits {
    fn possible(&self, bundle: &Bundle, left: &Configuration, step: Step) -> bool {
        self.check(bundle, left, step).is_ok()
    }
}

// A rule that stays in its state is never possible, not even with a message.
struct OnlyMoves;

impl Outline for OnlyMoves {
    fn possible(&self, bundle: &Bundle, left: &Configuration, step: Step) -> bool {
        let rule = &bundle.table.rules[usize::from(step.rule)];
        self.check(bundle, left, step).is_ok() && rule.from != rule.to
    }
}

// No step without a message is possible, not even one to another state.
struct OnlyReceipts;

impl Outline for OnlyReceipts {
    fn possible(&self, bundle: &Bundle, left: &Configuration, step: Step) -> bool {
        self.check(bundle, left, step).is_ok() && !step.silent()
    }
}

// Waits are refused, as 25.
struct RefusesWaits;

impl Outline for RefusesWaits {
    fn check(&self, bundle: &Bundle, before: &Configuration, step: Step) -> Result<(), u8> {
        Model.check(bundle, before, step)?;
        if bundle.waits(step) {
            return Err(25);
        }
        Ok(())
    }
}

// A plain count is bounded by sent alone, or by sent plus t.
struct Bound(fn(&Bundle) -> usize);

impl Outline for Bound {
    fn in_transit(&self, bundle: &Bundle, before: &Configuration, step: Step) -> bool {
        let (p, m) = (usize::from(step.board), usize::from(step.kind));
        match (&before.received[p][m], &before.sent[m]) {
            (Messages::Count(got), Messages::Count(sent)) => *got < sent + (self.0)(bundle),
            _ => Model.in_transit(bundle, before, step),
        }
    }
}

// From plain form the faulty tag comes before the correct one.
struct FaultyFirst;

impl Outline for FaultyFirst {
    fn translated(&self, from: Form, other: &Bundle, reached: &Configuration, step: Step) -> Step {
        let faulty = Step { source: 1, ..step };
        if from == Form::Plain && !step.silent() && Model.in_transit(other, reached, faulty) {
            return faulty;
        }
        Model.translated(from, other, reached, step)
    }
}

// From plain form every tag is correct.
struct CorrectOnly;

impl Outline for CorrectOnly {
    fn translated(&self, from: Form, other: &Bundle, reached: &Configuration, step: Step) -> Step {
        if from == Form::Plain {
            return step;
        }
        Model.translated(from, other, reached, step)
    }
}

// To plain form tags stay.
struct KeepsTags;

impl Outline for KeepsTags {
    fn translated(&self, from: Form, other: &Bundle, reached: &Configuration, step: Step) -> Step {
        if other.form == Form::Plain {
            return step;
        }
        Model.translated(from, other, reached, step)
    }
}

// The quotient is rounded down, or towards 0, or up by one always.
struct Rounded(fn(i64, i64) -> i64);

impl Outline for Rounded {
    fn threshold(&self, bundle: &Bundle, coefficients: Coefficients) -> i64 {
        (self.0)(sum(bundle, coefficients), i64::from(coefficients.e))
    }
}

// Other divisors are taken.
struct Divisors(fn(u8) -> bool);

impl Outline for Divisors {
    fn divides(&self, e: u8) -> bool {
        (self.0)(e)
    }
}

// Each type is divided by what is meant for the next one.
struct DivisorOfAnother;

impl Outline for DivisorOfAnother {
    fn coefficients(&self, rule: &[u8], edition: Edition, types: usize) -> Vec<Coefficients> {
        let all = Model.coefficients(rule, edition, types);
        (0..types).map(|m| Coefficients { e: all[(m + 1) % types].e, ..all[m] }).collect()
    }
}

// Every rule is as long as in the first edition.
struct FirstLength;

impl Outline for FirstLength {
    fn rule_size(&self, _edition: Edition, types: usize) -> usize {
        Model.rule_size(Edition::First, types)
    }

    fn coefficients(&self, rule: &[u8], _edition: Edition, types: usize) -> Vec<Coefficients> {
        Model.coefficients(rule, Edition::First, types)
    }
}

// Of one rule, 9 is looked for after 7.
struct NineAfterSeven;

impl Outline for NineAfterSeven {
    fn check_rule(&self, states: &[State], rule: &Rule) -> Result<(), u8> {
        match Model.check_rule(states, rule) {
            Err(9) if check_sent(states, rule) == Err(7) => Err(7),
            checked => checked,
        }
    }
}

// Divisors are looked at before a rule's ends.
struct NineBeforeSix;

impl Outline for NineBeforeSix {
    fn check_rule(&self, states: &[State], rule: &Rule) -> Result<(), u8> {
        match rule.coefficients.iter().all(|coefficients| self.divides(coefficients.e)) {
            true => Model.check_rule(states, rule),
            false => Err(9),
        }
    }
}

// Divisors are looked at after all rules.
struct DivisorsLast;

impl Outline for DivisorsLast {
    fn read_table(&self, part: &[u8]) -> Result<Table, Refusal> {
        Divisors(|_| true).read_table(part)?;
        Model.read_table(part)
    }
}

// Of the types byte only the lowest five bits are looked at.
struct TypesAtFiveBits;

impl Outline for TypesAtFiveBits {
    fn edition(&self, types_byte: usize) -> (Edition, usize) {
        Edition::of(types_byte % 32)
    }
}

// The model, but for one of its calls.
struct But {
    run: fn(&[u8], &[u8], &mut [u64]) -> Answer,
    translate: fn(&[u8], &[u8], &mut [u8]) -> Answer,
    translate_to: fn(&[u8], &[u8], u64, &mut [u8]) -> Answer,
    first_step: fn(&[u8], &[u8]) -> First,
}

const SOUND: But = But {
    run: |bundle, standing, words| Model.run(bundle, standing, words),
    translate: |bundle, standing, out| Model.translate(bundle, standing, out),
    translate_to: |bundle, standing, form, out| Model.translate_to(bundle, standing, form, out),
    first_step: |bundle, standing| Model.first_step(bundle, standing),
};

impl Bench for But {
    fn run(&self, bundle: &[u8], standing: &[u8], words: &mut [u64]) -> Answer {
        (self.run)(bundle, standing, words)
    }

    fn translate(&self, bundle: &[u8], standing: &[u8], out: &mut [u8]) -> Answer {
        (self.translate)(bundle, standing, out)
    }

    fn translate_to(&self, bundle: &[u8], standing: &[u8], form: u64, out: &mut [u8]) -> Answer {
        (self.translate_to)(bundle, standing, form, out)
    }

    fn first_step(&self, bundle: &[u8], standing: &[u8]) -> First {
        (self.first_step)(bundle, standing)
    }
}

// Answers as it should, and writes nothing.
fn idle_run(bundle: &[u8], standing: &[u8], words: &mut [u64]) -> Answer {
    Model.run(bundle, standing, &mut words.to_vec())
}

// The first step truly, the others only counted.
fn counted_up(bundle: &[u8], standing: &[u8], words: &mut [u64]) -> Answer {
    let answer = Model.run(bundle, standing, words);
    if answer.refusal == 0 && answer.count > 1 {
        let trailer = bundle.len() - 8;
        let steps = trailer - 4 * answer.count as usize;
        let mut one = bundle[..steps + 4].to_vec();
        let starts = usize::from(bundle[trailer + 4] - bundle[trailer + 6]);
        one.extend([4, 0, (4 + starts) as u8, 0]);
        one.extend(&bundle[trailer + 4..]);
        Model.run(&one, standing, words);
    }
    answer
}

fn made_up_count(bundle: &[u8], standing: &[u8], words: &mut [u64]) -> Answer {
    let answer = Model.run(bundle, standing, words);
    Answer { count: if answer.refusal == 24 { answer.count + 1 } else { answer.count }, ..answer }
}

// Clears all the words that were lent.
fn writes_past(bundle: &[u8], standing: &[u8], words: &mut [u64]) -> Answer {
    let answer = Model.run(bundle, standing, words);
    if answer.left_a_configuration() {
        if let Some(last) = words.last_mut() {
            *last = 0;
        }
    }
    answer
}

fn refuses_all(_: &[u8], _: &[u8], _: &mut [u64]) -> Answer {
    Answer { refusal: 10, place: 0, count: 0 }
}

fn only_the_form_byte(bundle: &[u8], standing: &[u8], out: &mut [u8]) -> Answer {
    let answer = Model.translate(bundle, standing, out);
    if answer.refusal == 0 {
        let form = out[bundle.len() - 1];
        out[..bundle.len()].copy_from_slice(bundle);
        out[bundle.len() - 1] = form;
    }
    answer
}

// Writes what it has before it meets the refused step.
fn half_written(bundle: &[u8], standing: &[u8], out: &mut [u8]) -> Answer {
    let answer = Model.translate(bundle, standing, out);
    if (20..30).contains(&answer.refusal) {
        out[bundle.len() - 1] ^= 1;
    }
    answer
}

// Without a form asked for, plain goes to message.
fn plain_to_message(bundle: &[u8], standing: &[u8], out: &mut [u8]) -> Answer {
    match bundle.last() {
        Some(2) => Model.translate_to(bundle, standing, 0, out),
        _ => Model.translate(bundle, standing, out),
    }
}

// Of the form asked for only the lowest byte is looked at, or the lowest four.
fn form_at_8_bits(bundle: &[u8], standing: &[u8], form: u64, out: &mut [u8]) -> Answer {
    Model.translate_to(bundle, standing, u64::from(form as u8), out)
}

fn form_at_32_bits(bundle: &[u8], standing: &[u8], form: u64, out: &mut [u8]) -> Answer {
    Model.translate_to(bundle, standing, u64::from(form as u32), out)
}

// The bundle's own form is refused before anything is read.
fn own_form_first(bundle: &[u8], standing: &[u8], form: u64, out: &mut [u8]) -> Answer {
    match bundle.last() {
        Some(&own) if u64::from(own) == form => Answer { refusal: 31, place: 0, count: 0 },
        _ => Model.translate_to(bundle, standing, form, out),
    }
}

// The form asked for is looked at after the room.
fn form_after_room(bundle: &[u8], standing: &[u8], form: u64, out: &mut [u8]) -> Answer {
    let answer = Model.translate_to(bundle, standing, form, out);
    if answer.refusal == 31 && out.len() < bundle.len() {
        return Answer { refusal: 30, ..answer };
    }
    answer
}

// A bundle that is in that form is copied.
fn copies_its_own(bundle: &[u8], standing: &[u8], form: u64, out: &mut [u8]) -> Answer {
    let answer = Model.translate_to(bundle, standing, form, out);
    if answer.refusal == 31 && form < 3 && out.len() >= bundle.len() {
        out[..bundle.len()].copy_from_slice(bundle);
        return Answer { refusal: 0, place: 0, count: bundle.len() as u32 };
    }
    answer
}

fn always_none(bundle: &[u8], standing: &[u8]) -> First {
    Model.first_step(bundle, standing).map(|_| None)
}

fn place_lost(bundle: &[u8], standing: &[u8]) -> First {
    Model.first_step(bundle, standing).map_err(|refusal| Refusal { place: 0, ..refusal })
}

#[test]
fn every_broken_bench_is_caught() {
    let broken: [(&str, &(dyn Bench + Sync)); 41] = [
        ("a joint count", &JointCount),
        ("thresholds before the receipt", &CountsBefore),
        ("hears its own echo at once", &HearsItself),
        ("byte FF as 255", &Unsigned),
        ("an echo counted twice", &EchoTwice),
        ("waits are possible", &OffersWaits),
        ("a wait with a message is not", &OnlyMoves),
        ("a move without a message is not", &OnlyReceipts),
        ("waits are refused", &RefusesWaits),
        ("a plain count bounded by sent alone", &Bound(|_| 0)),
        ("a plain count bounded by sent plus t", &Bound(|bundle| bundle.t)),
        ("the faulty tag first", &FaultyFirst),
        ("only correct tags", &CorrectOnly),
        ("tags in plain form", &KeepsTags),
        ("plain to message by itself", &But { translate: plain_to_message, ..SOUND }),
        ("the form at 8 bits", &But { translate_to: form_at_8_bits, ..SOUND }),
        ("the form at 32 bits", &But { translate_to: form_at_32_bits, ..SOUND }),
        ("its own form before reading", &But { translate_to: own_form_first, ..SOUND }),
        ("the form after the room", &But { translate_to: form_after_room, ..SOUND }),
        ("its own form copied", &But { translate_to: copies_its_own, ..SOUND }),
        ("rounding down", &Rounded(|sum, e| sum.div_euclid(e))),
        ("rounding towards 0", &Rounded(|sum, e| sum / e)),
        ("one more than rounded down", &Rounded(|sum, e| sum.div_euclid(e) + 1)),
        ("e = 9 is taken", &Divisors(|e| (1..=9).contains(&e))),
        ("e = 8 is refused", &Divisors(|e| (1..=7).contains(&e))),
        ("e as a signed byte", &Divisors(|e| e != 0 && e as i8 <= 8)),
        ("e of another type", &DivisorOfAnother),
        ("rules as long as in the first edition", &FirstLength),
        ("9 after 7", &NineAfterSeven),
        ("9 before 6", &NineBeforeSix),
        ("9 after all rules", &DivisorsLast),
        ("the types byte at five bits", &TypesAtFiveBits),
        ("refuses everything", &But { run: refuses_all, ..SOUND }),
        ("an idle body", &But { run: idle_run, ..SOUND }),
        ("one step, then only counts", &But { run: counted_up, ..SOUND }),
        ("a made-up count", &But { run: made_up_count, ..SOUND }),
        ("writes past the room", &But { run: writes_past, ..SOUND }),
        ("only the form byte", &But { translate: only_the_form_byte, ..SOUND }),
        ("a refused translation half written", &But { translate: half_written, ..SOUND }),
        ("always none", &But { first_step: always_none, ..SOUND }),
        ("the place lost", &But { first_step: place_lost, ..SOUND }),
    ];
    each(&broken, |&(name, bench)| {
        let seed = caught(bench, SEEDS).unwrap_or_else(|| panic!("not caught: {name}"));
        println!("{name}: seed {seed}");
    });
}

#[test]
fn a_sound_bench_is_not_caught() {
    assert_eq!(caught(&SOUND, part_of(SEEDS)), None);
}

#[test]
fn an_echo_counted_twice_lets_board_2_accept() {
    // P5: refused 24 at step 4 by the outline.
    let twice = b"\x01\x01\x01\x00\x03\xFF\xFF\x01\x03\xFF\xFF\x02\x03\x00\x00\x02\x04\x00\x03\x02\x05\x00\x00\x14\x00\x17\x00\x04\x01\x01\x00";
    let run = |bench: &dyn Bench| bench.run(twice, &macaroosh::ECHO, &mut [0; 8]);
    assert_eq!(run(&EchoTwice), Answer { refusal: 0, place: 0, count: 5 });
    assert_eq!(run(&Library), Answer { refusal: 24, place: 4, count: 4 });
}
