//! The comparison can fail where receipts and sends are counted: each way of counting that is wrong differs from the library on some
//! seeded bundle.

use judge::compare::compare_receipts;
use judge::dice::{each, part_of, Dice};
use judge::makers::bundles::case;
use judge::model::{read, Bundle, Model};
use judge::receipts::ReceiptOutline;
use judge::{Bench, Counts, Library};
use macaroosh::calls::{Answer, Receipts, Step};
use macaroosh::{Form, STOP};

// Whether a seed's bundle shows a difference.
fn differs(counts: &dyn Counts, seed: u64) -> bool {
    let dice = &mut Dice::new(seed);
    let (bundle, standing) = case(dice);
    compare_receipts(counts, &Library, &bundle, &standing, dice).is_err()
}

// Other steps are receipts.
struct Received(fn(&Bundle, Step) -> bool);

impl ReceiptOutline for Received {
    fn receives(&self, bundle: &Bundle, step: Step) -> bool {
        (self.0)(bundle, step)
    }
}

// Other steps are sends.
struct Sent(fn(&Bundle, Step) -> bool);

impl ReceiptOutline for Sent {
    fn sends(&self, bundle: &Bundle, step: Step) -> bool {
        (self.0)(bundle, step)
    }
}

// Other steps are looked at.
struct Looked(fn(Answer) -> usize);

impl ReceiptOutline for Looked {
    fn looked_at(&self, answer: Answer) -> usize {
        (self.0)(answer)
    }
}

// Something else is answered.
struct Answers(fn(&Bundle, Receipts) -> Receipts);

impl ReceiptOutline for Answers {
    fn answered(&self, bundle: &Bundle, answer: Answer) -> Receipts {
        (self.0)(bundle, Model.answered(bundle, answer))
    }
}

// The words are left otherwise.
struct Words(fn(&[u8], &[u8], &mut [u64]) -> Receipts);

impl Counts for Words {
    fn receipts(&self, bundle: &[u8], standing: &[u8], words: &mut [u64]) -> Receipts {
        (self.0)(bundle, standing, words)
    }
}

// Whether a step's rule has from = to.
fn stays(bundle: &Bundle, step: Step) -> bool {
    bundle.rule(step).map_or(false, |rule| rule.from == rule.to)
}

// Whether the message of a step is from a faulty board, where its form tells.
fn of_faulty(bundle: &Bundle, step: Step) -> bool {
    match bundle.form {
        Form::Message => usize::from(step.source) >= bundle.correct(),
        Form::Counting => step.source == 1,
        Form::Plain => false,
    }
}

// What the state that a step enters has sent, and the one that it leaves.
fn masks(bundle: &Bundle, step: Step) -> [u8; 2] {
    let sent = |state: usize| bundle.table.states[state].sent;
    bundle.rule(step).map_or([0, 0], |rule| [sent(rule.to), sent(rule.from)])
}

fn counts(change: fn(u32, u32) -> (u32, u32), answer: Receipts) -> Receipts {
    let (receipts, sends) = change(answer.receipts, answer.sends);
    Receipts { receipts, sends, ..answer }
}

// The same numbers, and the words stay.
fn leaves_no_words(bundle: &[u8], standing: &[u8], words: &mut [u64]) -> Receipts {
    Model.receipts(bundle, standing, &mut words.to_vec())
}

// It is refused that lent words are too short after a step is.
fn short_after_a_step(bundle: &[u8], standing: &[u8], words: &mut [u64]) -> Receipts {
    let room = read(bundle, standing).map_or(0, |bundle| bundle.start().words().len());
    let answer = Model.receipts(bundle, standing, &mut vec![0; room]);
    match answer.refusal {
        0 => Model.receipts(bundle, standing, words),
        _ => {
            Model.run(bundle, standing, words);
            answer
        }
    }
}

#[test]
fn every_wrong_count_is_caught() {
    let broken: [(&str, &(dyn Counts + Sync)); 30] = [
        (
            "a refused step counted",
            &Looked(|answer| answer.count as usize + usize::from(answer.refusal >= 20 && answer.refusal < 30)),
        ),
        ("the last accepted step not counted", &Looked(|answer| Model.looked_at(answer).saturating_sub(1))),
        ("nothing on a step's refusal", &Looked(|answer| if answer.refusal == 0 { answer.count as usize } else { 0 })),
        ("the steps below the place alone", &Looked(|answer| answer.place as usize)),
        ("receipts without the faulty ones", &Received(|b, step| !step.silent() && !of_faulty(b, step))),
        ("the faulty ones alone", &Received(|b, step| !step.silent() && (of_faulty(b, step) || b.form == Form::Plain))),
        ("no receipt without a move", &Received(|b, step| !step.silent() && !stays(b, step))),
        ("no receipt with a send", &Received(|b, step| !step.silent() && !Model.sends(b, step))),
        ("a wait is a receipt", &Received(|b, step| !step.silent() || stays(b, step))),
        ("a stop is a receipt", &Received(|_, step| !step.silent() || step.rule == STOP)),
        ("every step is a receipt", &Received(|_, _| true)),
        ("no receipt of type 0", &Received(|_, step| !step.silent() && step.kind != 0)),
        ("no receipt from source 0", &Received(|_, step| !step.silent() && step.source != 0)),
        (
            "no receipt of a board's own message",
            &Received(|b, step| !(step.silent() || b.form == Form::Message && step.source == step.board)),
        ),
        ("a send where the type was sent before", &Sent(|b, step| masks(b, step)[0] != 0)),
        ("a send of every rule that leaves the state", &Sent(|b, step| b.rule(step).is_some() && !stays(b, step))),
        ("a send of type 0 alone", &Sent(|b, step| masks(b, step)[0] & !masks(b, step)[1] & 1 == 1)),
        (
            "no send of the highest type",
            &Sent(|b, step| {
                let new = masks(b, step)[0] & !masks(b, step)[1];
                new != 0 && new != 1 << (b.table.types - 1)
            }),
        ),
        (
            "a send from a state that has sent nothing alone",
            &Sent(|b, step| Model.sends(b, step) && masks(b, step)[1] == 0),
        ),
        ("no send with a receipt", &Sent(|b, step| Model.sends(b, step) && step.silent())),
        ("a stop is a send", &Sent(|b, step| Model.sends(b, step) || step.rule == STOP)),
        ("a wait is a send", &Sent(|b, step| Model.sends(b, step) || (step.silent() && stays(b, step)))),
        ("the two exchanged", &Answers(|_, answer| counts(|receipts, sends| (sends, receipts), answer))),
        ("receipts alone", &Answers(|_, answer| counts(|receipts, _| (receipts, 0), answer))),
        ("sends alone", &Answers(|_, answer| counts(|_, sends| (0, sends), answer))),
        (
            "sends from bit 15 on",
            &Answers(|_, answer| counts(|receipts, sends| (receipts + (sends << 15 & 0xFFFF), sends >> 1), answer)),
        ),
        (
            "a message is a receipt of every type",
            &Answers(|b, answer| Receipts { receipts: answer.receipts * b.table.types as u32, ..answer }),
        ),
        ("no place", &Answers(|_, answer| Receipts { place: 0, ..answer })),
        ("no words left", &Words(leaves_no_words)),
        ("30 after a step", &Words(short_after_a_step)),
    ];
    each(&broken, |&(name, counts)| {
        let seed = (1..=4_000).find(|&seed| differs(counts, seed)).unwrap_or_else(|| panic!("not caught: {name}"));
        println!("{name}: seed {seed}");
    });
}

// Variants that change nothing, by each way in which one is made.
#[test]
fn a_right_count_is_not_caught() {
    let sound: [(&str, &(dyn Counts + Sync)); 5] = [
        ("what is a receipt", &Received(|_, step| !step.silent())),
        ("what is a send", &Sent(|b, step| masks(b, step)[0] != masks(b, step)[1])),
        ("what is looked at", &Looked(|answer| Model.looked_at(answer))),
        ("what is answered", &Answers(|_, answer| counts(|receipts, sends| (receipts, sends), answer))),
        ("what is left", &Words(|bundle, standing, words| Model.receipts(bundle, standing, words))),
    ];
    each(&sound, |&(name, counts)| {
        assert_eq!((1..=part_of(400)).find(|&seed| differs(counts, seed)), None, "{name}");
    });
}
