//! The comparison can fail where boards stop: each bench that takes stops wrongly differs from the library on some seeded bundle.

use judge::compare::compare;
use judge::dice::{each, part_of, Dice};
use judge::makers::bundles::case;
use judge::model::{read, Bundle, Configuration, Messages, Model, Outline};
use judge::{Bench, Library};
use macaroosh::calls::{Answer, First, Step};
use macaroosh::{Form, STOP};
use std::collections::BTreeSet;

// Whether a seed's bundle shows a difference.
fn differs(bench: &dyn Bench, seed: u64) -> bool {
    let dice = &mut Dice::new(seed);
    let (bundle, standing) = case(dice);
    compare(bench, &Library, &bundle, &standing, dice).is_err()
}

// Whether a step is accepted, or the number of its refusal.
type Checked = Result<(), u8>;

// What a step is given in place of what the model gives it.
struct Given(fn(&Bundle, &Configuration, Step, Checked) -> Checked);

impl Outline for Given {
    fn check(&self, bundle: &Bundle, before: &Configuration, step: Step) -> Result<(), u8> {
        (self.0)(bundle, before, step, Model.check(bundle, before, step))
    }
}

// A stopped board's step by a rule is taken.
fn stopped_board_steps(b: &Bundle, before: &Configuration, step: Step, given: Checked) -> Checked {
    match given {
        Err(26) if step.rule != STOP => Model.check_move(b, before, step),
        given => given,
    }
}

// A stopped board may stop again.
fn stops_again(b: &Bundle, before: &Configuration, step: Step, given: Checked) -> Checked {
    match given {
        Err(26) if step.rule == STOP => Model.check_stop(b, before, step),
        given => given,
    }
}

// 26 is looked for after another refusal of a step by a rule.
fn later<const NUMBER: u8>(b: &Bundle, before: &Configuration, step: Step, given: Checked) -> Checked {
    match given {
        Err(26) if step.rule != STOP => {
            Model.check_move(b, before, step).err().filter(|&n| n <= NUMBER).map_or(given, Err)
        }
        given => given,
    }
}

// 26 is looked for after 23 of a stop.
fn after_the_message(_: &Bundle, _: &Configuration, step: Step, given: Checked) -> Checked {
    match given {
        Err(26) if step.rule == STOP && !step.silent() => Err(23),
        given => given,
    }
}

// 27 is looked for before 23.
fn before_the_message(b: &Bundle, before: &Configuration, step: Step, given: Checked) -> Checked {
    match given {
        Err(23) if step.rule == STOP && !Model.may_stop(b, before) => Err(27),
        given => given,
    }
}

// A stop that has a message is taken as one that has none.
fn message_taken(b: &Bundle, before: &Configuration, step: Step, given: Checked) -> Checked {
    match given {
        Err(23) if step.rule == STOP => Model.check_stop(b, before, Step { kind: 255, source: 255, ..step }),
        given => given,
    }
}

// Whether there is a message is told by its type alone.
fn by_the_type(b: &Bundle, before: &Configuration, step: Step, given: Checked) -> Checked {
    match given {
        Err(23) if step.rule == STOP && step.kind == 255 => message_taken(b, before, step, given),
        given => given,
    }
}

// Of rule 254, numbers that are given in place of the model's.
fn instead<const OLD: u8, const NEW: u8>(_: &Bundle, _: &Configuration, step: Step, given: Checked) -> Checked {
    match given {
        Err(number) if step.rule == STOP && number == OLD => Err(NEW),
        given => given,
    }
}

// Rule 254 is looked up in the table.
fn looked_up(_: &Bundle, _: &Configuration, step: Step, given: Checked) -> Checked {
    match given {
        Ok(()) | Err(23 | 27) if step.rule == STOP => Err(21),
        given => given,
    }
}

// Other bounds on the boards that may stop.
struct Bound(fn(&Bundle, usize) -> bool);

impl Outline for Bound {
    fn may_stop(&self, bundle: &Bundle, before: &Configuration) -> bool {
        (self.0)(bundle, before.stopped.len())
    }
}

// A stop changes something else, or more.
struct Changes(fn(&Bundle, &mut Configuration, usize));

impl Outline for Changes {
    fn apply(&self, bundle: &Bundle, configuration: &mut Configuration, step: Step) {
        bundle.apply(configuration, step);
        if step.rule == STOP {
            (self.0)(bundle, configuration, usize::from(step.board));
        }
    }
}

// The types that a board has sent.
fn sent_types(bundle: &Bundle, configuration: &Configuration, p: usize) -> Vec<usize> {
    let mask = bundle.table.states[configuration.states[p]].sent;
    (0..bundle.table.types).filter(|m| mask >> m & 1 == 1).collect()
}

fn takes_back_what_was_sent(bundle: &Bundle, configuration: &mut Configuration, p: usize) {
    for m in sent_types(bundle, configuration, p) {
        match &mut configuration.sent[m] {
            Messages::Set(sent) => {
                sent.remove(&p);
            }
            Messages::Counts(sent, _) | Messages::Count(sent) => *sent -= 1,
        }
    }
}

fn forgets_what_it_has(bundle: &Bundle, configuration: &mut Configuration, p: usize) {
    configuration.received[p] = bundle.start().received[p].clone();
}

fn starts_again(bundle: &Bundle, configuration: &mut Configuration, p: usize) {
    configuration.states[p] = bundle.starts[p];
}

fn stops_board_0(_: &Bundle, configuration: &mut Configuration, p: usize) {
    configuration.stopped.remove(&p);
    configuration.stopped.insert(0);
}

// What a stopped board has sent is no longer in transit.
struct TakenOut;

impl Outline for TakenOut {
    fn in_transit(&self, bundle: &Bundle, before: &Configuration, step: Step) -> bool {
        let from_stopped = bundle.form == Form::Message && before.stopped.contains(&usize::from(step.source));
        Model.in_transit(bundle, before, step) && !from_stopped
    }
}

// A stop is another step in another form.
struct Translates(fn(Form, Step) -> Step);

impl Outline for Translates {
    fn translated(&self, from: Form, other: &Bundle, reached: &Configuration, step: Step) -> Step {
        match step.rule {
            STOP => (self.0)(other.form, step),
            _ => Model.translated(from, other, reached, step),
        }
    }

    // What a wrong record would do is of no matter.
    fn translation(&self, bundle: &Bundle, to: Form) -> Vec<Step> {
        let right = Model.translation(bundle, to);
        right.into_iter().map(|step| if step.rule == STOP { (self.0)(to, step) } else { step }).collect()
    }
}

// The first step is named as if nobody were stopped.
struct NamesStopped;

impl Outline for NamesStopped {
    fn first_in(&self, bundle: &Bundle, left: &Configuration) -> Option<Step> {
        Model.first_in(bundle, &Configuration { stopped: BTreeSet::new(), ..left.clone() })
    }
}

// Where no other step is possible, a stop is named.
struct NamesStops;

impl Outline for NamesStops {
    fn first_in(&self, bundle: &Bundle, left: &Configuration) -> Option<Step> {
        let stop = (0..bundle.correct() as u8).map(Step::stop).find(|&stop| self.check(bundle, left, stop).is_ok());
        Model.first_in(bundle, left).or(stop)
    }
}

// The model, but for what becomes of the words that a run is lent.
struct Run(fn(&[u8], &[u8], &mut [u64]) -> Answer);

impl Bench for Run {
    fn run(&self, bundle: &[u8], standing: &[u8], words: &mut [u64]) -> Answer {
        (self.0)(bundle, standing, words)
    }

    fn translate(&self, bundle: &[u8], standing: &[u8], out: &mut [u8]) -> Answer {
        Model.translate(bundle, standing, out)
    }

    fn translate_to(&self, bundle: &[u8], standing: &[u8], form: u64, out: &mut [u8]) -> Answer {
        Model.translate_to(bundle, standing, form, out)
    }

    fn first_step(&self, bundle: &[u8], standing: &[u8]) -> First {
        Model.first_step(bundle, standing)
    }
}

// How many words a run needs.
fn room(bundle: &[u8], standing: &[u8]) -> usize {
    read(bundle, standing).map_or(0, |bundle| bundle.start().words().len())
}

// There is no last word, and one word less is enough.
fn word_missing(bundle: &[u8], standing: &[u8], words: &mut [u64]) -> Answer {
    let mut longer = [&*words, &[0]].concat();
    let answer = Model.run(bundle, standing, &mut longer);
    let before = room(bundle, standing).max(1) - 1;
    if answer.left_a_configuration() {
        words[..before].copy_from_slice(&longer[..before]);
    }
    answer
}

// The last word is another one.
fn word_changed(bundle: &[u8], standing: &[u8], words: &mut [u64], change: fn(u64) -> u64) -> Answer {
    let answer = Model.run(bundle, standing, words);
    if answer.left_a_configuration() {
        let last = &mut words[room(bundle, standing) - 1];
        *last = change(*last);
    }
    answer
}

// The last word comes first.
fn word_first(bundle: &[u8], standing: &[u8], words: &mut [u64]) -> Answer {
    let answer = Model.run(bundle, standing, words);
    if answer.left_a_configuration() {
        words[..room(bundle, standing)].rotate_right(1);
    }
    answer
}

#[test]
fn every_bench_that_takes_stops_wrongly_is_caught() {
    let broken: [(&str, &(dyn Bench + Sync)); 37] = [
        ("a stopped board steps", &Given(stopped_board_steps)),
        ("a stopped board stops again", &Given(stops_again)),
        ("26 after 21", &Given(later::<21>)),
        ("26 after 22", &Given(later::<22>)),
        ("26 after 23", &Given(later::<23>)),
        ("26 after 25", &Given(later::<25>)),
        ("26 after 23 of a stop", &Given(after_the_message)),
        ("27 before 23", &Given(before_the_message)),
        ("a stop with a message taken", &Given(message_taken)),
        ("a message by its type alone", &Given(by_the_type)),
        ("21 for a stop with a message", &Given(instead::<23, 21>)),
        ("24 for a stop with a message", &Given(instead::<23, 24>)),
        ("21 where no stop is allowed", &Given(instead::<27, 21>)),
        ("26 where no stop is allowed", &Given(instead::<27, 26>)),
        ("27 for a second stop", &Given(instead::<26, 27>)),
        ("rule 254 looked up in the table", &Given(looked_up)),
        ("27 without f", &Bound(|bundle, stopped| stopped < bundle.t)),
        ("27 one stop too early", &Bound(|bundle, stopped| stopped + 1 + bundle.f < bundle.t)),
        ("27 one stop too late", &Bound(|bundle, stopped| stopped + bundle.f <= bundle.t)),
        ("27 never", &Bound(|_, _| true)),
        ("one stop alone", &Bound(|bundle, stopped| stopped == 0 && bundle.f < bundle.t)),
        ("a stop takes back what was sent", &Changes(takes_back_what_was_sent)),
        ("a stop forgets what was received", &Changes(forgets_what_it_has)),
        ("a stop goes back to the start", &Changes(starts_again)),
        ("a stop stops nobody", &Changes(|_, left, p| left.stopped.retain(|&other| other != p))),
        ("the last stop alone is kept", &Changes(|_, left, p| left.stopped = [p].into())),
        ("a stop stops board 0", &Changes(stops_board_0)),
        ("what a stopped board has sent is taken out of transit", &TakenOut),
        ("a stop translated as a step by rule 0", &Translates(|_, step| Step { rule: 0, ..step })),
        ("a stop with source 0 in plain form", &Translates(in_plain_form)),
        ("the first step of a stopped board", &NamesStopped),
        ("a stop as the first step", &NamesStops),
        ("the stopped word missing", &Run(word_missing)),
        ("the stopped word 0", &Run(|bundle, standing, words| word_changed(bundle, standing, words, |_| 0))),
        (
            "the stopped word a count",
            &Run(|bundle, standing, words| word_changed(bundle, standing, words, |set| set.count_ones().into())),
        ),
        (
            "the stopped boards from bit 1 on",
            &Run(|bundle, standing, words| word_changed(bundle, standing, words, |set| set << 1)),
        ),
        ("the stopped word first", &Run(word_first)),
    ];
    each(&broken, |&(name, bench)| {
        let seed = (1..=4_000).find(|&seed| differs(bench, seed)).unwrap_or_else(|| panic!("not caught: {name}"));
        println!("{name}: seed {seed}");
    });
}

fn in_plain_form(form: Form, step: Step) -> Step {
    match form {
        Form::Plain => Step { source: 0, ..step },
        _ => step,
    }
}

// Variants that change nothing, by each way in which one is made.
#[test]
fn a_sound_bench_is_not_caught() {
    let sound: [(&str, &(dyn Bench + Sync)); 5] = [
        ("what is given", &Given(|_, _, _, given| given)),
        ("the bound", &Bound(|bundle, stopped| stopped + 1 + bundle.f <= bundle.t)),
        ("what changes", &Changes(|_, _, _| {})),
        ("what is translated", &Translates(|_, step| step)),
        ("the last word", &Run(|bundle, standing, words| word_changed(bundle, standing, words, |set| set))),
    ];
    each(&sound, |&(name, bench)| {
        assert_eq!((1..=part_of(400)).find(|&seed| differs(bench, seed)), None, "{name}");
    });
}
