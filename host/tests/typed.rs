//! The calls at the crate's root against the exact numbers of `macaroosh::calls`, on seeded bundles, logs, searches, lists, tables and texts:
//! number, place, count, words and bytes; their configurations against the model's report; steps against their records. `SEEDS=n`
//! tries more than 3,000.

use judge::dice::{each_seed, part_of, seeds, Dice};
use judge::makers::bundles::{any, case, without_steps};
use judge::makers::lists;
use judge::makers::logs::{self, Replay};
use judge::makers::searches::{self, Search};
use judge::makers::{shelf, sketches};
use judge::model::{read, report};
use macaroosh::calls::{self, Answer, NONE, SPENT};
use macaroosh::parts::Parts;
use macaroosh::terms::refusals::{self, Place};
use macaroosh::{check_list, draw, draw_into, first_step, replay, replay_into, run, run_into, search, search_into};
use macaroosh::{to_first, to_first_into, to_second, to_second_into};
use macaroosh::{translate, translate_into, undraw, undraw_into};
use macaroosh::{Configuration, Form, Message, Outcome, Refusal, Refused, Replayed, Run, Searched, Sender, Step};
use macaroosh::{ECHO, MOST_BYTES, MOST_DRAWING, MOST_TABLE, MOST_WORDS};
use std::collections::BTreeSet;
use std::error::Error;
use std::fmt::Debug;

const SEEDS: u64 = 3_000;
const W: &[u8; 31] = include_bytes!("../../examples/w.bundle");
const MAJORITY: &[u8; 58] = include_bytes!("../../examples/majority.table");

// What an answer's numbers say.
fn said(answer: Answer) -> Result<usize, Refusal> {
    match answer {
        Answer { refusal: 0, count, .. } => Ok(count as usize),
        Answer { refusal, place, .. } => Err(Refusal { number: refusal, place }),
    }
}

// Both with memory that is empty, too short by one, exact and long, filled alike: the same answer, and the memory left alike. The
// numbers of the refusals.
fn lent_alike<L: Copy + Debug + PartialEq>(
    exact: usize,
    filled: impl Fn(usize) -> L,
    typed: impl Fn(&mut [L]) -> Result<usize, Refusal>,
    raw: impl Fn(&mut [L]) -> Answer,
) -> Vec<u8> {
    let alike = |length: usize| {
        let mut ours: Vec<L> = (0..length).map(&filled).collect();
        let mut theirs = ours.clone();
        let answer = raw(&mut theirs);
        assert_eq!(typed(&mut ours), said(answer), "{length} lent");
        assert_eq!(ours, theirs, "{length} lent");
        answer.refusal
    };
    [0, exact.saturating_sub(1), exact, exact + 3].map(alike).to_vec()
}

fn byte(i: usize) -> u8 {
    (i * 7 + 3) as u8
}

// The receipts and sends of a run.
fn had(bundle: &[u8], standing: &[u8]) -> (usize, usize) {
    let answer = calls::receipts(bundle, standing, &mut [0; MOST_WORDS]);
    (answer.receipts as usize, answer.sends as usize)
}

// A run by each call; the number of its refusal, and of those of lent memory.
fn runs_alike(bundle: &[u8], standing: &[u8]) -> Vec<u8> {
    let mut words = vec![9; MOST_WORDS];
    let answer = calls::run(bundle, standing, &mut words);
    // Where reading refuses, any length will do.
    let length = read(bundle, standing).map_or(7, |bundle| bundle.start().words().len());
    let left = answer.left_a_configuration().then(|| {
        let configuration = Configuration::of(bundle, standing, &words).expect("a configuration is left");
        assert_eq!(configuration.words(), &words[..length]);
        assert_eq!(Configuration::of(bundle, standing, &words[..length - 1]), None);
        let (receipts, sends) = had(bundle, standing);
        Run { steps: answer.count as usize, receipts, sends, configuration }
    });
    match run(bundle, standing) {
        Ok(ran) => assert_eq!((answer.refusal, Some(ran)), (0, left)),
        Err(Refused { refusal, before }) => assert_eq!((Err(refusal), before), (said(answer), left)),
    }
    let typed = |lent: &mut [u64]| run_into(bundle, standing, lent);
    lent_alike(length, |i| i as u64, typed, |lent| calls::run(bundle, standing, lent))
}

// The translation to each form.
fn translates_alike(bundle: &[u8], standing: &[u8]) -> Vec<u8> {
    let to = |form: Form| {
        let number = u64::from(form.number());
        let mut out = vec![0; bundle.len()];
        let written = said(calls::translate_to(bundle, standing, number, &mut out));
        assert_eq!(translate(bundle, standing, form), written.map(|count| out[..count].to_vec()));
        let typed = |lent: &mut [u8]| translate_into(bundle, standing, form, lent);
        lent_alike(bundle.len(), byte, typed, |lent| calls::translate_to(bundle, standing, number, lent))
    };
    Form::ALL.map(to).concat()
}

// The first step; its sender, if it is given one, by name.
fn first_alike(bundle: &[u8], standing: &[u8]) -> Option<String> {
    let typed = first_step(bundle, standing);
    let record = |step: Step| {
        let form = Form::of_bundle(bundle).expect("a form");
        step.record(form).expect("a record in its bundle's form")
    };
    let raw = calls::first_step(bundle, standing);
    assert_eq!(typed.map(|step| step.map(record)), raw.map(|step| step.map(calls::Step::record)));
    let kind = match typed.ok()? {
        None => "quiet",
        Some(Step { message: None, .. }) => "no message",
        Some(Step { message: Some(Message { from, .. }), .. }) => match from {
            Sender::Board(_) => "a board",
            Sender::Correct => "a correct one",
            Sender::Faulty => "a faulty one",
            Sender::Any => "any",
        },
    };
    Some(kind.to_string())
}

// That each step which the library accepts is a step of its bundle's form.
fn accepted_are_steps(bundle: &[u8], standing: &[u8]) {
    let accepted = calls::run(bundle, standing, &mut [0; MOST_WORDS]).count as usize;
    if let Some(parts) = Parts::of(bundle, standing) {
        for step in parts.steps().take(accepted) {
            let typed = Step::of(step.record(), parts.form);
            assert_eq!(typed.and_then(|step| step.record(parts.form)), Some(step.record()));
        }
    }
}

#[test]
fn bundles_are_answered_as_by_the_raw_calls() {
    let asked = |seed| {
        let (bundle, standing) = case(&mut Dice::new(seed));
        accepted_are_steps(&bundle, &standing);
        let refusals = [runs_alike(&bundle, &standing), translates_alike(&bundle, &standing)].concat();
        (refusals, first_alike(&bundle, &standing))
    };
    let (refusals, firsts): (Vec<_>, Vec<_>) = each_seed(seeds("SEEDS", part_of(SEEDS)), asked).into_iter().unzip();
    let refusals: BTreeSet<u8> = refusals.concat().into_iter().collect();
    // 32 and 33 are of editions, 34 and 35 of searches, 40 is the report program's own, 60 and 61 are of drawings.
    for line in refusals::ALL.iter().filter(|line| line.number < 40 && !matches!(line.number, 32..=35)) {
        assert!(refusals.contains(&line.number), "no bundle was refused with {}: {refusals:?}", line.number);
    }
    let firsts: BTreeSet<String> = firsts.into_iter().flatten().collect();
    for kind in ["quiet", "no message", "a board", "a correct one", "a faulty one", "any"] {
        assert!(firsts.contains(kind), "no first step was: {kind}; {firsts:?}");
    }
}

// A replay by each call; the numbers of its refusals.
fn replays_alike(bundle: &[u8], standing: &[u8], log: &[u8]) -> Vec<u8> {
    let (mut out, mut words) = (vec![7; bundle.len() + MOST_BYTES], vec![9; MOST_WORDS]);
    let answer = calls::replay(bundle, standing, log, &mut out, &mut words);
    let lines = log.iter().filter(|&&byte| byte == b'\n').count();
    let long = bundle.len() + 4 * lines.min(4_096);
    let made = answer.left_a_configuration().then(|| {
        let configuration = Configuration::of(&out[..long], standing, &words).expect("a configuration is left");
        let (receipts, sends) = had(&out[..long], standing);
        let run = Run { steps: answer.count as usize, receipts, sends, configuration };
        Replayed { bundle: out[..long].to_vec(), run }
    });
    match replay(bundle, standing, log) {
        Ok(replayed) => assert_eq!((answer.refusal, Some(replayed)), (0, made)),
        Err(Refused { refusal, before }) => assert_eq!((Err(refusal), before), (said(answer), made)),
    }
    let wide = read(bundle, standing).map_or(7, |bundle| bundle.start().words().len());
    let lengths = |exact: usize| [exact.saturating_sub(1), exact, exact + 3];
    let both = lengths(long).into_iter().flat_map(|bytes| lengths(wide).map(|words| (bytes, words)));
    let alike = |(bytes, words): (usize, usize)| {
        let mut ours: (Vec<u8>, Vec<u64>) = ((0..bytes).map(byte).collect(), (0..words as u64).collect());
        let mut theirs = ours.clone();
        let answer = calls::replay(bundle, standing, log, &mut theirs.0, &mut theirs.1);
        assert_eq!(replay_into(bundle, standing, log, &mut ours.0, &mut ours.1), said(answer));
        assert_eq!(ours, theirs, "{bytes} bytes and {words} words lent");
        answer.refusal
    };
    both.map(alike).collect()
}

#[test]
fn logs_are_answered_as_by_the_raw_call() {
    let asked = |seed| {
        let Replay { bundle, standing, log, .. } = logs::any(&mut Dice::new(seed));
        replays_alike(&bundle, &standing, &log)
    };
    // Some refusals are rare.
    let seeds = seeds("SEEDS", part_of(SEEDS).max(2_100));
    let refusals: BTreeSet<u8> = each_seed(seeds, asked).concat().into_iter().collect();
    let expected: BTreeSet<u8> = (0..=14).chain(20..=27).chain([30, 50, 51, 52]).collect();
    assert_eq!(refusals, expected);
}

// A search by each call, with each length of lent bytes: refusals and outcomes.
fn searches_alike(asked: &Search, budget: u64) -> Vec<(u8, u32)> {
    let Search { bundle, standing, depth, .. } = asked;
    let exact = 4 * (*depth).min(9) as usize;
    let alike = |length: usize| {
        let (mut ours, mut tried) = ((0..length).map(byte).collect::<Vec<u8>>(), 9);
        let mut theirs = ours.clone();
        let answer = calls::search(bundle, standing, *depth, budget, &mut theirs, &mut tried);
        let step =
            |record: &[u8]| Step::of([record[0], record[1], record[2], record[3]], Form::Counting).expect("a step");
        let (counted, found) = match answer.count {
            NONE => (Outcome::None, Outcome::None),
            SPENT => (Outcome::Spent, Outcome::Spent),
            count => {
                let steps = theirs.chunks(4).take(count as usize).map(step).collect();
                (Outcome::Found(count as usize), Outcome::Found(steps))
            }
        };
        let counted = said(answer).map(|_| Searched { outcome: counted, tried });
        assert_eq!(search_into(bundle, standing, *depth, budget, &mut ours), counted, "{length} lent");
        assert_eq!(ours, theirs, "{length} lent");
        // With memory of its own there is always room.
        if answer.refusal != 30 {
            let found = said(answer).map(|_| Searched { outcome: found, tried });
            assert_eq!(search(bundle, standing, *depth, budget), found);
        }
        (answer.refusal, answer.count)
    };
    [exact.saturating_sub(1), exact, exact + 3].map(alike).to_vec()
}

#[test]
fn searches_are_answered_as_by_the_raw_call() {
    let asked = |seed| {
        let dice = &mut Dice::new(seed);
        let search = searches::any(dice);
        searches_alike(&search, dice.below(2_000) as u64)
    };
    let seeds = seeds("SEEDS", part_of(SEEDS).max(1_200));
    let seen: BTreeSet<(u8, u32)> = each_seed(seeds, asked).concat().into_iter().collect();
    let refusals = (1..=14).chain(20..=27).chain([30, 34, 35]).map(|number| (number, 0));
    let outcomes = (0..=8).chain([NONE, SPENT]).map(|outcome| (0, outcome));
    assert_eq!(seen, refusals.chain(outcomes).collect());
}

#[test]
fn lists_are_answered_as_by_the_raw_call() {
    let asked = |seed| {
        let list = lists::any(&mut Dice::new(seed));
        let answer = calls::check_list(&list.bundle, &list.standing, &list.words);
        assert_eq!(check_list(&list.bundle, &list.standing, &list.words), said(answer), "seed {seed}");
        answer.refusal
    };
    let refusals: BTreeSet<u8> = each_seed(seeds("SEEDS", SEEDS), asked).into_iter().collect();
    assert_eq!(refusals, (0..=14).chain(70..=74).collect());
    // Of a list that is no list no place is named, and of one out of order that of the later one.
    let no_list = Refusal { number: 70, place: 0 };
    assert_eq!(no_list.to_string(), format!("refused 70: {}", no_list.reason()));
}

#[test]
fn tables_and_texts_are_answered_as_by_the_raw_calls() {
    let asked = |seed| {
        let dice = &mut Dice::new(seed);
        let (table, text) = (sketches::table(dice), sketches::text(dice));
        let mut out = vec![0; MOST_DRAWING];
        let drawn = said(calls::draw(&table, &mut out)).map(|count| out[..count].to_vec());
        assert_eq!(draw(&table).map(String::into_bytes), drawn);
        let exact = drawn.map_or(7, |drawing| drawing.len());
        let of_draw = lent_alike(exact, byte, |lent| draw_into(&table, lent), |lent| calls::draw(&table, lent));
        let mut out = vec![0; MOST_TABLE];
        let undrawn = said(calls::undraw(&text, &mut out)).map(|count| out[..count].to_vec());
        assert_eq!(undraw(&text), undrawn);
        let exact = undrawn.map_or(7, |table| table.len());
        let of_undraw = lent_alike(exact, byte, |lent| undraw_into(&text, lent), |lent| calls::undraw(&text, lent));
        [of_draw, of_undraw].concat()
    };
    let refusals: BTreeSet<u8> = each_seed(seeds("SEEDS", part_of(SEEDS)), asked).concat().into_iter().collect();
    let expected: BTreeSet<u8> = (0..=9).chain([60, 61]).collect();
    assert_eq!(refusals, expected);
}

// A table in the other edition by each call: with memory of its own, and lent.
fn moves_alike(
    table: &[u8],
    owned: fn(&[u8]) -> Result<Vec<u8>, Refusal>,
    typed: fn(&[u8], &mut [u8]) -> Result<usize, Refusal>,
    raw: fn(&[u8], &mut [u8]) -> Answer,
) -> Vec<u8> {
    let mut out = vec![0; MOST_TABLE];
    let moved = said(raw(table, &mut out)).map(|count| out[..count].to_vec());
    assert_eq!(owned(table), moved);
    lent_alike(moved.map_or(7, |table| table.len()), byte, |lent| typed(table, lent), |lent| raw(table, lent))
}

#[test]
fn editions_are_answered_as_by_the_raw_calls() {
    let asked = |seed| {
        let table = shelf::any(&mut Dice::new(seed));
        let there = moves_alike(&table, to_second, to_second_into, calls::to_second);
        [there, moves_alike(&table, to_first, to_first_into, calls::to_first)].concat()
    };
    let refusals: BTreeSet<u8> = each_seed(seeds("SEEDS", part_of(SEEDS)), asked).concat().into_iter().collect();
    let expected: BTreeSet<u8> = (0..=9).chain([30, 32, 33]).collect();
    assert_eq!(refusals, expected);
}

// The report's lines of a configuration, by its methods alone.
fn lines(left: &Configuration) -> String {
    let (boards, types) = (left.boards() as u8, left.types() as u8);
    let known = |count: Option<u32>| format!(" {}", count.expect("a board and a type that are there"));
    let counts = |board: u8, kind: u8| match left.form() {
        Form::Plain => {
            assert_eq!((left.correct(board, kind), left.faulty(board, kind)), (None, None));
            known(left.received(board, kind))
        }
        Form::Message | Form::Counting => {
            let [correct, faulty] = [left.correct(board, kind), left.faulty(board, kind)];
            assert_eq!(left.received(board, kind), correct.zip(faulty).map(|(correct, faulty)| correct + faulty));
            known(correct) + &known(faulty)
        }
    };
    let board = |board: u8| {
        let counts: String = (0..types).map(|kind| counts(board, kind)).collect();
        format!("p {board} {}{counts}\n", left.state(board).expect("a board that is there"))
    };
    let sent: String = (0..types).map(|kind| known(left.sent(kind))).collect();
    let stopped: u64 = (0..boards).map(|p| u64::from(left.stopped(p).expect("a board that is there")) << p).sum();
    format!("{}sent{sent}\nstopped {stopped}\n", (0..boards).map(board).collect::<String>())
}

#[test]
fn configurations_say_what_the_model_reports() {
    let asked = |seed| {
        let bundle = any(&mut Dice::new(seed));
        let run = run(&bundle, &ECHO).map_or_else(|refused| refused.before, Some);
        let left = run.map(|run| run.configuration);
        let reported = report(&bundle);
        let (_, after_result) = reported.split_once('\n').expect("a line of the result");
        assert_eq!(left.as_ref().map(lines).unwrap_or_default(), after_result, "seed {seed}");
        left.map(|left| left.form().number())
    };
    let forms: BTreeSet<u8> = each_seed(seeds("SEEDS", part_of(SEEDS)), asked).into_iter().flatten().collect();
    assert_eq!(forms.len(), Form::ALL.len(), "a form did not come up: {forms:?}");
}

#[test]
fn what_is_not_there_has_no_count() {
    let left = run(W, &ECHO).expect("a run").configuration;
    assert_eq!((left.form(), left.boards(), left.types()), (Form::Message, 3, 1));
    // Board 3 is faulty, so that it has no state.
    for board in [3, 4, 255] {
        assert_eq!((left.state(board), left.correct(board, 0), left.received(board, 0)), (None, None, None));
        assert_eq!(left.stopped(board), None);
    }
    for kind in [1, 255] {
        assert_eq!((left.faulty(0, kind), left.received(0, kind), left.sent(kind)), (None, None, None));
    }
}

#[test]
fn refusals_display_number_place_and_reason() {
    for line in &refusals::ALL {
        let refusal = Refusal { number: line.number, place: 7 };
        let place = match line.place {
            Place::None => "",
            Place::State => " at state 7",
            Place::Rule => " at rule 7",
            Place::Board => " at board 7",
            Place::Step => " at step 7",
            Place::Byte => " at byte 7",
            Place::Line => " at line 7",
            Place::Configuration => " at configuration 7",
        };
        let expected = format!("refused {}{place}: {}", line.number, line.when);
        let refused: Refused = Refused { refusal, before: None };
        let errors: [Box<dyn Error>; 2] = [Box::new(refusal), Box::new(refused.clone())];
        for error in errors {
            assert_eq!(error.to_string(), expected);
        }
        assert_eq!(refusals::told(refusal), expected);
        assert_eq!(Refusal::from(refused), refusal);
    }
    let unknown = Refusal { number: 99, place: 7 };
    assert_eq!(unknown.to_string(), "refused 99: a number that the outline does not name");
}

#[test]
fn refusals_of_the_calls_are_told() {
    let mut twice = *W;
    twice[22] = 0;
    let refused = run(&twice, &ECHO).expect_err("an echo counts once");
    assert_eq!(refused.to_string(), "refused 24 at step 4: the message is not in transit");
    let before = refused.before.expect("steps were looked at");
    assert_eq!((before.steps, before.configuration.state(2)), (4, Some(2)));
    let told = |refusal: Refusal| refusal.to_string();
    let own = "refused 31: the form asked for is the bundle's own, or there is no such form";
    assert_eq!(translate(W, &ECHO, Form::Message).map_err(told), Err(own.to_string()));
    let few = "refused 30: the lent output is shorter than what is needed";
    assert_eq!(run_into(W, &ECHO, &mut [0; 6]).map_err(told), Err(few.to_string()));
    let other_byte = "refused 60 at byte 3: the text is no drawing; up to there it could be one";
    assert_eq!(undraw("digit").map_err(told), Err(other_byte.to_string()));
    let divides = "refused 32 at rule 2: the rule has a divisor other than 1, which the first edition cannot say";
    assert_eq!(to_first(MAJORITY).map_err(told), Err(divides.to_string()));
    let already = "refused 33: the table is in that edition already";
    assert_eq!(to_second(MAJORITY).map_err(told), Err(already.to_string()));
    assert_eq!(to_first(&ECHO).map_err(told), Err(already.to_string()));
    assert_eq!(run(&[], &ECHO), Err(Refused { refusal: Refusal { number: 10, place: 0 }, before: None }));
    let shape = replay(&without_steps(W), &ECHO, "board 0 rule 3\nboard 00 rule 3\n").expect_err("a leading zero");
    assert_eq!(shape.to_string(), "refused 50 at line 1: the line has another shape, or a number over 254");
    assert_eq!(shape.before, None);
    assert_eq!(replay(W, &ECHO, "").map_err(|refused| refused.refusal.number), Err(52));
}

#[test]
fn a_log_makes_a_bundle_and_its_run() {
    let log = include_str!("../../examples/w.log");
    let replayed = replay(&without_steps(W), &ECHO, log).expect("W");
    assert_eq!((&replayed.bundle[..], &replayed.run), (&W[..], &run(W, &ECHO).expect("W")));
    // The whole bundle, and the run before the line that counts an echo twice.
    let refused = replay(&without_steps(W), &ECHO, log.replace("from 1", "from 0")).expect_err("an echo counts once");
    let before = refused.before.expect("steps were looked at");
    assert_eq!(refused.refusal, Refusal { number: 24, place: 4 });
    assert_eq!((before.bundle.len(), before.run.steps, before.run.configuration.state(2)), (31, 4, Some(2)));
    assert_eq!(run(&before.bundle, &ECHO).expect_err("the same").before, Some(before.run));
    // With lent memory nothing is allocated.
    let (mut out, mut words) = ([0; 31], [0; 8]);
    assert_eq!(replay_into(&without_steps(W), &ECHO, log, &mut out, &mut words), Ok(5));
    assert_eq!((out, words), (*W, [2, 2, 3, 0, 0, 0b1011, 0b111, 0]));
}

#[test]
fn records_of_each_form_are_steps_and_back() {
    for form in Form::ALL {
        for (kind, source) in (0..=255).flat_map(|kind| (0..=255).map(move |source| (kind, source))) {
            let record = [kind ^ 85, source ^ 170, kind, source];
            let of_form = match form {
                Form::Message => source < 255,
                Form::Counting => source < 2,
                Form::Plain => source < 1,
            };
            let silent = (kind, source) == (255, 255);
            let step = Step::of(record, form);
            assert_eq!(step.is_some(), silent || kind < 255 && of_form, "{record:?} in {form:?}");
            if let Some(step) = step {
                assert_eq!((step.board, step.rule, step.message.is_none()), (record[0], record[1], silent));
                assert_eq!(step.record(form), Some(record));
                // A message is of one form alone.
                for other in Form::ALL.into_iter().filter(|&other| other != form) {
                    assert_eq!(step.record(other), if silent { Some(record) } else { None });
                }
            }
        }
    }
}

#[test]
fn steps_of_each_form_are_records_and_back() {
    let senders = (0..=255).map(Sender::Board).chain([Sender::Correct, Sender::Faulty, Sender::Any]);
    let messages = senders.flat_map(|from| [0, 1, 3, 4, 254, 255].map(|kind| Message { kind, from }));
    let steps = messages.map(Some).chain([None]).map(|message| Step { board: 2, rule: 63, message });
    for step in steps {
        let records: Vec<(Form, [u8; 4])> =
            Form::ALL.into_iter().filter_map(|form| step.record(form).map(|record| (form, record))).collect();
        let expected = match step.message {
            None => 3,
            Some(Message { kind: 255, .. } | Message { from: Sender::Board(255), .. }) => 0,
            Some(_) => 1,
        };
        assert_eq!(records.len(), expected, "{step:?}: {records:?}");
        for (form, record) in records {
            assert_eq!(Step::of(record, form), Some(step), "{record:?} in {form:?}");
        }
    }
}
