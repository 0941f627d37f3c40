use macaroosh::{check_list, draw, first_step, replay, run, run_into, search, to_first, to_second, translate, undraw};
use macaroosh::{Form, Message, Outcome, Refusal, Sender, Step, ECHO, MOST_WORDS};

fn main() -> Result<(), Refusal> {
    // Schedule W of the outline: three correct boards and a faulty one, read beside the echo table.
    let w = [1, 1, 1, 0, 3, 255, 255, 1, 3, 255, 255, 2, 3, 0, 0, 2, 4, 0, 3, 2, 5, 0, 1, 20, 0, 23, 0, 4, 1, 1, 0];

    // Board 2 has two echoes (type 0) of correct boards and one of a faulty board, and accepts in state 3. Three steps receive an echo
    // and three send one, of which one does both; no run of these boards has over 12 receipts or 3 sends.
    let ran = run(&w, &ECHO)?;
    assert_eq!((ran.steps, ran.receipts, ran.sends), (5, 3, 3));
    let left = ran.configuration;
    assert_eq!((left.state(2), left.correct(2, 0), left.faulty(2, 0)), (Some(3), Some(2), Some(1)));
    assert_eq!(left.sent(0), Some(3));

    // Then the first possible step is that board 0 hears its own echo by rule 4.
    let own = Message { kind: 0, from: Sender::Board(0) };
    assert_eq!(first_step(&w, &ECHO)?, Some(Step { board: 0, rule: 4, message: Some(own) }));

    // If the last echo is board 0's once more, that step is refused. The error has the run of the steps before it.
    let mut twice = w;
    twice[22] = 0;
    let refused = run(&twice, &ECHO).unwrap_err();
    assert_eq!(refused.to_string(), "refused 24 at step 4: the message is not in transit");
    assert_eq!(refused.before.map(|run| (run.steps, run.receipts, run.sends)), Some((4, 2, 3)));

    // W in plain form: as many messages, and no word of who sent them.
    let plain = translate(&w, &ECHO, Form::Plain)?;
    let left = run(&plain, &ECHO)?.configuration;
    assert_eq!((left.received(2, 0), left.correct(2, 0)), (Some(3), None));

    // W without its steps, and its log: the lines become the steps. A line that counts an echo twice is refused, and the error has
    // the bundle and the run of the lines before it.
    let empty = [1, 1, 1, 0, 0, 3, 0, 4, 1, 1, 0];
    let heard = "board 2 rule 3 type 0 from 0\nboard 2 rule 4 type 0 from 3\n";
    let log = format!("board 0 rule 3\nboard 1 rule 3\n{heard}board 2 rule 5 type 0 from 1\n");
    let replayed = replay(&empty, &ECHO, &log)?;
    assert_eq!((&replayed.bundle[..], replayed.run), (&w[..], run(&w, &ECHO)?));
    let refused = replay(&empty, &ECHO, log.replace("from 1", "from 0")).unwrap_err();
    assert_eq!(refused.refusal, Refusal { number: 24, place: 4 });
    assert_eq!(refused.before.map(|made| (made.bundle, made.run.steps)), Some((twice.to_vec(), 4)));

    // The same start in counting form: with five steps more, the first that a search finds, board 0 accepts. From boards without an
    // echo to send there are no three steps that do, of 540 that were tried.
    let mut counting = empty;
    counting[10] = 1;
    let found = search(&counting, &ECHO, 5, 1_000)?;
    let last = Message { kind: 0, from: Sender::Correct };
    match found.outcome {
        Outcome::Found(steps) => assert_eq!(steps[4], Step { board: 0, rule: 5, message: Some(last) }),
        other => panic!("{other:?}"),
    }
    assert_eq!(found.tried, 76);
    counting[..3].copy_from_slice(&[0, 0, 0]);
    let none = search(&counting, &ECHO, 3, 1_000)?;
    assert_eq!((none.outcome, none.tried), (Outcome::None, 540));

    // All that these boards come to, by themselves and by what the faulty one sends: each has heard it or not. No step leads out of the
    // list and no board in it accepts, so that none ever does. Without the last configuration a step leads there from the fourth.
    let all: Vec<u64> = (0..8).flat_map(|set| [0, 0, 0, 0, set >> 2, 0, set >> 1 & 1, 0, set & 1, 0, 0]).collect();
    assert_eq!(check_list(&counting, &ECHO, &all)?, 8);
    assert_eq!(check_list(&counting, &ECHO, &all[..77]), Err(Refusal { number: 73, place: 3 }));

    // The echo table as a drawing, and back.
    let drawing = draw(&ECHO)?;
    assert!(drawing.starts_with("digraph t {\nT=1; k=3;\ns0 [label=\"1 0\"];\n"));
    assert_eq!(undraw(&drawing)?, ECHO);

    // The echo table in the second edition, where each rule has a divisor, 1. W runs the same on both, and back it is the same.
    let second = to_second(&ECHO)?;
    assert_eq!((second.len(), run(&w, &second)?), (58, run(&w, &ECHO)?));
    assert_eq!(to_first(&second)?, ECHO);

    // Of four boards of which one may fail, board 0 stops, and its next step is refused.
    let stops = [1, 1, 1, 1, 0, 254, 255, 255, 4, 0, 8, 0, 4, 1, 0, 0];
    let left = run(&stops, &ECHO)?.configuration;
    assert_eq!((left.stopped(0), left.stopped(1), left.stopped(4)), (Some(true), Some(false), None));
    let log = "board 0 rule 254\nboard 0 rule 3\n";
    let refused = replay(&[1, 1, 1, 1, 0, 0, 4, 0, 4, 1, 0, 0], &ECHO, log).unwrap_err();
    assert_eq!(refused.to_string(), "refused 26 at step 1: the board is stopped");

    // With lent memory nothing is allocated; in message form a word is a set of senders, and the last is the set of stopped boards.
    let mut words = [0; MOST_WORDS];
    assert_eq!(run_into(&w, &ECHO, &mut words)?, 5);
    assert_eq!(words[..8], [2, 2, 3, 0, 0, 0b1011, 0b111, 0]);
    Ok(())
}
