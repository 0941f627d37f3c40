//! The comparison of replays can fail: each broken variant of the model differs from the library on some seeded log. The first
//! of them break a sentence about lines, then about the bundle and its order among the refusals; the others a whole call.

use judge::compare::compare_replay;
use judge::dice::{each, part_of, Dice};
use judge::logs::LogOutline;
use judge::makers::logs::any;
use judge::model::{read, Bundle, Model};
use judge::{Bench, Library, Replays};
use macaroosh::calls::{Answer, Step};
use macaroosh::{Form, Refusal, MOST_WORDS};

const SEEDS: u64 = 3_000;

// The first seed whose log shows the difference, of so many.
fn caught(broken: &dyn Replays, seeds: u64) -> Option<u64> {
    (1..=seeds).find(|&seed| {
        let dice = &mut Dice::new(seed);
        let replay = any(dice);
        compare_replay(broken, &Library, &replay, dice).is_err()
    })
}

fn refused(number: u8, place: usize) -> Refusal {
    Refusal { number, place: place as u32 }
}

// What another text in the place of a number says.
struct Numbers(fn(&str) -> Option<u8>);

impl LogOutline for Numbers {
    fn number(&self, text: &str) -> Option<u8> {
        (self.0)(text)
    }
}

fn leading_zeros(text: &str) -> Option<u8> {
    let bare = text.trim_start_matches('0');
    Model.number(if bare.is_empty() && !text.is_empty() { "0" } else { bare })
}

fn plus_sign(text: &str) -> Option<u8> {
    Model.number(text.strip_prefix('+').unwrap_or(text))
}

fn up_to_255(text: &str) -> Option<u8> {
    if text == "255" {
        return Some(255);
    }
    Model.number(text)
}

fn up_to_253(text: &str) -> Option<u8> {
    Model.number(text).filter(|&number| number < 254)
}

// 256 is 0.
fn at_8_bits(text: &str) -> Option<u8> {
    let plain = text.bytes().all(|byte| byte.is_ascii_digit()) && !text.starts_with('0');
    let number: Option<u128> = text.parse().ok().filter(|_| plain);
    number.map_or(Model.number(text), |number| Model.number(&(number % 256).to_string()))
}

fn at_64_bits(text: &str) -> Option<u8> {
    match text.parse::<u128>() {
        Ok(number) if number > u128::from(u64::MAX) => Model.number(&(number as u64).to_string()),
        _ => Model.number(text),
    }
}

fn two_digits(text: &str) -> Option<u8> {
    Model.number(text).filter(|&number| number < 100)
}

// No digits are 0.
fn no_digits(text: &str) -> Option<u8> {
    Model.number(if text.is_empty() { "0" } else { text })
}

// What another line says, its line feed left out.
struct Lines(fn(&str) -> Option<Step>);

impl LogOutline for Lines {
    fn said(&self, line: &str) -> Option<Step> {
        (self.0)(line)
    }
}

fn carriage_return(line: &str) -> Option<Step> {
    Model.said(line.strip_suffix('\r').unwrap_or(line))
}

// Any blanks between words, and at the ends.
fn free_blanks(line: &str) -> Option<Step> {
    Model.said(&line.split(' ').filter(|word| !word.is_empty()).collect::<Vec<&str>>().join(" "))
}

fn blank_at_start(line: &str) -> Option<Step> {
    Model.said(line.strip_prefix(' ').unwrap_or(line))
}

fn blank_at_end(line: &str) -> Option<Step> {
    Model.said(line.strip_suffix(' ').unwrap_or(line))
}

fn tabs(line: &str) -> Option<Step> {
    Model.said(&line.replace('\t', " "))
}

fn capitals(line: &str) -> Option<Step> {
    Model.said(&line.to_lowercase())
}

// A type without a sender.
fn type_alone(line: &str) -> Option<Step> {
    Model.said(line).or_else(|| Model.said(&format!("{line} from 0")))
}

fn anything_after(line: &str) -> Option<Step> {
    let words: Vec<&str> = line.split(' ').collect();
    Model.said(line).or_else(|| Model.said(&words.get(..4)?.join(" ")))
}

fn message_left_out(line: &str) -> Option<Step> {
    Model.said(line).map(|step| Step { kind: 255, source: 255, ..step })
}

fn sender_for_type(line: &str) -> Option<Step> {
    Model.said(line).map(|step| Step { kind: step.source, source: step.kind, ..step })
}

// A last piece without a line feed is a line like others.
struct NoLastLineFeed;

impl LogOutline for NoLastLineFeed {
    fn step(&self, piece: &[u8]) -> Option<Step> {
        Model.step(&[piece.strip_suffix(b"\n").unwrap_or(piece), b"\n"].concat())
    }
}

// A last piece without a line feed is not looked at.
struct LastPieceLeft;

impl LogOutline for LastPieceLeft {
    fn pieces<'a>(&self, log: &'a [u8]) -> Vec<&'a [u8]> {
        Model.pieces(log).into_iter().filter(|piece| piece.ends_with(b"\n")).collect()
    }
}

// What comes after the last line feed is a line, also where it is empty.
struct PieceAfterEnd;

impl LogOutline for PieceAfterEnd {
    fn pieces<'a>(&self, log: &'a [u8]) -> Vec<&'a [u8]> {
        let mut pieces = Model.pieces(log);
        if log.is_empty() || log.ends_with(b"\n") {
            pieces.push(&[]);
        }
        pieces
    }
}

// Empty lines are passed over.
struct EmptyLines;

impl LogOutline for EmptyLines {
    fn pieces<'a>(&self, log: &'a [u8]) -> Vec<&'a [u8]> {
        Model.pieces(log).into_iter().filter(|&piece| piece != b"\n").collect()
    }
}

// A line ends with any line end.
struct AnyLineEnd;

impl LogOutline for AnyLineEnd {
    fn pieces<'a>(&self, log: &'a [u8]) -> Vec<&'a [u8]> {
        log.split_inclusive(|byte| b"\n\r".contains(byte)).collect()
    }

    fn step(&self, piece: &[u8]) -> Option<Step> {
        Model.step(&piece.iter().map(|&byte| if byte == b'\r' { b'\n' } else { byte }).collect::<Vec<u8>>())
    }
}

// Line 4,096 is looked at before it is one too many.
struct ShapeFirst;

impl LogOutline for ShapeFirst {
    fn line(&self, i: usize, piece: &[u8]) -> Result<Step, Refusal> {
        let step = self.step(piece).ok_or(refused(50, i))?;
        Model.line(i, piece).map(|_| step)
    }
}

// All lines are counted before one is looked at.
struct CountFirst;

impl LogOutline for CountFirst {
    fn steps(&self, log: &[u8]) -> Result<Vec<Step>, Refusal> {
        if self.pieces(log).len() > 4_096 {
            return Err(refused(51, 4_096));
        }
        Model.steps(log)
    }
}

struct MostLines(usize);

impl LogOutline for MostLines {
    fn most_lines(&self) -> usize {
        self.0
    }
}

// 51 has the number of all lines for its place.
struct PlaceOfLast;

impl LogOutline for PlaceOfLast {
    fn steps(&self, log: &[u8]) -> Result<Vec<Step>, Refusal> {
        let lines = self.pieces(log).len();
        Model.steps(log).map_err(|refusal| if refusal.number == 51 { refused(51, lines) } else { refusal })
    }
}

// Which bundles a log can be replayed over.
struct Begins(fn(&Bundle) -> bool);

impl LogOutline for Begins {
    fn can_begin(&self, bundle: &Bundle) -> bool {
        (self.0)(bundle)
    }
}

// Lines are looked at before the bundle's steps and form.
struct LinesFirst;

impl LogOutline for LinesFirst {
    fn looked_at(&self, bundle: &Bundle, log: &[u8]) -> Result<Vec<Step>, Refusal> {
        let steps = self.steps(log)?;
        Model.looked_at(bundle, log).map(|_| steps)
    }
}

// By how much the distances are raised.
struct Raised(fn(usize) -> [usize; 2]);

impl LogOutline for Raised {
    fn raised(&self, lines: usize) -> [usize; 2] {
        (self.0)(lines)
    }
}

// The steps stand before the starts.
struct StepsFirst;

impl LogOutline for StepsFirst {
    fn with_steps(&self, bytes: &[u8], steps: &[Step]) -> Vec<u8> {
        let made = Model.with_steps(bytes, steps);
        let starts = usize::from(bytes[bytes.len() - 4] - bytes[bytes.len() - 2]);
        let front = bytes.len() - 8 - starts;
        let records = &made[front + starts..made.len() - 8];
        [&made[..front], records, &bytes[front..front + starts], &made[made.len() - 8..]].concat()
    }
}

// What is replayed over what.
#[derive(Clone, Copy)]
struct Asked<'a> {
    bundle: &'a [u8],
    standing: &'a [u8],
    log: &'a [u8],
}

impl Asked<'_> {
    // What the model does.
    fn replayed(self, out: &mut [u8], words: &mut [u64]) -> Answer {
        Model.replay(self.bundle, self.standing, self.log, out, words)
    }

    // The same with as many of the log's first lines.
    fn first(self, lines: u32, out: &mut [u8], words: &mut [u64]) -> Answer {
        let log = &Model.pieces(self.log)[..lines as usize].concat();
        Asked { log, ..self }.replayed(out, words)
    }

    // The bundle that is written, and how many words it needs; nothing where it is refused.
    fn made(self) -> (Vec<u8>, usize) {
        Model.made(self.bundle, self.standing, self.log).unwrap_or_default()
    }
}

// The model, but for what a call does.
struct But(Call);

type Call = fn(Asked, &mut [u8], &mut [u64]) -> Answer;

impl Replays for But {
    fn replay(&self, bundle: &[u8], standing: &[u8], log: &[u8], out: &mut [u8], words: &mut [u64]) -> Answer {
        (self.0)(Asked { bundle, standing, log }, out, words)
    }
}

fn refuses_all(_: Asked, _: &mut [u8], _: &mut [u64]) -> Answer {
    Answer { refusal: 10, place: 0, count: 0 }
}

// 52 by the last byte, before anything is read.
fn form_first(asked: Asked, out: &mut [u8], words: &mut [u64]) -> Answer {
    if asked.bundle.last().map_or(false, |&form| form != 0) {
        return Answer { refusal: 52, place: 0, count: 0 };
    }
    asked.replayed(out, words)
}

// The bundle is written before the words' room is looked at.
fn written_before_30(asked: Asked, out: &mut [u8], words: &mut [u64]) -> Answer {
    let answer = asked.replayed(out, words);
    if answer.refusal == 30 {
        asked.replayed(out, &mut [0; MOST_WORDS]);
    }
    answer
}

// It is run before the bytes' room is looked at.
fn run_before_30(asked: Asked, out: &mut [u8], words: &mut [u64]) -> Answer {
    let answer = asked.replayed(out, words);
    if answer.refusal == 30 {
        Model.run(&asked.made().0, asked.standing, words);
    }
    answer
}

// The words' room is not looked at: as many as there are get theirs.
fn any_words(asked: Asked, out: &mut [u8], words: &mut [u64]) -> Answer {
    let mut enough = words.to_vec();
    enough.resize(words.len() + MOST_WORDS, 0);
    let answer = asked.replayed(out, &mut enough);
    words.copy_from_slice(&enough[..words.len()]);
    answer
}

// The bytes' room is that of the bundle without its steps.
fn any_bytes(asked: Asked, out: &mut [u8], words: &mut [u64]) -> Answer {
    let made = asked.made().0;
    if !(asked.bundle.len()..made.len()).contains(&out.len()) {
        return asked.replayed(out, words);
    }
    out.copy_from_slice(&made[..out.len()]);
    Model.run(&made, asked.standing, words)
}

// The room is looked at before the lines are.
fn room_first(asked: Asked, out: &mut [u8], words: &mut [u64]) -> Answer {
    let answer = asked.replayed(out, words);
    if [50, 51].contains(&answer.refusal) && out.len() < asked.bundle.len() {
        return Answer { refusal: 30, place: 0, count: 0 };
    }
    answer
}

// Lines are run as they are read, so that a refused step hides a wrong line after it.
fn run_as_read(asked: Asked, out: &mut [u8], words: &mut [u64]) -> Answer {
    let answer = asked.replayed(out, words);
    if answer.refusal == 50 {
        let ran = asked.first(answer.place, &mut out.to_vec(), &mut words.to_vec());
        if (20..30).contains(&ran.refusal) {
            return asked.first(answer.place, out, words);
        }
    }
    answer
}

// Answers as it should, and writes nothing, or leaves no words.
fn idle(asked: Asked, out: &mut [u8], words: &mut [u64]) -> Answer {
    asked.replayed(&mut out.to_vec(), words)
}

fn no_words(asked: Asked, out: &mut [u8], words: &mut [u64]) -> Answer {
    asked.replayed(out, &mut words.to_vec())
}

// Writes only a bundle that runs to its end.
fn written_where_it_runs(asked: Asked, out: &mut [u8], words: &mut [u64]) -> Answer {
    let mut made = out.to_vec();
    let answer = asked.replayed(&mut made, words);
    if answer.refusal == 0 {
        out.copy_from_slice(&made);
    }
    answer
}

// Of a refused step's bundle only the accepted steps are written.
fn written_up_to_there(asked: Asked, out: &mut [u8], words: &mut [u64]) -> Answer {
    let answer = asked.replayed(&mut out.to_vec(), words);
    match answer.refusal {
        20..=29 => asked.first(answer.place, out, words),
        _ => asked.replayed(out, words),
    };
    answer
}

// Writes the schedule and leaves out the table.
fn without_front(asked: Asked, out: &mut [u8], words: &mut [u64]) -> Answer {
    let before = out.to_vec();
    let answer = asked.replayed(out, words);
    if answer.left_a_configuration() {
        let starts = read(asked.bundle, asked.standing).map_or(0, |bundle| bundle.correct());
        let front = asked.bundle.len() - 8 - starts;
        out[..front].copy_from_slice(&before[..front]);
    }
    answer
}

// Clears the byte or the word past those needed.
fn past_the_bytes(asked: Asked, out: &mut [u8], words: &mut [u64]) -> Answer {
    let answer = asked.replayed(out, words);
    if answer.left_a_configuration() {
        out[asked.made().0.len()..].iter_mut().take(1).for_each(|byte| *byte = 0);
    }
    answer
}

fn past_the_words(asked: Asked, out: &mut [u8], words: &mut [u64]) -> Answer {
    let answer = asked.replayed(out, words);
    if answer.left_a_configuration() {
        words[asked.made().1..].iter_mut().take(1).for_each(|word| *word = 0);
    }
    answer
}

// The count of bytes, as translation gives it.
fn counts_bytes(asked: Asked, out: &mut [u8], words: &mut [u64]) -> Answer {
    let answer = asked.replayed(out, words);
    Answer { count: if answer.refusal == 0 { asked.made().0.len() as u32 } else { answer.count }, ..answer }
}

fn place_lost(asked: Asked, out: &mut [u8], words: &mut [u64]) -> Answer {
    let answer = asked.replayed(out, words);
    Answer { place: if answer.refusal == 50 { 0 } else { answer.place }, ..answer }
}

// Lines from 1.
fn place_from_1(asked: Asked, out: &mut [u8], words: &mut [u64]) -> Answer {
    let answer = asked.replayed(out, words);
    Answer { place: answer.place + u32::from(answer.refusal == 50), ..answer }
}

// A line's refusal counts the lines before it.
fn counts_lines(asked: Asked, out: &mut [u8], words: &mut [u64]) -> Answer {
    let answer = asked.replayed(out, words);
    Answer { count: if answer.refusal == 50 { answer.place } else { answer.count }, ..answer }
}

#[test]
fn every_broken_replay_is_caught() {
    let broken: [(&str, &(dyn Replays + Sync)); 55] = [
        ("a leading zero", &Numbers(leading_zeros)),
        ("a plus sign", &Numbers(plus_sign)),
        ("255", &Numbers(up_to_255)),
        ("not 254", &Numbers(up_to_253)),
        ("256 is 0", &Numbers(at_8_bits)),
        ("2^64 is 0", &Numbers(at_64_bits)),
        ("no third digit", &Numbers(two_digits)),
        ("no digits", &Numbers(no_digits)),
        ("carriage returns", &Lines(carriage_return)),
        ("blanks are free", &Lines(free_blanks)),
        ("a blank at the start", &Lines(blank_at_start)),
        ("a blank at the end", &Lines(blank_at_end)),
        ("tabs", &Lines(tabs)),
        ("capitals", &Lines(capitals)),
        ("a type alone", &Lines(type_alone)),
        ("anything after a rule", &Lines(anything_after)),
        ("no messages", &Lines(message_left_out)),
        ("type and sender exchanged", &Lines(sender_for_type)),
        ("a last piece without line feed", &NoLastLineFeed),
        ("a last piece left", &LastPieceLeft),
        ("an empty piece after the end", &PieceAfterEnd),
        ("empty lines", &EmptyLines),
        ("any line end", &AnyLineEnd),
        ("50 before 51 on line 4,096", &ShapeFirst),
        ("51 before every 50", &CountFirst),
        ("4,095 lines at most", &MostLines(4_095)),
        ("4,097 lines at most", &MostLines(4_097)),
        ("51 at the last line", &PlaceOfLast),
        ("a bundle with steps", &Begins(|bundle| bundle.form == Form::Message)),
        ("a bundle in another form", &Begins(|bundle| bundle.steps.is_empty())),
        ("no 52 in plain form", &Begins(|b| b.steps.is_empty() && b.form != Form::Counting)),
        ("52 after 50", &LinesFirst),
        ("the first distance not raised", &Raised(|lines| [0, 4 * lines])),
        ("the second distance not raised", &Raised(|lines| [4 * lines, 0])),
        ("the distances raised by a byte's worth", &Raised(|lines| [4 * lines % 256; 2])),
        ("steps before the starts", &StepsFirst),
        ("refuses everything", &But(refuses_all)),
        ("52 before reading", &But(form_first)),
        ("written before 30", &But(written_before_30)),
        ("run before 30", &But(run_before_30)),
        ("too few words", &But(any_words)),
        ("too few bytes", &But(any_bytes)),
        ("30 before 50", &But(room_first)),
        ("a step before a later line", &But(run_as_read)),
        ("an idle body", &But(idle)),
        ("no words left", &But(no_words)),
        ("written only where it runs", &But(written_where_it_runs)),
        ("written up to the refused step", &But(written_up_to_there)),
        ("the table left out", &But(without_front)),
        ("writes past the bytes", &But(past_the_bytes)),
        ("writes past the words", &But(past_the_words)),
        ("bytes counted", &But(counts_bytes)),
        ("a wrong line's place lost", &But(place_lost)),
        ("lines from 1", &But(place_from_1)),
        ("lines before a wrong one counted", &But(counts_lines)),
    ];
    each(&broken, |&(name, broken)| {
        let seed = caught(broken, SEEDS).unwrap_or_else(|| panic!("not caught: {name}"));
        println!("{name}: seed {seed}");
    });
}

#[test]
fn a_sound_replay_is_not_caught() {
    let sound = But(|asked, out, words| asked.replayed(out, words));
    assert_eq!(caught(&sound, part_of(SEEDS)), None);
}
