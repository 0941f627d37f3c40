//! What one step costs, whatever the number of boards: pairs of bundles that differ by their last step only, and the words
//! that a step writes. The model has accepted every step.

use crate::makers::bundles::{closed, in_form, little_endian};
use crate::model::{read, Bundle, Edition, Model, Outline};
use macaroosh::calls::Step;
use macaroosh::{Form, ECHO};

/// The numbers of correct boards that are measured.
pub const BOARDS: [usize; 3] = [1, 16, 64];

/// The kinds of step: without a message and without a change; with a message; with a new type sent; with both.
pub const KINDS: [&str; 4] = ["wait", "receipt", "send", "both"];

/// Two bundles that differ by a last step.
pub struct Pair {
    /// Their form.
    pub form: Form,
    /// How many types of message there are: 1 or 4.
    pub types: usize,
    /// The last step's kind, of `KINDS`.
    pub kind: &'static str,
    /// How many boards are correct, of `BOARDS`.
    pub correct: usize,
    /// The bundles without and with that step.
    pub bundles: [Vec<u8>; 2],
    /// The words that it changes, by their places.
    pub places: Vec<usize>,
    /// How many stores the run without it makes after its words are cleared, where each start is placed once and each step stores
    /// those that it has to do with.
    pub stores: usize,
}

/// All pairs: for each form, number of types and kind, one for each number of boards in turn.
pub fn growth() -> Vec<Pair> {
    let mut pairs = Vec::new();
    for form in Form::ALL {
        for types in [1, 4] {
            for kind in KINDS {
                pairs.extend(BOARDS.map(|correct| pair(form, types, kind, correct)));
            }
        }
    }
    pairs
}

/// Where the words are that a step changes, by the outline's order of words: the last, where it is a stop; else the state of its
/// board where the rule leads to another, the word of a cell that its source changes, the sent word of the type that its rule sends.
pub fn places(bundle: &Bundle, step: Step) -> Vec<usize> {
    let (p, m, q) = (usize::from(step.board), usize::from(step.kind), usize::from(step.source));
    let (correct, types) = (bundle.correct(), bundle.table.types);
    let wide = bundle.form.wide();
    let rule = match bundle.rule(step) {
        Some(rule) => rule,
        None => return vec![correct + wide * types * correct + types],
    };
    let mut places = if rule.from == rule.to { Vec::new() } else { vec![p] };
    if !step.silent() {
        places.push(correct + wide * (types * p + m) + if bundle.form == Form::Counting { q } else { 0 });
    }
    if let Some(sent) = bundle.sends(rule) {
        places.push(correct + wide * types * correct + sent);
    }
    places
}

// The last board has waited once, since the first step of a run takes what the others share; and it has heard all the others'
// messages of type 0, but for one where the last step needs it. What it hears in its last step is its own message, if it has
// sent that; or else another's; or, where it is alone, that of a faulty board.
fn pair(form: Form, types: usize, kind: &'static str, correct: usize) -> Pair {
    let last = correct as u8 - 1;
    let quiet = |board, rule| Step { board, rule, kind: 255, source: 255 };
    // With one type, sending it is the step that is measured, but for the receipt of one's own.
    let told = types > 1 || kind == "receipt";
    let heard_last = if told { last } else { 0 };
    let hears = kind == "receipt" || kind == "both";
    let mut steps = vec![quiet(last, STAYS)];
    steps.extend((0..last).map(|board| quiet(board, SENDS)));
    if told {
        steps.push(quiet(last, SENDS));
    }
    let stays = if told { STAYS_AFTER } else { STAYS };
    let others = (0..last).filter(|&source| !(hears && source == heard_last));
    steps.extend(others.map(|source| Step { kind: 0, source, ..quiet(last, stays) }));
    let rule = match kind {
        "wait" | "receipt" => stays,
        _ if told => SENDS_MORE,
        _ => SENDS,
    };
    let alone = hears && !told && correct == 1;
    let (kind_heard, source) = match (hears, alone) {
        (false, _) => (255, 255),
        (true, false) => (0, heard_last),
        (true, true) => (0, 1),
    };
    steps.push(Step { kind: kind_heard, source, ..quiet(last, rule) });

    let faulty = u8::from(alone);
    let numbers = [correct as u8 + faulty, faulty, faulty, 0];
    let before = [table(types), vec![0; correct]].concat();
    let bundles = [&steps[..steps.len() - 1], &steps]
        .map(|steps| in_form(&Model, &closed(&before, steps, correct, numbers), form));
    let whole = read(&bundles[1], &ECHO).expect("a bundle");
    let (_, refusal) = Model.run_steps(&whole);
    assert_eq!(refusal, None, "{kind} of {correct} boards with {types} types");
    let mut of_steps: Vec<Vec<usize>> = whole.steps.iter().map(|&step| places(&whole, step)).collect();
    let places = of_steps.pop().expect("a step");
    let stores = correct + of_steps.concat().len();
    Pair { form, types, kind, correct, bundles, places, stores }
}

// The rules by number: a board that has sent nothing stays or sends type 0; one that has stays, or sends the last of several.
const STAYS: u8 = 0;
const SENDS: u8 = 1;
const STAYS_AFTER: u8 = 2;
const SENDS_MORE: u8 = 3;

// A table part with those rules, of k = 1; every threshold is 0, so that all are looked at. One type is of the first edition and
// several are of the second, since a step costs the same in both.
fn table(types: usize) -> Vec<u8> {
    let edition = if types > 1 { Edition::Second } else { Edition::First };
    let nothing_asked: &[u8] = if types > 1 { &[0, 0, 0, 8] } else { &[0, 0, 0] };
    let mut states = vec![[1, 0], [0, 1]];
    let mut ends = vec![[0, 0], [0, 1], [1, 1]];
    if types > 1 {
        states.push([0, 1 | 1 << (types - 1)]);
        ends.push([1, 2]);
    }
    let rules: Vec<u8> = ends.iter().flat_map(|&ends| [ends.to_vec(), nothing_asked.repeat(types)].concat()).collect();
    let distances = [little_endian(2 * states.len() + rules.len()), little_endian(rules.len())].concat();
    let counts = [states.len(), ends.len(), edition.types_byte(types), 1].map(|count| count as u8);
    [&states.concat(), &rules, &distances, &counts[..]].concat()
}
