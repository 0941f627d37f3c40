//! Drawings: the text to the byte, every beginning, every gap, stray bytes; and the library against the model on seeded tables
//! and texts, every lent byte. `DRAWINGS=n` tries more than 2,000 of each.

use judge::compare::{compare_draw, compare_undraw};
use judge::dice::{bytes_at, each_seed, part_of, seeds, Dice};
use judge::drawings::{Drawing, Text};
use judge::makers::sketches;
use judge::model::{read_table, Coefficients, Edition, Model, Rule};
use judge::{Draws, Library};
use macaroosh::calls::Answer;
use macaroosh::{ECHO, MOST_DRAWING, MOST_TABLE};
use std::collections::BTreeSet;

const DRAWERS: [(&str, &dyn Draws); 2] = [("model", &Model), ("library", &Library)];

const ECHO_DRAWN: &str = "digraph t {
T=1; k=3;
s0 [label=\"1 0\"];
s1 [label=\"1 0\"];
s2 [label=\"0 1\"];
s3 [label=\"2 1\"];
s0 -> s0 [label=\"0 0 0\"];
s0 -> s2 [label=\"0 1 1\"];
s0 -> s3 [label=\"1 -1 0\"];
s1 -> s2 [label=\"0 0 0\"];
s2 -> s2 [label=\"0 0 0\"];
s2 -> s3 [label=\"1 -1 0\"];
s3 -> s3 [label=\"0 0 0\"];
}
";

const MAJORITY: &[u8; 58] = include_bytes!("../../examples/majority.table");

const MAJORITY_DRAWN: &str = "digraph t {
T=17; k=3;
s0 [label=\"1 0\"];
s1 [label=\"1 0\"];
s2 [label=\"0 1\"];
s3 [label=\"2 1\"];
s0 -> s0 [label=\"0 0 0 1\"];
s0 -> s2 [label=\"0 1 1 1\"];
s0 -> s3 [label=\"1 1 1 2\"];
s1 -> s2 [label=\"0 0 0 1\"];
s2 -> s2 [label=\"0 0 0 1\"];
s2 -> s3 [label=\"1 1 1 2\"];
s3 -> s3 [label=\"0 0 0 1\"];
}
";

// What was written to so many lent bytes, or the refusal and its place; no other byte changes.
#[track_caller]
fn written(room: usize, call: impl Fn(&mut [u8]) -> Answer) -> Result<Vec<u8>, (u8, u32)> {
    let mut lent = vec![0xAA; room];
    let Answer { refusal, place, count } = call(&mut lent);
    let past = lent.split_off(count as usize);
    assert!(past.iter().all(|&byte| byte == 0xAA), "{} bytes past {count} of {room}", past.len());
    if refusal == 0 {
        assert_eq!(place, 0);
        Ok(lent)
    } else {
        assert_eq!(count, 0);
        Err((refusal, place))
    }
}

#[track_caller]
fn drawn(who: &dyn Draws, table: &[u8]) -> Result<Vec<u8>, (u8, u32)> {
    written(MOST_DRAWING + 1, |lent| who.draw(table, lent))
}

#[track_caller]
fn undrawn(who: &dyn Draws, text: &[u8]) -> Result<Vec<u8>, (u8, u32)> {
    written(MOST_TABLE + 1, |lent| who.undraw(text, lent))
}

// The tokens without a blank but for the one that is needed, and a blank more in one gap.
fn close_set(tokens: &[String], gap: usize, blank: &str) -> String {
    let mut text = if gap == 0 { blank.to_string() } else { String::new() };
    for (i, token) in tokens.iter().enumerate() {
        text += token;
        text += if token == "digraph" { " " } else { "" };
        text += if gap == i + 1 { blank } else { "" };
    }
    text
}

#[test]
fn the_echo_table_is_drawn_to_the_byte() {
    assert_eq!(include_str!("../../examples/echo.dot"), ECHO_DRAWN);
    assert_eq!(include_bytes!("../../examples/echo.table"), &ECHO);
    for (who, drawer) in DRAWERS {
        assert_eq!(drawn(drawer, &ECHO), Ok(ECHO_DRAWN.as_bytes().to_vec()), "{who}");
        assert_eq!(undrawn(drawer, ECHO_DRAWN.as_bytes()), Ok(ECHO.to_vec()), "{who}");
    }
}

#[test]
fn a_table_of_the_second_edition_is_drawn_to_the_byte() {
    for (who, drawer) in DRAWERS {
        assert_eq!(drawn(drawer, MAJORITY), Ok(MAJORITY_DRAWN.as_bytes().to_vec()), "{who}");
        assert_eq!(undrawn(drawer, MAJORITY_DRAWN.as_bytes()), Ok(MAJORITY.to_vec()), "{who}");
    }
}

// A drawing with so many states and rules; every number is as long as it can be in a table.
fn wide(states: usize, rules: usize, types_byte: usize, factor: usize) -> Drawing {
    let (edition, types) = Edition::of(types_byte);
    let mut all = vec![[2, (1u32 << types.min(4)) as u8 - 1]; states];
    if let Some(state) = all.get_mut(0) {
        *state = [3, 0];
    }
    let last = states.max(1) - 1;
    let e = if edition == Edition::Second { 8 } else { 1 };
    let rule = Rule { from: last, to: last, coefficients: vec![Coefficients::over(e, [-128; 3]); types] };
    Drawing { types_byte, factor, states: all, rules: vec![rule; rules] }
}

#[test]
fn the_longest_drawings() {
    let cases = [(4, "-128 -128 -128", 5_773, 936), (20, "-128 -128 -128 8", MOST_DRAWING, MOST_TABLE)];
    assert_eq!((MOST_DRAWING, MOST_TABLE), (6_286, 1_192));
    for (types_byte, group, longest, bytes) in cases {
        let table = wide(16, 64, types_byte, 8).bytes();
        assert_eq!(table.len(), bytes);
        for (who, drawer) in DRAWERS {
            let text = drawn(drawer, &table).expect("a drawing");
            assert_eq!(text.len(), longest, "{who}");
            let text = String::from_utf8(text).expect("text");
            assert_eq!(text.lines().nth(1), Some(&*format!("T={types_byte}; k=8;")), "{who}");
            assert_eq!(text.lines().nth(17), Some("s15 [label=\"2 15\"];"), "{who}");
            let label = [group; 4].join(", ");
            assert_eq!(text.lines().nth(81), Some(&*format!("s15 -> s15 [label=\"{label}\"];")), "{who}");
        }
    }
}

#[test]
fn limits_pass_and_one_more_does_not() {
    for (who, drawer) in DRAWERS {
        let inside = [
            wide(16, 64, 4, 8),
            wide(16, 64, 20, 8),
            wide(1, 1, 1, 1),
            wide(1, 1, 17, 1),
            wide(16, 1, 4, 1),
            wide(16, 1, 20, 1),
            wide(1, 64, 1, 8),
            wide(1, 64, 17, 8),
        ];
        for drawing in &inside {
            let (text, table) = (Model.text(drawing).into_bytes(), drawing.bytes());
            assert_eq!(drawn(drawer, &table).as_ref(), Ok(&text), "{who}");
            assert_eq!(undrawn(drawer, &text).as_ref(), Ok(&table), "{who}");
        }
        let outside = [
            wide(17, 64, 4, 8),
            wide(16, 65, 4, 8),
            wide(16, 64, 5, 8),
            wide(16, 64, 4, 9),
            wide(0, 1, 1, 1),
            wide(1, 0, 1, 1),
            wide(1, 1, 0, 1),
            wide(1, 1, 1, 0),
            wide(0, 0, 0, 0),
            wide(255, 0, 255, 255),
            // 257 would be 1 in a byte.
            wide(256, 257, 1, 1),
            wide(1, 257, 1, 1),
            wide(1, 1_000, 255, 1),
            wide(16, 65, 20, 8),
            wide(17, 64, 20, 8),
        ];
        let types_bytes = (0..=255).filter(|types_byte| !matches!(types_byte, 1..=4 | 17..=20));
        for drawing in outside.into_iter().chain(types_bytes.map(|types_byte| wide(1, 1, types_byte, 1))) {
            let counts = [drawing.states.len(), drawing.rules.len(), drawing.types_byte, drawing.factor];
            assert_eq!(undrawn(drawer, Model.text(&drawing).as_bytes()), Err((2, 0)), "{who}: {counts:?}");
        }
    }
}

#[test]
fn every_beginning_goes_on() {
    let tokens = sketches::tokens(ECHO_DRAWN);
    let largest = Model.text(&wide(16, 64, 20, 8));
    for text in [ECHO_DRAWN, MAJORITY_DRAWN, &close_set(&tokens, 3, " \r\n\t"), &largest] {
        let whole = text.find('}').expect("the end") + 1;
        // Where it is emulated, every eighth of the largest.
        let step = if text == largest { 8 / part_of(8) } else { 1 };
        for (who, drawer) in DRAWERS {
            for length in (0..whole).step_by(step as usize) {
                let got = undrawn(drawer, &text.as_bytes()[..length]);
                assert_eq!(got, Err((60, length as u32)), "{who}: {}", &text[..length]);
            }
            for length in whole..=text.len() {
                assert_eq!(undrawn(drawer, &text.as_bytes()[..length]), undrawn(drawer, text.as_bytes()), "{who}");
            }
        }
    }
}

#[test]
fn blanks_may_stand_in_every_gap_and_nowhere_else() {
    blanks_may_stand(ECHO_DRAWN, &ECHO);
    blanks_may_stand(MAJORITY_DRAWN, MAJORITY);
}

fn blanks_may_stand(drawing: &str, table: &[u8]) {
    let tokens = sketches::tokens(drawing);
    assert_eq!(tokens.len(), 12 + 4 * 7 + 7 * 9);
    for (who, drawer) in DRAWERS {
        for gap in 0..=tokens.len() {
            for blank in ["", " ", "\t", "\n", "\r", "\r\n", " \t\n\r  \r\n\t"] {
                let text = close_set(&tokens, gap, blank);
                assert_eq!(undrawn(drawer, text.as_bytes()), Ok(table.to_vec()), "{who}: {text}");
            }
        }
        // Inside a token; a space would be right in a label now and then.
        for (i, token) in tokens.iter().enumerate() {
            for (inside, blank) in (1..token.len()).flat_map(|inside| [(inside, "\t"), (inside, "\n"), (inside, "\r")])
            {
                let mut tokens = tokens.clone();
                // A number that is cut in two is one up to the blank, and goes on no further.
                let number = token.bytes().all(|byte| byte.is_ascii_digit());
                let place = close_set(&tokens[..i], 0, "").len() + inside + usize::from(number);
                tokens[i].insert_str(inside, blank);
                let text = close_set(&tokens, 0, "");
                assert_eq!(undrawn(drawer, text.as_bytes()), Err((60, place as u32)), "{who}: {text}");
            }
        }
    }
}

// Each is wrong from its mark on.
const WRONG: [&str; 91] = [
    "^",
    "^x",
    "^Digraph t{T=1;k=3;}",
    " \t\r\n^graph t{T=1;k=3;}",
    "di^ graph t{T=1;k=3;}",
    "digraph^",
    "digraph^t{T=1;k=3;}",
    "digraph^{T=1;k=3;}",
    "digraph \n^",
    "digraph ^echo {T=1;k=3;}",
    "digraph t^t{T=1;k=3;}",
    "digraph t{^k=3;T=1;}",
    "digraph t{^}",
    "digraph t{T^:1;k=3;}",
    "digraph t{T=^;k=3;}",
    "digraph t{T=25^6;k=3;}",
    "digraph t{T=26^0;k=3;}",
    "digraph t{T=30^0;k=3;}",
    "digraph t{T=0^1;k=3;}",
    "digraph t{T=0^0;k=3;}",
    "digraph t{T=^-1;k=3;}",
    "digraph t{T=^+1;k=3;}",
    "digraph t{T=1 ^2;k=3;}",
    "digraph t{T=1^,k=3;}",
    "digraph t{T=1 ^k=3;}",
    "digraph t{T=1;^;k=3;}",
    "digraph t{T=1;k=3^}",
    "digraph t{T=1;k=99^9;}",
    "digraph t{T=1;k=3;^;}",
    "digraph t{T=1;k=3;^",
    r#"digraph t{T=1;k=3;^t0[label="1 0"];}"#,
    "digraph t{T=1;k=3;}^x",
    "digraph t{T=1;k=3;}\n \n^}",
    r#"digraph t{T=1;k=3;s^ 0[label="1 0"];}"#,
    "digraph t{T=1;k=3;s^",
    "digraph t{T=1;k=3;s12^",
    r#"digraph t{T=1;k=3;s12^[label="1 0"];}"#,
    r#"digraph t{T=1;k=3;s25^6->s0[label="0 0 0"];}"#,
    r#"digraph t{T=1;k=3;s0^0[label="1 0"];}"#,
    r#"digraph t{T=1;k=3;s0 ^0[label="1 0"];}"#,
    r#"digraph t{T=1;k=3;s1 ^[label="1 0"];}"#,
    r#"digraph t{T=1;k=3;s0[label="1 0"];s0^[label="1 0"];}"#,
    "digraph t{T=1;k=3;s0[label=\"1 0\"];s2\n^[label=\"1 0\"];}",
    r#"digraph t{T=1;k=3;s0[label="1 0"];s0->s0[label="0 0 0"];s1^[label="1 0"];}"#,
    r#"digraph t{T=1;k=3;s0->s0[label="0 0 0"];s0^[label="1 0"];}"#,
    r#"digraph t{T=1;k=3;s0[lab^le="1 0"];}"#,
    "digraph t{T=1;k=3;s0[label=^1 0];}",
    r#"digraph t{T=1;k=3;s0[label="^ 1 0"];}"#,
    r#"digraph t{T=1;k=3;s0[label="1 ^ 0"];}"#,
    "digraph t{T=1;k=3;s0[label=\"1^\t0\"];}",
    r#"digraph t{T=1;k=3;s0[label="1 0^ "];}"#,
    r#"digraph t{T=1;k=3;s0[label="1^"];}"#,
    r#"digraph t{T=1;k=3;s0[label="^"];}"#,
    r#"digraph t{T=1;k=3;s0[label="25^6 0"];}"#,
    r#"digraph t{T=1;k=3;s0[label="1 0^1"];}"#,
    r#"digraph t{T=1;k=3;s0[label="1 ^-1"];}"#,
    r#"digraph t{T=1;k=3;s0[label="1 0"]^s1[label="1 0"];}"#,
    r#"digraph t{T=1;k=3;s0-^-s0[label="0 0 0"];}"#,
    r#"digraph t{T=1;k=3;s0-^ >s0[label="0 0 0"];}"#,
    r#"digraph t{T=1;k=3;s0->^0[label="0 0 0"];}"#,
    "digraph t{T=1;k=3;s0->s0^;}",
    r#"digraph t{T=1;k=3;s0->s0[label="-^0 0 0"];}"#,
    r#"digraph t{T=1;k=3;s0->s0[label="-^-1 0 0"];}"#,
    r#"digraph t{T=1;k=3;s0->s0[label="^+1 0 0"];}"#,
    r#"digraph t{T=1;k=3;s0->s0[label="12^8 0 0"];}"#,
    r#"digraph t{T=1;k=3;s0->s0[label="127 -128 -12^9"];}"#,
    r#"digraph t{T=1;k=3;s0->s0[label="0 0^"];}"#,
    r#"digraph t{T=1;k=3;s0->s0[label="0 0 0^, 0 0 0"];}"#,
    r#"digraph t{T=2;k=3;s0->s0[label="0 0 0^"];}"#,
    r#"digraph t{T=2;k=3;s0->s0[label="0 0 0,^0 0 0"];}"#,
    r#"digraph t{T=2;k=3;s0->s0[label="0 0 0^ , 0 0 0"];}"#,
    r#"digraph t{T=0;k=3;s0->s0[label="^0 0 0"];}"#,
    r#"digraph t{T=1;k=3;s0->s0[label="^"];}"#,
    // Groups of four from 16 on, whose fourth number is a byte.
    r#"digraph t{T=15;k=3;s0->s0[label="0 0 0^ 1"];}"#,
    r#"digraph t{T=16;k=3;s0->s0[label="^0 0 0 1"];}"#,
    r#"digraph t{T=17;k=3;s0->s0[label="^"];}"#,
    r#"digraph t{T=17;k=3;s0->s0[label="0 0 0^"];}"#,
    r#"digraph t{T=17;k=3;s0->s0[label="0 0 0^, 0 0 0"];}"#,
    r#"digraph t{T=17;k=3;s0->s0[label="0 0 0 ^ 1"];}"#,
    r#"digraph t{T=17;k=3;s0->s0[label="0 0 0 1^ "];}"#,
    r#"digraph t{T=17;k=3;s0->s0[label="0 0 0 1^ 1"];}"#,
    r#"digraph t{T=17;k=3;s0->s0[label="0 0 0 1^, 0 0 0 1"];}"#,
    r#"digraph t{T=17;k=3;s0->s0[label="0 0 0 ^-1"];}"#,
    r#"digraph t{T=17;k=3;s0->s0[label="0 0 0 0^1"];}"#,
    r#"digraph t{T=17;k=3;s0->s0[label="0 0 0 25^6"];}"#,
    r#"digraph t{T=17;k=3;s0->s0[label="0 0 12^8 1"];}"#,
    r#"digraph t{T=17;k=3;s0->s0[label="127 -128 -12^9 1"];}"#,
    r#"digraph t{T=18;k=3;s0->s0[label="0 0 0 1^"];}"#,
    r#"digraph t{T=18;k=3;s0->s0[label="0 0 0 1, 0 0 0^"];}"#,
    r#"digraph t{T=18;k=3;s0->s0[label="0 0 0 1,^0 0 0 1"];}"#,
    r#"digraph t{T=1 ^7;k=3;s0->s0[label="0 0 0 1"];}"#,
];

#[test]
fn a_refusal_points_at_the_byte() {
    for (who, drawer) in DRAWERS {
        for marked in WRONG {
            let place = marked.find('^').expect("a mark") as u32;
            assert_eq!(undrawn(drawer, marked.replace('^', "").as_bytes()), Err((60, place)), "{who}: {marked}");
        }
    }
}

#[test]
fn a_byte_that_no_drawing_has_is_pointed_at() {
    for drawing in [ECHO_DRAWN, MAJORITY_DRAWN] {
        a_stray_byte_is_pointed_at(drawing);
    }
}

fn a_stray_byte_is_pointed_at(drawing: &str) {
    let known = b"digrapht{}Tk=;s[]label\"->, 0123456789\t\n\r";
    for (who, drawer) in DRAWERS {
        for (at, stray) in (0..=drawing.len()).flat_map(|at| bytes_at(at).map(move |stray| (at, stray))) {
            if !known.contains(&stray) {
                let mut text = drawing.as_bytes().to_vec();
                text.insert(at, stray);
                assert_eq!(undrawn(drawer, &text), Err((60, at as u32)), "{who}: byte {stray} at {at}");
            }
        }
    }
}

#[test]
fn both_agree_on_every_change_of_one_byte() {
    // The second has two types, so that groups are joined; the third has divisors besides.
    let two = r#"digraph t{T=2;k=3;s0[label="1 0"];s1[label="2 2"];s0->s1[label="-12 12 25, 0 1 -9"];}"#;
    let divided = r#"digraph t{T=18;k=3;s0[label="1 0"];s1[label="2 2"];s0->s1[label="-12 12 25 8, 0 1 -9 2"];}"#;
    let agree = |text: &[u8]| {
        assert_eq!(undrawn(&Model, text), undrawn(&Library, text), "{}", String::from_utf8_lossy(text));
    };
    for text in [ECHO_DRAWN, two, divided] {
        for at in 0..=text.len() {
            let (before, after) = text.as_bytes().split_at(at);
            let others = after.get(1..).unwrap_or(&[]);
            agree(&[before, others].concat());
            for byte in bytes_at(at) {
                agree(&[before, &[byte], after].concat());
                agree(&[before, &[byte], others].concat());
            }
        }
    }
}

// The number after the first `=`, which is the types byte, or 1.
fn types_byte(text: &[u8]) -> usize {
    let after = text.iter().skip_while(|&&byte| byte != b'=').skip(1).skip_while(|byte| byte.is_ascii_whitespace());
    let digits: String = after.take_while(|byte| byte.is_ascii_digit()).map(|&byte| char::from(byte)).collect();
    digits.parse().unwrap_or(1)
}

// Ways for a text to end: what a small drawing of that types byte ends with. One of them makes a drawing of a text that some
// drawing begins with.
fn ends(types_byte: usize) -> Vec<String> {
    let (edition, types) = Edition::of(types_byte);
    let group = if edition == Edition::First { "1 1 1" } else { "1 1 1 1" };
    let label = vec![group; types].join(", ");
    let text = format!("digraph t{{T={types_byte};k=1;s0[label=\"1 0\"];s0->s0[label=\"{label}\"];}}");
    (0..=text.len()).map(|at| text[at..].to_string()).collect()
}

fn can_end(who: &dyn Draws, text: &[u8]) -> bool {
    let is_drawing = |text: &[u8]| !matches!(undrawn(who, text), Err((60, _)));
    ends(types_byte(text)).iter().any(|end| is_drawing(&[text, end.as_bytes()].concat()))
}

#[test]
fn up_to_its_place_a_text_can_end_as_a_drawing_and_no_further() {
    let places = each_seed(part_of(3_000), |seed| {
        let text = sketches::text(&mut Dice::new(seed));
        // Small ones do.
        let place = Model.table(&text).err().filter(|refusal| refusal.number == 60 && text.len() < 600)?.place as usize;
        for (who, drawer) in DRAWERS {
            let told = format!("{who}, seed {seed}, place {place}: {}", String::from_utf8_lossy(&text));
            assert!(can_end(drawer, &text[..place]), "{told}");
            assert!(place == text.len() || !can_end(drawer, &text[..=place]), "{told}");
        }
        Some(place)
    });
    let places: BTreeSet<usize> = places.into_iter().flatten().collect();
    assert!(places.len() as u64 > part_of(100), "{places:?}");
}

#[test]
fn checks_go_in_their_order() {
    // Each with the fault that is refused and all that come after it.
    let cases = [
        (r#"digraph t{T=9;k=3;s0[label="9 9"];s0->s9[label=""];}"#, (60, 48)),
        (r#"digraph t{T=0;k=3;s0[label="9 9"];s0->s9[label=""];}"#, (2, 0)),
        (r#"digraph t{T=1;k=9;s0[label="9 9"];s0->s9[label="0 0 0"];}"#, (2, 0)),
        (r#"digraph t{T=1;k=3;s0[label="0 0"];s1[label="0 2"];s0->s9[label="0 0 0"];}"#, (4, 1)),
        (r#"digraph t{T=1;k=3;s0[label="1 1"];s0->s9[label="0 0 0"];}"#, (4, 0)),
        (r#"digraph t{T=1;k=3;s0[label="4 0"];s0->s9[label="0 0 0"];}"#, (4, 0)),
        (r#"digraph t{T=1;k=3;s0[label="2 0"];s0->s9[label="0 0 0"];}"#, (5, 0)),
        (r#"digraph t{T=1;k=3;s0[label="1 0"];s1[label="0 1"];s0->s2[label="0 0 0"];s1->s0[label="0 0 0"];}"#, (6, 0)),
        (r#"digraph t{T=1;k=3;s0[label="1 0"];s1[label="0 1"];s1->s0[label="0 0 0"];s0->s2[label="0 0 0"];}"#, (7, 0)),
        (r#"digraph t{T=2;k=3;s0[label="1 0"];s1[label="0 3"];s0->s1[label="0 0 0, 0 0 0"];}"#, (8, 0)),
        (r#"digraph t{T=16;k=3;s0[label="9 9"];s0->s9[label=""];}"#, (2, 0)),
        (r#"digraph t{T=21;k=3;s0[label="9 9"];}"#, (2, 0)),
        (r#"digraph t{T=17;k=3;s0[label="2 0"];s0->s9[label="0 0 0 9"];}"#, (5, 0)),
        (r#"digraph t{T=17;k=3;s0[label="1 0"];s0->s9[label="0 0 0 9"];}"#, (6, 0)),
        (
            r#"digraph t{T=17;k=3;s0[label="1 0"];s1[label="0 1"];s1->s0[label="0 0 0 9"];s0->s9[label="0 0 0 1"];}"#,
            (9, 0),
        ),
        (
            r#"digraph t{T=17;k=3;s0[label="1 0"];s1[label="0 1"];s1->s0[label="0 0 0 0"];s0->s9[label="0 0 0 1"];}"#,
            (9, 0),
        ),
        (
            r#"digraph t{T=17;k=3;s0[label="1 0"];s1[label="0 1"];s1->s0[label="0 0 0 8"];s0->s9[label="0 0 0 9"];}"#,
            (7, 0),
        ),
        (r#"digraph t{T=18;k=3;s0[label="1 0"];s1[label="0 3"];s0->s1[label="0 0 0 1, 0 0 0 255"];}"#, (9, 0)),
        (r#"digraph t{T=18;k=3;s0[label="1 0"];s1[label="0 3"];s0->s1[label="0 0 0 1, 0 0 0 8"];}"#, (8, 0)),
        (r#"digraph t{T=18;k=3;s0[label="1 0"];s1[label="0 2"];s0->s1[label="0 0 0 1, 0 0 0 8"];}"#, (61, 0)),
        (r#"digraph t{T=2;k=3;s0[label="1 0"];s1[label="0 2"];s0->s1[label="0 0 0, 0 0 0"];}"#, (61, 0)),
    ];
    for (who, drawer) in DRAWERS {
        for (text, refusal) in cases {
            for room in 0..=19 {
                assert_eq!(written(room, |lent| drawer.undraw(text.as_bytes(), lent)), Err(refusal), "{who}: {text}");
            }
        }
        // The last of them has 2 states, a rule of 8 bytes and a trailer.
        let table = written(20, |lent| drawer.undraw(cases[cases.len() - 1].0.as_bytes(), lent)).expect("a table");
        assert_eq!(table, [1, 0, 0, 2, 0, 1, 0, 0, 0, 0, 0, 0, 12, 0, 8, 0, 2, 1, 2, 3], "{who}");
        // 1 to 9 come before 61 in drawing too.
        assert_eq!(written(0, |lent| drawer.draw(&ECHO[1..], lent)), Err((3, 0)), "{who}");
        assert_eq!(written(279, |lent| drawer.draw(&ECHO, lent)), Err((61, 0)), "{who}");
        assert_eq!(written(280, |lent| drawer.draw(&ECHO, lent)), Ok(ECHO_DRAWN.as_bytes().to_vec()), "{who}");
    }
}

#[test]
fn a_place_past_16_mib_is_given_as_the_last() {
    const LAST: usize = (1 << 24) - 1;
    let blanks = vec![b'\n'; LAST + 1];
    for (who, drawer) in DRAWERS {
        for length in [LAST - 1, LAST, LAST + 1] {
            let wrong = [&blanks[..length], b"x"].concat();
            assert_eq!(undrawn(drawer, &wrong), Err((60, length.min(LAST) as u32)), "{who}: {length}");
        }
        assert_eq!(undrawn(drawer, &blanks), Err((60, LAST as u32)), "{who}");
        // So long a text may be a drawing.
        assert_eq!(undrawn(drawer, &[&blanks, ECHO_DRAWN.as_bytes()].concat()), Ok(ECHO.to_vec()), "{who}");
    }
}

#[test]
fn tables_are_drawn_and_read_back() {
    each_seed(part_of(2_000), |seed| {
        let table = sketches::table(&mut Dice::new(seed));
        for (who, drawer) in DRAWERS {
            match drawn(drawer, &table) {
                Ok(text) => assert_eq!(undrawn(drawer, &text).as_ref(), Ok(&table), "{who}, seed {seed}"),
                Err(_) => assert!(read_table(&table).is_err(), "{who}, seed {seed}"),
            }
        }
    });
}

#[test]
fn texts_are_read_and_drawn_as_they_are_written() {
    let read = each_seed(part_of(2_000), |seed| {
        let text = sketches::text(&mut Dice::new(seed));
        DRAWERS.iter().all(|(who, drawer)| match undrawn(*drawer, &text) {
            Ok(table) => {
                let again = drawn(*drawer, &table).expect("a table that was read");
                let same = |text: &[u8]| sketches::tokens(&String::from_utf8_lossy(text));
                assert_eq!(same(&again), same(&text), "{who}, seed {seed}");
                assert_eq!(undrawn(*drawer, &again).as_ref(), Ok(&table), "{who}, seed {seed}");
                true
            }
            Err(_) => false,
        })
    });
    assert!(read.iter().filter(|&&read| read).count() as u64 > part_of(500));
}

// Both agree on what is made of each seed, and the seeds, of which so many are needed, come to just those refusals.
fn agree_on_seeds(
    fewest: u64,
    refusals: &[u8],
    compared: impl Fn(&mut Dice) -> (Vec<u8>, Result<Vec<u8>, String>) + Sync,
) {
    let seen = each_seed(seeds("DRAWINGS", part_of(2_000).max(fewest)), |seed| {
        let (input, compared) = compared(&mut Dice::new(seed));
        compared.unwrap_or_else(|difference| {
            panic!("seed {seed}: {difference}\n{}\n{input:02x?}", String::from_utf8_lossy(&input))
        })
    });
    let seen: BTreeSet<u8> = seen.into_iter().flatten().collect();
    assert_eq!(seen.into_iter().collect::<Vec<u8>>(), refusals);
}

#[test]
fn the_library_draws_as_the_model_does() {
    agree_on_seeds(250, &[0, 1, 2, 3, 4, 5, 6, 7, 8, 9, 61], |dice| {
        let table = sketches::table(dice);
        let compared = compare_draw(&Model, &Library, &table, dice);
        (table, compared)
    });
}

#[test]
fn the_library_undraws_as_the_model_does() {
    agree_on_seeds(600, &[0, 2, 4, 5, 6, 7, 8, 9, 60, 61], |dice| {
        let text = sketches::text(dice);
        let compared = compare_undraw(&Model, &Library, &text, dice);
        (text, compared)
    });
}
