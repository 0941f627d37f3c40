//! Graphviz's own program `dot` takes drawings: its image of a table has as many nodes as states and as many edges as rules.
//! 'tools/cargo test' installs it where it is missing.

use judge::dice::Dice;
use judge::drawings::Drawing;
use judge::makers::bundles::table;
use judge::makers::sketches;
use judge::model::{Coefficients, Rule};
use macaroosh::calls::draw;
use macaroosh::{ECHO, MOST_DRAWING};
use std::io::Write;
use std::process::{Command, Stdio};

fn drawing(table: &[u8]) -> String {
    let mut text = vec![0; MOST_DRAWING];
    let answer = draw(table, &mut text);
    assert_eq!(answer.refusal, 0);
    text.truncate(answer.count as usize);
    String::from_utf8(text).expect("text")
}

// The image that `dot` makes without a complaint.
fn image(text: &str) -> String {
    let mut child = Command::new("dot")
        .arg("-Tsvg")
        .stdin(Stdio::piped())
        .stdout(Stdio::piped())
        .stderr(Stdio::piped())
        .spawn()
        .expect("Graphviz's program 'dot' starts: run 'tools/cargo test', which installs it");
    child.stdin.take().expect("its input").write_all(text.as_bytes()).expect("the drawing is taken");
    let ended = child.wait_with_output().expect("it ends");
    assert!(ended.status.success() && ended.stderr.is_empty(), "{}\n{text}", String::from_utf8_lossy(&ended.stderr));
    String::from_utf8(ended.stdout).expect("text")
}

#[track_caller]
fn shows(text: &str, table: &[u8]) {
    let image = image(text);
    let counts = ["class=\"node\"", "class=\"edge\""].map(|class| image.matches(class).count());
    let [states, rules] = [4, 3].map(|back| usize::from(table[table.len() - back]));
    assert_eq!(counts, [states, rules], "{text}");
    // Each state by its name.
    assert!((0..states).all(|s| image.contains(&format!("<title>s{s}</title>"))), "{text}");
}

#[test]
fn dot_shows_every_state_and_rule() {
    shows(&drawing(&ECHO), &ECHO);
    for seed in 1..=12 {
        let table = table(&mut Dice::new(seed));
        shows(&drawing(&table), &table);
    }
    // 16 states in a ring, 64 rules, 4 types with divisors.
    let coefficients = vec![Coefficients::over(8, [-128, 127, 0]); 4];
    let rule = |r: usize| Rule { from: r % 16, to: (r + 1) % 16, coefficients: coefficients.clone() };
    let largest = Drawing { types_byte: 20, factor: 8, states: vec![[1, 0]; 16], rules: (0..64).map(rule).collect() };
    shows(&drawing(&largest.bytes()), &largest.bytes());
}

#[test]
fn dot_takes_the_blanks_that_a_drawing_may_have() {
    let tokens = sketches::tokens(&drawing(&ECHO));
    shows(&tokens.join("\r\n\t"), &ECHO);
    shows(&tokens.concat().replacen("digraph", "digraph ", 1), &ECHO);
}
