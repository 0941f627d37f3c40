//! What an image of a table shows, in Graphviz's DOT language: states, rules by number with what they ask for, a legend.

use macaroosh::terms::rules::{Layout, Threshold};
use std::collections::BTreeMap;

// Lines are grey, so that none looks like the sign of a number. A rule's box lies on its arrow: no line crosses it, and it
// can't be taken for the label of another arrow.
const LOOKS: &str = r#"digraph table {
graph [fontname="Helvetica", fontsize=11, labeljust=l, ranksep=0.45, nodesep=0.3];
node [fontname="Helvetica", fontsize=12, shape=ellipse, margin="0.08,0.05", width=0.6, height=0.4];
edge [color=gray45, arrowsize=0.9];
"#;
const BOX: &str =
    r#"shape=box, fontsize=11, margin="0.06,0.04", width=0, height=0, color=gray70, style=filled, fillcolor=gray97"#;
// The first row keeps it apart from what is above.
const LEGEND: &str =
    r#"<TABLE BORDER="0" CELLBORDER="0" CELLSPACING="0" CELLPADDING="3"><TR><TD HEIGHT="14"></TD></TR>"#;
const NOWHERE: &str = r#"shape=point, style=invis, width=0.01, height=0.01"#;

/// The text that the image of a table is made from; the library has accepted the table.
pub fn text(table: &[u8]) -> String {
    let table = Table::of(table);
    let direction = if table.across() { "LR" } else { "TB" };
    let states: String = table.states().enumerate().map(|(s, state)| table.state(s, state)).collect();
    let arrows: String = table.arrows().iter().map(|(&ends, lines)| arrow(ends, lines)).collect();
    format!("{LOOKS}rankdir={direction};\n{states}{arrows}label=<{}>;\n}}\n", legend(&table))
}

/// How many states and rules a table has that the library has accepted.
pub fn counts(table: &[u8]) -> [usize; 2] {
    let [states, rules, ..] = numbers(table);
    [states, rules].map(usize::from)
}

// States, rules, types byte and k.
fn numbers(table: &[u8]) -> [u8; 4] {
    let last = table.len().saturating_sub(4);
    [0, 1, 2, 3].map(|i| table.get(last + i).copied().unwrap_or(0))
}

// A table by its records.
struct Table<'a> {
    states: &'a [u8],
    rules: &'a [u8],
    layout: Layout,
    types: usize,
    factor: usize,
}

impl<'a> Table<'a> {
    fn of(table: &'a [u8]) -> Table<'a> {
        let [states, _, types_byte, factor] = numbers(table);
        let records = &table[..table.len() - 8];
        let (states, rules) = records.split_at(2 * usize::from(states));
        let layout = Layout::of(types_byte);
        Table { states, rules, layout, types: layout.types, factor: factor.into() }
    }

    // Flags and sent mask of each state.
    fn states(&self) -> impl Iterator<Item = [u8; 2]> + 'a {
        self.states.chunks_exact(2).map(|state| [state[0], state[1]])
    }

    // Boxes of many types between many states would make it far too wide, so it goes down then.
    fn across(&self) -> bool {
        self.states().count() * self.types <= 12
    }

    // A state with what it has sent; where a board may start in it, an arrow from a point that is not seen.
    fn state(&self, s: usize, [flags, mask]: [u8; 2]) -> String {
        let sent: Vec<String> = (0..self.types).filter(|m| mask >> m & 1 == 1).map(|m| m.to_string()).collect();
        let mut lines = vec![format!("s{s}")];
        if !sent.is_empty() {
            lines.push(format!("sent {}", sent.join(", ")));
        }
        let (label, around) = (label(&lines, "\\n"), 1 + (flags >> 1 & 1));
        let start = format!("\"start in s{s}\" [{NOWHERE}];\n\"start in s{s}\" -> s{s} [color=black];\n");
        let start = if flags & 1 == 1 { start } else { String::new() };
        format!("s{s} [label={label}, peripheries={around}];\n{start}")
    }

    // The lines of all rules between two states, by those.
    fn arrows(&self) -> BTreeMap<(u8, u8), Vec<String>> {
        let mut arrows: BTreeMap<(u8, u8), Vec<String>> = BTreeMap::new();
        for (r, rule) in self.rules.chunks_exact(self.layout.rule_size()).enumerate() {
            arrows.entry((rule[0], rule[1])).or_default().extend(self.rule(r, rule));
        }
        arrows
    }

    // A rule's number and what it asks for, of each type on a line of its own.
    fn rule(&self, r: usize, rule: &[u8]) -> Vec<String> {
        let thresholds = self.layout.thresholds(rule);
        let asked = thresholds.enumerate().filter(|(_, threshold)| asks(*threshold, self.factor));
        let mut asked = asked.map(|(m, threshold)| {
            let of = if self.types > 1 { format!("type {m} ") } else { String::new() };
            format!("{of}≥ {}", words(threshold))
        });
        let number = format!("{r}:");
        let first = asked.next().map_or(number.clone(), |first| format!("{number} {first}"));
        // A digit is as wide as two blanks; those are such that they stay.
        let indent = "\u{a0}".repeat(2 * number.len());
        std::iter::once(first).chain(asked.map(|other| format!("{indent}{other}"))).collect()
    }
}

// One arrow with the rules' lines in a box on it; a wait's goes out and back.
fn arrow((from, to): (u8, u8), lines: &[String]) -> String {
    let name = format!("\"s{from} to s{to}\"");
    let label = label(lines, "\\l");
    format!("{name} [{BOX}, label={label}];\ns{from} -> {name} [arrowsize=0.5];\n{name} -> s{to};\n")
}

// Whether a threshold is above 0 for some n and t that the table admits; any count meets another.
fn asks(threshold: Threshold, factor: usize) -> bool {
    (1..=64).any(|n| (0..n).take_while(|t| n > factor * t).any(|t| threshold.asked(n, t) > 0))
}

// (a·n + b·t + d)/e as people write it.
fn words(threshold: Threshold) -> String {
    let mut words = String::new();
    let numbers = threshold.sum.into_iter().map(i32::from);
    for (number, of) in numbers.zip(["n", "t", ""]).filter(|(number, _)| *number != 0) {
        words += match (words.is_empty(), number < 0) {
            (true, false) => "",
            (true, true) => "−",
            (false, false) => " + ",
            (false, true) => " − ",
        };
        words += &if number.abs() == 1 && !of.is_empty() { of.to_string() } else { format!("{}{of}", number.abs()) };
    }
    threshold.divided(words)
}

// What the signs mean, with T and k, for which an image has no other place.
fn legend(table: &Table) -> String {
    let Table { types, factor, .. } = *table;
    let times = if factor == 1 { String::new() } else { factor.to_string() };
    let (sign, of) = if types > 1 { ("type 1 ≥ t + 1", " of type 1") } else { ("≥ t + 1", "") };
    let mut meanings = vec![
        ("arrow from nowhere", "a board may start in this state".to_string()),
        ("double line", "the state is accepting".to_string()),
        ("sent 0", format!("a board in this state has sent its message of type 0 (T = {types})")),
        ("3:", "rule 3, counted from 0; nothing after it: the rule asks for no message".to_string()),
        (sign, format!("to take the rule, a board must have messages{of} from at least t + 1 boards")),
        (
            "n, t",
            format!("how many boards there are, and how many faulty ones are tolerated: n > {times}t (k = {factor})"),
        ),
    ];
    if types > 1 {
        meanings.insert(5, ("several lines", "of one rule: each must hold".to_string()));
    }
    let rows: String = meanings.iter().map(|(sign, meaning)| row(sign, meaning)).collect();
    format!("{LEGEND}{rows}</TABLE>")
}

fn row(sign: &str, meaning: &str) -> String {
    let cell = |text| format!("<TD ALIGN=\"LEFT\">{}</TD>", escaped(text));
    format!("<TR>{}{}</TR>", cell(sign), cell(meaning))
}

// A label of lines that end so: \n in the middle, \l on the left.
fn label(lines: &[String], end: &str) -> String {
    let lines: String = lines.iter().map(|line| escaped(line).replace('\\', "\\\\") + end).collect();
    format!("\"{lines}\"")
}

// Text without the signs of marked-up text, which mean as much in labels.
fn escaped(text: &str) -> String {
    text.replace('&', "&amp;").replace('<', "&lt;").replace('>', "&gt;").replace('"', "&quot;")
}
