//! The outline's table of refusals in words, with those of drawings, logs, editions, searches and lists.

use std::error::Error;
use std::fmt::{self, Display, Formatter};

/// A refusal's number and its place. It displays as `refused 24 at step 4: the message is not in transit`.
#[derive(Clone, Copy, Debug, PartialEq, Eq, Hash)]
pub struct Refusal {
    /// The number in the outline's table.
    pub number: u8,
    /// The state, rule, board, step, line, byte or listed configuration; 0 where none is named.
    pub place: u32,
}

impl Refusal {
    /// What its place counts.
    pub fn counts(self) -> Place {
        match self {
            // Of a list that is out of order the later one of two is meant, which is never the first.
            Refusal { number: 70, place: 0 } => Place::None,
            _ => of(self.number).map_or(Place::None, |line| line.place),
        }
    }

    /// When it is given, in words.
    pub fn reason(self) -> &'static str {
        of(self.number).map_or("a number that the outline does not name", |line| line.when)
    }
}

impl Display for Refusal {
    fn fmt(&self, to: &mut Formatter) -> fmt::Result {
        let Refusal { number, place } = self;
        match self.counts().name() {
            Some(name) => write!(to, "refused {number} at {name} {place}: {}", self.reason()),
            None => write!(to, "refused {number}: {}", self.reason()),
        }
    }
}

impl Error for Refusal {}

/// What a refusal's place counts, always from 0.
#[derive(Clone, Copy, Debug, PartialEq, Eq)]
pub enum Place {
    /// No place is named.
    None,
    /// A state of the table.
    State,
    /// A rule of the table.
    Rule,
    /// A board whose start is meant.
    Board,
    /// A step of the schedule.
    Step,
    /// A byte of a drawing's text.
    Byte,
    /// A line of a log.
    Line,
    /// A configuration of a list.
    Configuration,
}

impl Place {
    /// What it counts in a word, if it names a place.
    pub fn name(self) -> Option<&'static str> {
        match self {
            Place::None => None,
            Place::State => Some("state"),
            Place::Rule => Some("rule"),
            Place::Board => Some("board"),
            Place::Step => Some("step"),
            Place::Byte => Some("byte"),
            Place::Line => Some("line"),
            Place::Configuration => Some("configuration"),
        }
    }
}

/// A line of the table.
#[derive(Debug)]
pub struct Line {
    /// The refusal's number.
    pub number: u8,
    /// What its place counts.
    pub place: Place,
    /// When it is given.
    pub when: &'static str,
}

const fn line(number: u8, place: Place, when: &'static str) -> Line {
    Line { number, place, when }
}

/// Every refusal, in the order of the checks.
pub const ALL: [Line; 39] = [
    line(40, Place::None, "the input is over 17,648 bytes (report program only)"),
    line(10, Place::None, "the bundle is under 8 bytes"),
    line(11, Place::None, "the schedule's second distance plus 8 exceeds the bundle"),
    line(60, Place::Byte, "the text is no drawing; up to there it could be one"),
    line(1, Place::None, "the table part is under 8 bytes"),
    line(
        2,
        Place::None,
        "a count of the table (1 to 16 states, 1 to 64 rules, 1 to 4 types) or k (1 to 8) is out of range",
    ),
    line(3, Place::None, "the table's distances disagree with its counts or its length"),
    line(
        4,
        Place::State,
        "the state has a flag above bit 1, a sent bit for no type, or is initial and has already sent",
    ),
    line(5, Place::None, "no state is initial"),
    line(6, Place::Rule, "the rule's from or to is no state"),
    line(9, Place::Rule, "the rule has a divisor that is not 1 to 8"),
    line(7, Place::Rule, "the rule forgets a sent type"),
    line(8, Place::Rule, "the rule sends two new types"),
    line(12, Place::None, "n, t, f are not admitted (n in 1 to 64, n > k·t, f ≤ t), or the form is over 2"),
    line(
        13,
        Place::None,
        "the step distance is no multiple of 4 or over 16,384, or the second distance is not that plus n - f",
    ),
    line(14, Place::Board, "the board's start is not an initial state"),
    line(31, Place::None, "the form asked for is the bundle's own, or there is no such form"),
    line(52, Place::None, "the bundle has steps, or is not in message form"),
    line(51, Place::Line, "the log has more lines than a schedule has steps, 4,096"),
    line(50, Place::Line, "the line has another shape, or a number over 254"),
    line(34, Place::None, "the search is asked to go over 8 steps deep"),
    line(35, Place::None, "the bundle is not in counting form"),
    line(
        70,
        Place::Configuration,
        "the bundle is not in counting form, has steps or over 6 correct boards, or the list is no whole number of configurations, \
         has over 512 or is out of order",
    ),
    line(71, Place::Configuration, "the configuration has a word out of range"),
    line(72, Place::None, "the start is not listed"),
    line(73, Place::Configuration, "a possible step leads from the configuration to one that is not listed"),
    line(74, Place::Configuration, "a board of the configuration is in an accepting state"),
    line(32, Place::Rule, "the rule has a divisor other than 1, which the first edition cannot say"),
    line(33, Place::None, "the table is in that edition already"),
    line(30, Place::None, "the lent output is shorter than what is needed"),
    line(61, Place::None, "the lent output is shorter than the drawing or its table"),
    line(20, Place::Step, "the board is not below n - f"),
    line(26, Place::Step, "the board is stopped"),
    line(21, Place::Step, "the rule is not in the table"),
    line(22, Place::Step, "the rule does not leave the board's state"),
    line(23, Place::Step, "type or source is out of range, only one of the two is 255, or a stop has a message"),
    line(27, Place::Step, "no more boards may stop: f and the stopped ones may not exceed t"),
    line(24, Place::Step, "the message is not in transit"),
    line(25, Place::Step, "a threshold is not met"),
];

/// The line of a number.
pub fn of(number: u8) -> Option<&'static Line> {
    ALL.iter().find(|line| line.number == number)
}

/// The refusal in words, as `refused 24 at step 4: the message is not in transit`.
pub fn told(refusal: Refusal) -> String {
    refusal.to_string()
}
