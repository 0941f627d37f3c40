//! How a table's rules lie in its bytes, and what they ask for; and the rule that is in no table.

/// The rule of a step that stops its board. A table has at most 64 rules, so that none has this number.
pub const STOP: u8 = 254;

/// The edition of a table's rules, which the types byte of its trailer tells: T in the first, and 16 higher in the second.
#[derive(Clone, Copy, Debug, PartialEq, Eq)]
pub enum Edition {
    /// Thresholds without a divisor.
    First,
    /// A divisor for each type.
    Second,
}

impl Edition {
    /// Both.
    pub const ALL: [Edition; 2] = [Edition::First, Edition::Second];

    /// The edition and the number of types that a types byte tells, also where no table has so many.
    pub fn of(types_byte: usize) -> (Edition, usize) {
        if types_byte < 16 {
            (Edition::First, types_byte)
        } else {
            (Edition::Second, types_byte - 16)
        }
    }

    /// The types byte for so many types.
    pub fn types_byte(self, types: usize) -> usize {
        match self {
            Edition::First => types,
            Edition::Second => types + 16,
        }
    }

    /// The edition of a name.
    pub fn named(name: &str) -> Option<Edition> {
        Edition::ALL.into_iter().find(|edition| edition.name() == name)
    }

    /// Its name.
    pub fn name(self) -> &'static str {
        match self {
            Edition::First => "first",
            Edition::Second => "second",
        }
    }
}

/// The layout of a table's rules.
#[derive(Clone, Copy, Debug, PartialEq, Eq)]
pub struct Layout {
    /// The edition.
    pub edition: Edition,
    /// T, also where no table has so many types.
    pub types: usize,
}

impl Layout {
    /// The layout that a types byte tells.
    pub fn of(types_byte: u8) -> Layout {
        let (edition, types) = Edition::of(types_byte.into());
        Layout { edition, types }
    }

    // How many bytes a rule has for one type: a, b, d, and e in the second edition.
    fn wide(self) -> usize {
        match self.edition {
            Edition::First => 3,
            Edition::Second => 4,
        }
    }

    /// How many bytes a rule has.
    pub fn rule_size(self) -> usize {
        2 + self.wide() * self.types
    }

    /// What a rule asks for by type; its bytes begin with its ends.
    pub fn thresholds(self, rule: &[u8]) -> impl Iterator<Item = Threshold> + '_ {
        rule.get(2..)
            .unwrap_or(&[])
            .chunks_exact(self.wide())
            .map(|c| Threshold { sum: [c[0], c[1], c[2]].map(|byte| byte as i8), e: c.get(3).copied().unwrap_or(1) })
    }
}

/// What a rule asks for of one type: the smallest whole number not below (a·n + b·t + d)/e.
#[derive(Clone, Copy, Debug, PartialEq, Eq)]
pub struct Threshold {
    /// a, b and d.
    pub sum: [i8; 3],
    /// The divisor, 1 in the first edition.
    pub e: u8,
}

impl Threshold {
    /// How many messages it asks for; any count meets what is not above 0.
    pub fn asked(self, n: usize, t: usize) -> i64 {
        let [a, b, d] = self.sum.map(i64::from);
        let sum = a * n as i64 + b * t as i64 + d;
        // Rounding down what is negated rounds up. No table that is read has a divisor of 0.
        -(-sum).div_euclid(i64::from(self.e.max(1)))
    }

    /// A text of the sum with its divisor, as people write it: in brackets where it has several terms.
    pub fn divided(self, sum: String) -> String {
        let terms = self.sum.iter().filter(|&&number| number != 0).count();
        match (self.e, terms) {
            (1, _) | (_, 0) => sum,
            (e, 1) => format!("{sum}/{e}"),
            (e, _) => format!("({sum})/{e}"),
        }
    }
}
