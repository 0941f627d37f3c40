//! The forms of a schedule by number, name and layout: what the last byte of a bundle says.

/// A form.
#[derive(Clone, Copy, Debug, PartialEq, Eq, PartialOrd, Ord, Hash)]
pub enum Form {
    /// Sources are senders, and boards keep sets of them.
    Message,
    /// Sources are 0 for correct and 1 for faulty, and boards keep two counts.
    Counting,
    /// Source 0 is the only one, and boards keep one count.
    Plain,
}

impl Form {
    /// Every form, in the order of numbers.
    pub const ALL: [Form; 3] = [Form::Message, Form::Counting, Form::Plain];

    /// The form of a number, which is compared as a whole.
    #[inline]
    pub fn of(number: u64) -> Option<Form> {
        Form::ALL.into_iter().find(|form| u64::from(form.number()) == number)
    }

    /// The form that a bundle's last byte names.
    pub fn of_bundle(bundle: &[u8]) -> Option<Form> {
        bundle.last().and_then(|&number| Form::of(u64::from(number)))
    }

    /// The form of a name.
    pub fn named(name: &str) -> Option<Form> {
        Form::ALL.into_iter().find(|form| form.name() == name)
    }

    /// Its number.
    #[inline]
    pub fn number(self) -> u8 {
        self as u8
    }

    /// Its name.
    pub fn name(self) -> &'static str {
        match self {
            Form::Message => "message",
            Form::Counting => "counting",
            Form::Plain => "plain",
        }
    }

    /// How many words it has for what a board has received of one type.
    #[inline]
    pub fn wide(self) -> usize {
        match self {
            Form::Message | Form::Plain => 1,
            Form::Counting => 2,
        }
    }

    /// What a translation goes to where no form is asked for.
    #[inline]
    pub fn other(self) -> Form {
        match self {
            Form::Message | Form::Plain => Form::Counting,
            Form::Counting => Form::Message,
        }
    }
}
