//! Lists of values for names: `#0` to `#3` for preparing, `$0` to `$7` and `@0` to `@3` for running.

use crate::cipher::LONGEST_VALUE;
use std::fmt;

/// A name that a list gives a value.
#[derive(Clone, Copy, Debug, PartialEq, Eq, Hash)]
pub enum Name {
    /// `#0` to `#3`, bound at preparing.
    Bound(u8),
    /// `$0` to `$7`, of the row.
    Row(u8),
    /// `@0` to `@3`, of the run.
    Run(u8),
}

impl Name {
    /// Reads `#0`, `$7`, `@3`.
    pub fn parse(text: &str) -> Option<Name> {
        let mut letters = text.chars();
        let make = match letters.next()? {
            '#' => Name::Bound,
            '$' => Name::Row,
            '@' => Name::Run,
            _ => return None,
        };
        let digit = letters.next()?.to_digit(10)? as u8;
        let name = make(digit);
        (letters.next().is_none() && digit < name.count()).then_some(name)
    }

    /// How many names there are of its sort.
    fn count(self) -> u8 {
        match self {
            Name::Row(_) => 8,
            Name::Bound(_) | Name::Run(_) => 4,
        }
    }

    fn sign_and_digit(self) -> (char, u8) {
        match self {
            Name::Bound(digit) => ('#', digit),
            Name::Row(digit) => ('$', digit),
            Name::Run(digit) => ('@', digit),
        }
    }

    /// The record kind of the name in a list.
    fn kind(self) -> [u8; 2] {
        match self {
            Name::Bound(digit) => [digit, 0x02],
            Name::Row(digit) => [digit, 0x03],
            Name::Run(digit) => [digit, 0x04],
        }
    }
}

impl fmt::Display for Name {
    fn fmt(&self, f: &mut fmt::Formatter<'_>) -> fmt::Result {
        let (sign, digit) = self.sign_and_digit();
        write!(f, "{sign}{digit}")
    }
}

/// Why a value was not taken into a list.
#[derive(Clone, Copy, Debug, PartialEq, Eq)]
pub enum ListError {
    /// There is no such name: the digit is too large.
    NoSuchName(Name),
    /// The name has a value already.
    Twice(Name),
    /// The value is over 1,024 bytes.
    TooLong(Name, usize),
}

impl fmt::Display for ListError {
    fn fmt(&self, f: &mut fmt::Formatter<'_>) -> fmt::Result {
        match self {
            ListError::NoSuchName(name) => write!(f, "there is no name {name}"),
            ListError::Twice(name) => write!(f, "{name} is given twice"),
            ListError::TooLong(name, length) => {
                write!(
                    f,
                    "the value of {name} has {length} bytes; {LONGEST_VALUE} is the most"
                )
            }
        }
    }
}

impl std::error::Error for ListError {}

/// A list under way: records one after another, no name twice. Cleared and filled again for each row, it asks for no
/// memory once it has grown.
#[derive(Clone, Debug, Default, PartialEq, Eq)]
pub struct List {
    bytes: Vec<u8>,
    names: Vec<Name>,
}

impl List {
    pub fn new() -> List {
        List::default()
    }

    /// Takes a value for a name.
    pub fn put(&mut self, name: Name, value: &[u8]) -> Result<&mut List, ListError> {
        if name.sign_and_digit().1 >= name.count() {
            return Err(ListError::NoSuchName(name));
        }
        if self.names.contains(&name) {
            return Err(ListError::Twice(name));
        }
        if value.len() > LONGEST_VALUE {
            return Err(ListError::TooLong(name, value.len()));
        }
        self.names.push(name);
        self.bytes
            .extend_from_slice(&(value.len() as u16).to_le_bytes());
        self.bytes.extend_from_slice(&name.kind());
        self.bytes.extend_from_slice(value);
        Ok(self)
    }

    /// `put` for one expression: `List::new().with(Name::Run(0), iv)?.with(Name::Row(0), text)?`.
    pub fn with(mut self, name: Name, value: &[u8]) -> Result<List, ListError> {
        self.put(name, value)?;
        Ok(self)
    }

    pub fn clear(&mut self) {
        self.bytes.clear();
        self.names.clear();
    }

    /// The list as the library reads it.
    pub fn as_bytes(&self) -> &[u8] {
        &self.bytes
    }
}
