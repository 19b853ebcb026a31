//! The numbers that an entry gives back, and the refusal made of one.

use std::fmt;

macro_rules! numbers {
    ($($variant:ident = $number:literal, $name:literal, $when:literal;)*) => {
        /// A refusal's number, as section 7 of the scope lists them. 0, done, is `Ok`.
        #[derive(Clone, Copy, Debug, PartialEq, Eq, Hash, PartialOrd, Ord)]
        #[repr(u32)]
        pub enum Number {
            $(#[doc = $when] $variant = $number,)*
        }

        impl Number {
            /// Every number, in rising order.
            pub const ALL: &'static [Number] = &[$(Number::$variant,)*];

            /// The refusal with this number, if there is one.
            pub fn from_u32(number: u32) -> Option<Number> {
                match number {
                    $($number => Some(Number::$variant),)*
                    _ => None,
                }
            }

            /// The name in the table: `SYNTAX` for 20.
            pub fn name(self) -> &'static str {
                match self {
                    $(Number::$variant => $name,)*
                }
            }

            /// When the number is given, in a few words.
            pub fn when(self) -> &'static str {
                match self {
                    $(Number::$variant => $when,)*
                }
            }
        }
    };
}

numbers! {
    Suite = 1, "SUITE", "the suite number is not 1 to 5";
    Key = 2, "KEY", "the key's length is not the suite's";
    Iv = 3, "IV", "the IV is not one block long";
    Empty = 4, "EMPTY", "the text is empty";
    Partial = 5, "PARTIAL", "not one block (blk, unblk) or whole blocks (cbc, uncbc, uncbp)";
    Long = 6, "LONG", "a value, text or result is over 1,024 bytes";
    Tag = 7, "TAG", "the tag is shorter than 8 bytes or longer than a block";
    Fill = 8, "FILL", "no text seals to these bytes under this key and IV";
    Room = 9, "ROOM", "the output is shorter than the answer";
    Unequal = 10, "UNEQUAL", "xor: the lengths differ";
    Choice = 11, "CHOICE", "when: the first argument is neither 00 nor 01";
    Short = 12, "SHORT", "head: the count is not one byte, or more than there is";
    Wrap = 13, "WRAP", "ctr: two counters of one cell are equal";
    Work = 14, "WORK", "the work room is under 65,536 bytes";
    Syntax = 20, "SYNTAX", "the text is no recipe";
    Text = 21, "TEXT", "the text is over 4,096 bytes";
    Deep = 22, "DEEP", "deeper than 16 levels";
    Many = 23, "MANY", "more than 128 nodes";
    Absent = 25, "ABSENT", "a name has no value in the list";
    Image = 26, "IMAGE", "the folded image is over 16,384 bytes";
    List = 27, "LIST", "the list is bad (prepare takes # names, run $ and @ names)";
    Form = 28, "FORM", "the bytes are no image";
}

impl Number {
    pub fn to_u32(self) -> u32 {
        self as u32
    }

    /// Whether a refusal with this number points into the recipe's text.
    pub fn has_place(self) -> bool {
        matches!(
            self,
            Number::Syntax | Number::Deep | Number::Many | Number::Long | Number::Absent
        )
    }
}

impl fmt::Display for Number {
    fn fmt(&self, f: &mut fmt::Formatter<'_>) -> fmt::Result {
        write!(f, "{} {}", self.to_u32(), self.name())
    }
}

/// All that an entry says when it refuses. The output keeps its bytes.
#[derive(Clone, Copy, Debug, PartialEq, Eq)]
pub struct Refused {
    pub number: Number,
    /// The length that came with the number: 0.
    pub length: usize,
    /// The place in a recipe's text, counted from 0; 0 where the number has none.
    pub place: usize,
}

impl fmt::Display for Refused {
    fn fmt(&self, f: &mut fmt::Formatter<'_>) -> fmt::Result {
        write!(f, "{}: {}", self.number, self.number.when())
    }
}

impl std::error::Error for Refused {}

/// What stands in a length or place before the call: every entry writes its own, and one that did not would show.
pub(crate) const UNWRITTEN: usize = usize::MAX;

/// What an entry answered, number by number: the ground on which `Result` stands.
#[derive(Clone, Copy, Debug, PartialEq, Eq)]
pub struct Answer {
    pub number: u32,
    pub length: usize,
    pub place: usize,
}

impl Answer {
    /// The length of the answer, or the refusal.
    ///
    /// # Panics
    /// On a number that this crate does not know: the archive linked is then of another version.
    pub fn result(self) -> Result<usize, Refused> {
        if self.number == 0 {
            return Ok(self.length);
        }
        let Some(number) = Number::from_u32(self.number) else {
            panic!(
                "libkatsunebyo.a answered {}, which this version does not know",
                self.number
            );
        };
        Err(Refused {
            number,
            length: self.length,
            place: self.place,
        })
    }
}
