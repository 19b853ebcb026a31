//! A plain implementation of the documents, to compare the library with: no speed, no sharing with the library.

pub mod block;
pub mod calls;
pub mod modes;
pub mod records;
pub mod tables;
pub mod texts;
pub mod tree;

use calls::Value;
use records::Use;

pub const WORK: usize = 65_536;
pub const LONGEST_TEXT: usize = 4096;

/// The answer before its room is looked at: bytes, or a number and its place.
pub type Judged = Result<Vec<u8>, (u32, usize)>;

/// All that an entry gives back: number, length, place and the answer's bytes.
#[derive(Clone, Debug, PartialEq, Eq)]
pub struct Expected<'a> {
    pub number: u32,
    pub length: usize,
    pub place: usize,
    pub bytes: &'a [u8],
}

/// The last check of every entry, 9, and what comes of it.
pub fn delivered(judged: &Judged, room: usize) -> Expected<'_> {
    let (number, place, bytes): (u32, usize, &[u8]) = match judged {
        Err((number, place)) => (*number, *place, &[]),
        Ok(bytes) if bytes.len() > room => (9, 0, &[]),
        Ok(bytes) => (0, 0, bytes),
    };
    Expected {
        number,
        length: bytes.len(),
        place,
        bytes,
    }
}

fn without_place(value: Value) -> Judged {
    value.map_err(|number| (number, 0))
}

/// A cipher entry.
pub fn cipher_entry(call: &str, suite: u64, arguments: &[Vec<u8>]) -> Judged {
    without_place(calls::cipher_call(call, suite, arguments))
}

/// `katsu_prepare`: 14; 21; reading; 27; 25; 26.
pub fn prepare_entry(text: &[u8], list: &[u8], work: usize) -> Judged {
    if work < WORK {
        return Err((14, 0));
    }
    if text.len() > LONGEST_TEXT {
        return Err((21, 0));
    }
    let tree = texts::read(text)?;
    let bound = records::values_of(list, Use::Preparing).ok_or((27, 0))?;
    if let Some(place) = tree.first_unbound(&bound) {
        return Err((25, place));
    }
    records::image(&tree.folded(&bound))
        .filter(|image| image.len() <= records::LARGEST)
        .ok_or((26, 0))
}

/// `katsu_run`: 14; 28; 27; the meaning.
pub fn run_entry(image: &[u8], list: &[u8], work: usize) -> Judged {
    if work < WORK {
        return Err((14, 0));
    }
    let tree = records::tree_of(image).ok_or((28, 0))?;
    let values = records::values_of(list, Use::Running).ok_or((27, 0))?;
    without_place(tree.value(&values))
}
