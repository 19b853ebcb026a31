//! Recipes: prepared once into an image, run once a row.

use crate::list::List;
use crate::numbers::{Answer, Refused, UNWRITTEN};
use crate::raw;

/// The largest image in bytes.
pub const LARGEST_IMAGE: usize = 16_384;

/// The work room that preparing and running borrow, in bytes.
pub const WORK_ROOM: usize = 65_536;

/// A work room of the right size, kept by the host and lent to each call. All zero between calls.
pub struct Work {
    room: Box<[u8]>,
}

impl Work {
    pub fn new() -> Work {
        Work {
            room: vec![0; WORK_ROOM].into_boxed_slice(),
        }
    }
}

impl Default for Work {
    fn default() -> Work {
        Work::new()
    }
}

/// A prepared recipe, or bytes that claim to be one.
#[derive(Clone, Debug, PartialEq, Eq)]
pub struct Image {
    bytes: Vec<u8>,
}

impl Image {
    /// Reads the text and folds what the list's `#` values settle.
    pub fn prepare(text: &[u8], list: &List, work: &mut Work) -> Result<Image, Refused> {
        let mut bytes = vec![0; LARGEST_IMAGE];
        let length = prepare_answer(text, list.as_bytes(), &mut bytes, &mut work.room).result()?;
        bytes.truncate(length);
        bytes.shrink_to_fit();
        Ok(Image { bytes })
    }

    /// Takes bytes as they are; a run refuses with 28 what is no image.
    pub fn from_bytes(bytes: impl Into<Vec<u8>>) -> Image {
        Image {
            bytes: bytes.into(),
        }
    }

    pub fn as_bytes(&self) -> &[u8] {
        &self.bytes
    }

    /// The value's length, its bytes in front of `out`; or the refusal, `out` as it was.
    pub fn run(&self, list: &List, out: &mut [u8], work: &mut Work) -> Result<usize, Refused> {
        run_answer(&self.bytes, list.as_bytes(), out, &mut work.room).result()
    }
}

/// `katsu_prepare` on any bytes, with every number as it came.
pub fn prepare_answer(text: &[u8], list: &[u8], out: &mut [u8], work: &mut [u8]) -> Answer {
    let (mut length, mut place) = (UNWRITTEN, UNWRITTEN);
    // SAFETY: each pointer goes with its slice's length; `out` and `work` are borrowed alone, the rest are locals.
    let number = unsafe {
        raw::katsu_prepare(
            text.as_ptr(),
            text.len(),
            list.as_ptr(),
            list.len(),
            out.as_mut_ptr(),
            out.len(),
            work.as_mut_ptr(),
            work.len(),
            &mut length,
            &mut place,
        )
    };
    Answer {
        number,
        length,
        place,
    }
}

/// `katsu_run` on any bytes, with every number as it came.
pub fn run_answer(image: &[u8], list: &[u8], out: &mut [u8], work: &mut [u8]) -> Answer {
    let mut length = UNWRITTEN;
    // SAFETY: each pointer goes with its slice's length; `out` and `work` are borrowed alone, `length` is a local.
    let number = unsafe {
        raw::katsu_run(
            image.as_ptr(),
            image.len(),
            list.as_ptr(),
            list.len(),
            out.as_mut_ptr(),
            out.len(),
            work.as_mut_ptr(),
            work.len(),
            &mut length,
        )
    };
    Answer {
        number,
        length,
        place: 0,
    }
}
