//! The twelve cipher entries: one cell, one key, one answer.

use crate::numbers::{Answer, Refused, UNWRITTEN};
use crate::raw;

/// The longest value, text or result in bytes.
pub const LONGEST_VALUE: usize = 1024;

/// One row of the table of suites, in bytes.
#[derive(Clone, Copy, Debug, PartialEq, Eq)]
pub struct Suite {
    pub number: u64,
    pub block: usize,
    pub key: usize,
}

/// Suites 1 to 5.
pub const SUITES: [Suite; 5] = [
    suite(1, 128, 128),
    suite(2, 128, 256),
    suite(3, 256, 256),
    suite(4, 256, 512),
    suite(5, 512, 512),
];

const fn suite(number: u64, block_bits: usize, key_bits: usize) -> Suite {
    Suite {
        number,
        block: block_bits / 8,
        key: key_bits / 8,
    }
}

type Two = unsafe extern "C" fn(
    u64,
    *const u8,
    usize,
    *const u8,
    usize,
    *mut u8,
    usize,
    *mut usize,
) -> u32;

type Three = unsafe extern "C" fn(
    u64,
    *const u8,
    usize,
    *const u8,
    usize,
    *const u8,
    usize,
    *mut u8,
    usize,
    *mut usize,
) -> u32;

fn two(entry: Two, suite: u64, a: &[u8], b: &[u8], out: &mut [u8]) -> Answer {
    let mut length = UNWRITTEN;
    // SAFETY: each pointer goes with its slice's length, `out` is borrowed alone and `length` is a local.
    let number = unsafe {
        entry(
            suite,
            a.as_ptr(),
            a.len(),
            b.as_ptr(),
            b.len(),
            out.as_mut_ptr(),
            out.len(),
            &mut length,
        )
    };
    Answer {
        number,
        length,
        place: 0,
    }
}

fn three(entry: Three, suite: u64, a: &[u8], b: &[u8], c: &[u8], out: &mut [u8]) -> Answer {
    let mut length = UNWRITTEN;
    // SAFETY: each pointer goes with its slice's length, `out` is borrowed alone and `length` is a local.
    let number = unsafe {
        entry(
            suite,
            a.as_ptr(),
            a.len(),
            b.as_ptr(),
            b.len(),
            c.as_ptr(),
            c.len(),
            out.as_mut_ptr(),
            out.len(),
            &mut length,
        )
    };
    Answer {
        number,
        length,
        place: 0,
    }
}

/// The cipher calls, in the order of their image kinds.
#[derive(Clone, Copy, Debug, PartialEq, Eq, Hash)]
pub enum Call {
    Blk,
    Unblk,
    Ctr,
    Ofb,
    Cfb,
    Uncfb,
    Cbc,
    Uncbc,
    Cbp,
    Uncbp,
    Mac,
    Chk,
}

const KEY_BLOCK: &[&str] = &["key", "block"];
const KEY_IV_TEXT: &[&str] = &["key", "IV", "text"];
const KEY_TEXT: &[&str] = &["key", "text"];
const KEY_TAG_TEXT: &[&str] = &["key", "tag", "text"];

impl Call {
    pub const ALL: [Call; 12] = [
        Call::Blk,
        Call::Unblk,
        Call::Ctr,
        Call::Ofb,
        Call::Cfb,
        Call::Uncfb,
        Call::Cbc,
        Call::Uncbc,
        Call::Cbp,
        Call::Uncbp,
        Call::Mac,
        Call::Chk,
    ];

    /// The name as recipes spell it.
    pub fn name(self) -> &'static str {
        match self {
            Call::Blk => "blk",
            Call::Unblk => "unblk",
            Call::Ctr => "ctr",
            Call::Ofb => "ofb",
            Call::Cfb => "cfb",
            Call::Uncfb => "uncfb",
            Call::Cbc => "cbc",
            Call::Uncbc => "uncbc",
            Call::Cbp => "cbp",
            Call::Uncbp => "uncbp",
            Call::Mac => "mac",
            Call::Chk => "chk",
        }
    }

    pub fn from_name(name: &str) -> Option<Call> {
        Call::ALL.into_iter().find(|call| call.name() == name)
    }

    /// What the arguments are, in their order.
    pub fn arguments(self) -> &'static [&'static str] {
        match self {
            Call::Blk | Call::Unblk => KEY_BLOCK,
            Call::Mac => KEY_TEXT,
            Call::Chk => KEY_TAG_TEXT,
            _ => KEY_IV_TEXT,
        }
    }

    /// The entry itself, with every number as it came.
    ///
    /// # Panics
    /// If the count of arguments is not this call's.
    pub fn answer(self, suite: u64, arguments: &[&[u8]], out: &mut [u8]) -> Answer {
        match *arguments {
            [a, b] => two(self.entry_of_two(), suite, a, b, out),
            [a, b, c] => three(self.entry_of_three(), suite, a, b, c, out),
            _ => self.wrong_count(),
        }
    }

    /// The answer's length, its bytes in front of `out`; or the refusal, `out` as it was.
    pub fn call(self, suite: u64, arguments: &[&[u8]], out: &mut [u8]) -> Result<usize, Refused> {
        self.answer(suite, arguments, out).result()
    }

    fn entry_of_two(self) -> Two {
        match self {
            Call::Blk => raw::katsu_blk,
            Call::Unblk => raw::katsu_unblk,
            Call::Mac => raw::katsu_mac,
            _ => self.wrong_count(),
        }
    }

    fn entry_of_three(self) -> Three {
        match self {
            Call::Ctr => raw::katsu_ctr,
            Call::Ofb => raw::katsu_ofb,
            Call::Cfb => raw::katsu_cfb,
            Call::Uncfb => raw::katsu_uncfb,
            Call::Cbc => raw::katsu_cbc,
            Call::Uncbc => raw::katsu_uncbc,
            Call::Cbp => raw::katsu_cbp,
            Call::Uncbp => raw::katsu_uncbp,
            Call::Chk => raw::katsu_chk,
            _ => self.wrong_count(),
        }
    }

    fn wrong_count(self) -> ! {
        panic!("{} takes {}", self.name(), self.arguments().join(", "))
    }
}

macro_rules! safe_entries {
    ($($(#[$doc:meta])* $name:ident = $call:ident($($argument:ident),*);)*) => {
        $($(#[$doc])*
        pub fn $name(suite: u64, $($argument: &[u8],)* out: &mut [u8]) -> Result<usize, Refused> {
            Call::$call.call(suite, &[$($argument),*], out)
        })*
    };
}

safe_entries! {
    /// Seals one block. Refuses with 1, 2, 5, 9 in this order.
    blk = Blk(key, block);
    /// Opens one block. Refuses with 1, 2, 5, 9.
    unblk = Unblk(key, block);
    /// Seals or opens by counters. Refuses with 1, 2, 3, 4, 6, 13, 9.
    ctr = Ctr(key, iv, text);
    /// Seals or opens by fed-back gamma. Refuses with 1, 2, 3, 4, 6, 9.
    ofb = Ofb(key, iv, text);
    /// Seals by fed-back sealed text. Refuses with 1, 2, 3, 4, 6, 9.
    cfb = Cfb(key, iv, text);
    /// Opens what `cfb` sealed. Refuses with 1, 2, 3, 4, 6, 9.
    uncfb = Uncfb(key, iv, text);
    /// Seals whole blocks, chained. Refuses with 1, 2, 3, 4, 6, 5, 9.
    cbc = Cbc(key, iv, text);
    /// Opens what `cbc` sealed. Refuses with 1, 2, 3, 4, 6, 5, 9.
    uncbc = Uncbc(key, iv, text);
    /// Seals after the fill 80 00.. up to a block end. Refuses with 1, 2, 3, 4, 6 (judged by its result), 9.
    cbp = Cbp(key, iv, text);
    /// Opens what `cbp` sealed and takes the fill off. Refuses with 1, 2, 3, 4, 6, 5, 8, 9.
    uncbp = Uncbp(key, iv, text);
    /// The tag of a text, one block long. Refuses with 1, 2, 4, 6, 9.
    mac = Mac(key, text);
}

/// Whether the tag, 8 bytes to a block long, is the text's. Refuses with 1, 2, 4, 6, 7.
pub fn chk(suite: u64, key: &[u8], tag: &[u8], text: &[u8]) -> Result<bool, Refused> {
    let mut out = [0];
    Call::Chk
        .call(suite, &[key, tag, text], &mut out)
        .map(|_| out == [1])
}
