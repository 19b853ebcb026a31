//! Document 01, sections 4, 5 and 7: what a call answers on values, its checks in their order.

use super::block::{suite, Cipher, Suite};
use super::modes;

/// A value, or the number of a refusal.
pub type Value = Result<Vec<u8>, u32>;

pub const LONGEST: usize = 1024;

/// Cipher calls in the order of section 6, so that the place here is f.
pub const CIPHER_CALLS: [&str; 12] = [
    "blk", "unblk", "ctr", "ofb", "cfb", "uncfb", "cbc", "uncbc", "cbp", "uncbp", "mac", "chk",
];

/// Plain calls with their image kinds and counts of arguments.
pub const PLAIN_CALLS: [(&str, u16, usize); 5] = [
    ("cat", 0x0010, 2),
    ("xor", 0x0011, 2),
    ("eq", 0x0012, 2),
    ("head", 0x0013, 2),
    ("when", 0x0014, 3),
];

pub fn cipher_arguments(call: &str) -> usize {
    match call {
        "blk" | "unblk" | "mac" => 2,
        _ => 3,
    }
}

fn refuse_if(refused: bool, number: u32) -> Result<(), u32> {
    if refused {
        Err(number)
    } else {
        Ok(())
    }
}

/// A cipher call's value: 1, 2, 3, 4, 6, 5, 7, 8, 13.
pub fn cipher_call(call: &str, number: u64, arguments: &[Vec<u8>]) -> Value {
    let suite = suite(number).ok_or(1u32)?;
    let key = &arguments[0];
    refuse_if(key.len() != suite.key, 2)?;
    match call {
        "blk" | "unblk" => one_block(call, suite, key, &arguments[1]),
        "mac" => {
            check_text(&arguments[1], arguments[1].len())?;
            Ok(modes::mac(&Cipher::new(suite, key), &arguments[1]))
        }
        "chk" => check_tag(suite, key, &arguments[1], &arguments[2]),
        _ => mode(call, suite, key, &arguments[1], &arguments[2]),
    }
}

fn one_block(call: &str, suite: Suite, key: &[u8], block: &[u8]) -> Value {
    refuse_if(block.len() != suite.block, 5)?;
    let cipher = Cipher::new(suite, key);
    Ok(match call {
        "blk" => cipher.seal(block),
        _ => cipher.open(block),
    })
}

/// 4, then 6 by the length that it is judged by.
fn check_text(text: &[u8], judged: usize) -> Result<(), u32> {
    refuse_if(text.is_empty(), 4)?;
    refuse_if(judged > LONGEST, 6)
}

fn check_tag(suite: Suite, key: &[u8], tag: &[u8], text: &[u8]) -> Value {
    check_text(text, text.len())?;
    refuse_if(tag.len() < 8 || tag.len() > suite.block, 7)?;
    let whole = modes::mac(&Cipher::new(suite, key), text);
    Ok(vec![(whole[..tag.len()] == *tag) as u8])
}

fn mode(call: &str, suite: Suite, key: &[u8], iv: &[u8], text: &[u8]) -> Value {
    refuse_if(iv.len() != suite.block, 3)?;
    let judged = match call {
        "cbp" => suite.block * (text.len() / suite.block + 1),
        _ => text.len(),
    };
    check_text(text, judged)?;
    let whole_only = matches!(call, "cbc" | "uncbc" | "uncbp");
    let past_blocks = text.len() % suite.block;
    refuse_if(whole_only && past_blocks != 0, 5)?;
    let cipher = Cipher::new(suite, key);
    match call {
        "ctr" => {
            refuse_if(modes::counters_meet(&cipher, text.len()), 13)?;
            Ok(modes::ctr(&cipher, iv, text))
        }
        "ofb" => Ok(modes::ofb(&cipher, iv, text)),
        "cfb" => Ok(modes::cfb(&cipher, iv, text)),
        "uncfb" => Ok(modes::uncfb(&cipher, iv, text)),
        "cbc" => Ok(modes::cbc(&cipher, iv, text)),
        "uncbc" => Ok(modes::uncbc(&cipher, iv, text)),
        "cbp" => Ok(modes::cbp(&cipher, iv, text)),
        "uncbp" => modes::uncbp(&cipher, iv, text).ok_or(8),
        _ => unreachable!("no cipher call {call}"),
    }
}

/// A plain call's value; `when` chooses between trees and is not among them.
pub fn plain_call(call: &str, arguments: &[Vec<u8>]) -> Value {
    let (a, b) = (&arguments[0], &arguments[1]);
    match call {
        "cat" => {
            refuse_if(a.len() + b.len() > LONGEST, 6)?;
            Ok([&a[..], &b[..]].concat())
        }
        "xor" => {
            refuse_if(a.len() != b.len(), 10)?;
            Ok(super::block::xor(a, b))
        }
        "eq" => Ok(vec![(a == b) as u8]),
        "head" => {
            refuse_if(a.len() != 1 || a[0] as usize > b.len(), 12)?;
            Ok(b[..a[0] as usize].to_vec())
        }
        _ => unreachable!("no plain call {call}"),
    }
}

/// The check of `when`: true for 01, false for 00, else 11.
pub fn choice(c: &[u8]) -> Result<bool, u32> {
    match c {
        [0] => Ok(false),
        [1] => Ok(true),
        _ => Err(11),
    }
}
