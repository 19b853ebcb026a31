//! Document 003, sections 7 to 11, on whole bytes, with document 01 section 4's fill.

use super::block::{xor, Cipher};

/// A number of a block's width plus `i`, low byte first; a carry over the last byte is lost.
fn plus(block: &[u8], i: usize) -> Vec<u8> {
    let mut sum = block.to_vec();
    let mut carry = i;
    for byte in &mut sum {
        let total = *byte as usize + carry;
        *byte = total as u8;
        carry = total >> 8;
    }
    sum
}

/// Section 7.
pub fn ctr(cipher: &Cipher, iv: &[u8], text: &[u8]) -> Vec<u8> {
    let start = cipher.seal(iv);
    text.chunks(cipher.block)
        .zip(1..)
        .flat_map(|(part, i)| xor(part, &cipher.seal(&plus(&start, i))[..part.len()]))
        .collect()
}

/// Whether two counters of a CTR text of so many bytes are equal: the numbers 1 to n of its blocks differ by less than
/// 2^128, so never.
pub fn counters_meet(cipher: &Cipher, length: usize) -> bool {
    length.div_ceil(cipher.block) as u128 > u128::MAX
}

/// Section 11.
pub fn ofb(cipher: &Cipher, iv: &[u8], text: &[u8]) -> Vec<u8> {
    let mut gamma = iv.to_vec();
    let mut answer = Vec::new();
    for part in text.chunks(cipher.block) {
        gamma = cipher.seal(&gamma);
        answer.extend(xor(part, &gamma[..part.len()]));
    }
    answer
}

/// Section 8 with q = l: the last bytes of the gamma for a short last block.
pub fn cfb(cipher: &Cipher, iv: &[u8], text: &[u8]) -> Vec<u8> {
    feedback(cipher, iv, text, |_, sealed| sealed)
}

pub fn uncfb(cipher: &Cipher, iv: &[u8], text: &[u8]) -> Vec<u8> {
    feedback(cipher, iv, text, |taken, _| taken)
}

/// `fed` picks the sealed part of what went in and what came out.
fn feedback(
    cipher: &Cipher,
    iv: &[u8],
    text: &[u8],
    fed: for<'a> fn(&'a [u8], &'a [u8]) -> &'a [u8],
) -> Vec<u8> {
    let mut before = iv.to_vec();
    let mut answer = Vec::new();
    for part in text.chunks(cipher.block) {
        let gamma = cipher.seal(&before);
        let result = xor(part, &gamma[cipher.block - part.len()..]);
        // A short part is the last one: what it would feed back is not used.
        before = fed(part, &result).to_vec();
        answer.extend(result);
    }
    answer
}

/// Section 10.
pub fn cbc(cipher: &Cipher, iv: &[u8], text: &[u8]) -> Vec<u8> {
    let mut before = iv.to_vec();
    let mut answer = Vec::new();
    for part in text.chunks(cipher.block) {
        before = cipher.seal(&xor(&before, part));
        answer.extend(&before);
    }
    answer
}

pub fn uncbc(cipher: &Cipher, iv: &[u8], text: &[u8]) -> Vec<u8> {
    let mut before = iv;
    let mut answer = Vec::new();
    for part in text.chunks(cipher.block) {
        answer.extend(xor(before, &cipher.open(part)));
        before = part;
    }
    answer
}

/// 80, then 00 up to a block end.
pub fn filled(text: &[u8], block: usize) -> Vec<u8> {
    let mut filled = text.to_vec();
    filled.push(0x80);
    filled.resize(block * (text.len() / block + 1), 0);
    filled
}

/// The text of at least one byte whose filling these whole blocks are, if there is one.
pub fn unfilled(blocks: &[u8], block: usize) -> Option<Vec<u8>> {
    let last = blocks.len() - block;
    let at = last + blocks[last..].iter().rposition(|&byte| byte != 0)?;
    (blocks[at] == 0x80 && at > 0).then(|| blocks[..at].to_vec())
}

pub fn cbp(cipher: &Cipher, iv: &[u8], text: &[u8]) -> Vec<u8> {
    cbc(cipher, iv, &filled(text, cipher.block))
}

pub fn uncbp(cipher: &Cipher, iv: &[u8], text: &[u8]) -> Option<Vec<u8>> {
    unfilled(&uncbc(cipher, iv, text), cipher.block)
}

/// Section 9.2 on whole blocks, which were filled or not.
pub fn mac_of_blocks(cipher: &Cipher, blocks: &[u8], was_filled: bool) -> Vec<u8> {
    let mut start = vec![0; cipher.block];
    start[0] = was_filled as u8;
    let mask = cipher.seal(&start);
    let last = blocks.len() / cipher.block - 1;
    let mut state = vec![0; cipher.block];
    for (i, part) in blocks.chunks(cipher.block).enumerate() {
        let mut entering = xor(&state, part);
        if i == last {
            entering = xor(&entering, &mask);
        }
        state = cipher.seal(&entering);
    }
    state
}

/// Section 9: whole blocks go unfilled.
pub fn mac(cipher: &Cipher, text: &[u8]) -> Vec<u8> {
    match text.len() % cipher.block {
        0 => mac_of_blocks(cipher, text, false),
        _ => mac_of_blocks(cipher, &filled(text, cipher.block), true),
    }
}
