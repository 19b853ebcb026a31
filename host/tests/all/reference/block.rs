//! Document 003, section 6: the block transformation and its round keys, byte by byte.

use super::tables::{INVERSES, SUBSTITUTIONS};
use std::sync::OnceLock;

/// A row of table 6.1, in bytes.
#[derive(Clone, Copy, Debug)]
pub struct Suite {
    pub block: usize,
    pub key: usize,
    pub rounds: usize,
}

/// The suite with this number, if it is 1 to 5.
pub fn suite(number: u64) -> Option<Suite> {
    let (block_bits, key_bits, rounds) = match number {
        1 => (128, 128, 10),
        2 => (128, 256, 14),
        3 => (256, 256, 14),
        4 => (256, 512, 18),
        5 => (512, 512, 18),
        _ => return None,
    };
    Some(Suite {
        block: block_bits / 8,
        key: key_bits / 8,
        rounds,
    })
}

/// The state: byte `8 * j + i` is row i of column j.
type State = Vec<u8>;

/// 6.3.2: columns added modulo 2^64, low byte first.
fn add(state: &State, key: &[u8]) -> State {
    by_columns(state, key, u64::wrapping_add)
}

/// 6.4.2: columns subtracted modulo 2^64.
fn subtract(state: &State, key: &[u8]) -> State {
    by_columns(state, key, u64::wrapping_sub)
}

fn by_columns(state: &State, key: &[u8], operation: fn(u64, u64) -> u64) -> State {
    assert_eq!(state.len(), key.len());
    state
        .chunks(8)
        .zip(key.chunks(8))
        .flat_map(|(a, b)| operation(column(a), column(b)).to_le_bytes())
        .collect()
}

fn column(bytes: &[u8]) -> u64 {
    u64::from_le_bytes(bytes.try_into().expect("a column has eight bytes"))
}

/// 6.3.6: a key added modulo 2.
pub fn xor(a: &[u8], b: &[u8]) -> Vec<u8> {
    assert_eq!(a.len(), b.len());
    a.iter().zip(b).map(|(a, b)| a ^ b).collect()
}

/// 6.3.3 and 6.4.3.
fn substitute(state: &State, tables: &[[u8; 256]; 4]) -> State {
    (0..state.len())
        .map(|at| tables[at % 8 % 4][state[at] as usize])
        .collect()
}

/// 6.3.4: how far row i moves right.
fn row_shift(row: usize, columns: usize) -> usize {
    row * (64 * columns) / 512
}

fn shift_rows(state: &State) -> State {
    let columns = state.len() / 8;
    let mut shifted = state.clone();
    for row in 0..8 {
        for from in 0..columns {
            let to = (from + row_shift(row, columns)) % columns;
            shifted[8 * to + row] = state[8 * from + row];
        }
    }
    shifted
}

/// 6.4.4: rows moved back.
fn unshift_rows(state: &State) -> State {
    let columns = state.len() / 8;
    let mut shifted = state.clone();
    for row in 0..8 {
        for to in 0..columns {
            let from = (to + row_shift(row, columns)) % columns;
            shifted[8 * to + row] = state[8 * from + row];
        }
    }
    shifted
}

/// Multiplication in GF(2^8) by x^8 + x^4 + x^3 + x^2 + 1.
fn multiply(a: u8, b: u8) -> u8 {
    let (mut a, mut product) = (a as u16, 0);
    for bit in 0..8 {
        if b >> bit & 1 == 1 {
            product ^= a;
        }
        a <<= 1;
        if a & 0x100 != 0 {
            a ^= 0x11D;
        }
    }
    product as u8
}

/// All products, made once: the comparison multiplies millions of times.
fn products() -> &'static Vec<[u8; 256]> {
    static PRODUCTS: OnceLock<Vec<[u8; 256]>> = OnceLock::new();
    PRODUCTS.get_or_init(|| {
        (0..=255)
            .map(|a| std::array::from_fn(|b| multiply(a, b as u8)))
            .collect()
    })
}

const MIX: [u8; 8] = [0x01, 0x01, 0x05, 0x01, 0x08, 0x06, 0x07, 0x04];
const UNMIX: [u8; 8] = [0xAD, 0x95, 0x76, 0xA8, 0x2F, 0x49, 0xD7, 0xCA];

/// 6.3.5 and 6.4.5: result byte i is the vector turned right by i, times the column.
fn mix(state: &State, vector: &[u8; 8]) -> State {
    let products = products();
    let mut mixed = vec![0; state.len()];
    for (column, result) in state.chunks(8).zip(mixed.chunks_mut(8)) {
        for (i, byte) in result.iter_mut().enumerate() {
            for (k, &element) in column.iter().enumerate() {
                *byte ^= products[vector[(k + 8 - i) % 8] as usize][element as usize];
            }
        }
    }
    mixed
}

fn substitute_shift_mix(state: &State) -> State {
    mix(&shift_rows(&substitute(state, &SUBSTITUTIONS)), &MIX)
}

fn unmix_unshift_unsubstitute(state: &State) -> State {
    substitute(&unshift_rows(&mix(state, &UNMIX)), &INVERSES)
}

/// 6.5.1: the helper key.
pub fn helper_key(suite: Suite, key: &[u8]) -> Vec<u8> {
    let (first, second) = if suite.key == suite.block {
        (key, key)
    } else {
        key.split_at(suite.block)
    };
    let mut state = vec![0; suite.block];
    state[0] = ((8 * suite.block + 8 * suite.key + 64) / 64) as u8;
    state = substitute_shift_mix(&add(&state, first));
    state = substitute_shift_mix(&xor(&state, second));
    substitute_shift_mix(&add(&state, first))
}

/// A sequence turned towards index 0 by whole bytes.
fn turned(bytes: &[u8], by: usize) -> Vec<u8> {
    (0..bytes.len())
        .map(|at| bytes[(at + by) % bytes.len()])
        .collect()
}

/// 6.5.2: the part of the key that an even index starts from.
fn even_start(suite: Suite, key: &[u8], index: usize) -> Vec<u8> {
    if suite.key == suite.block {
        return turned(key, 32 * index / 8);
    }
    let (low, high) = (..suite.block, suite.block..);
    match index % 4 {
        0 => turned(key, 16 * index / 8)[low].to_vec(),
        _ => turned(key, 64 * (index / 4) / 8)[high].to_vec(),
    }
}

/// 6.5.2: the helper key plus the constant of an even index, each 16-bit lane of which doubles.
fn addend(helper: &State, index: usize) -> State {
    let constant: Vec<u8> = (0..helper.len() / 2)
        .flat_map(|_| (1u16 << (index / 2)).to_le_bytes())
        .collect();
    add(helper, &constant)
}

fn even_key(suite: Suite, key: &[u8], helper: &State, index: usize) -> Vec<u8> {
    let addend = addend(helper, index);
    let state = substitute_shift_mix(&add(&even_start(suite, key, index), &addend));
    add(&substitute_shift_mix(&xor(&state, &addend)), &addend)
}

/// 6.5.3: an odd key is the one before, turned towards the high end by 3l/4 - 24 bits.
fn odd_key(before: &[u8]) -> Vec<u8> {
    let bytes = (3 * 8 * before.len() / 4 - 24) / 8;
    turned(before, before.len() - bytes)
}

/// Round keys 0 to t.
pub fn round_keys(suite: Suite, key: &[u8]) -> Vec<Vec<u8>> {
    let helper = helper_key(suite, key);
    let mut keys: Vec<Vec<u8>> = Vec::new();
    for index in 0..=suite.rounds {
        keys.push(match index % 2 {
            0 => even_key(suite, key, &helper, index),
            _ => odd_key(&keys[index - 1]),
        });
    }
    keys
}

/// The cipher under one key.
pub struct Cipher {
    pub block: usize,
    keys: Vec<Vec<u8>>,
}

impl Cipher {
    pub fn new(suite: Suite, key: &[u8]) -> Cipher {
        Cipher {
            block: suite.block,
            keys: round_keys(suite, key),
        }
    }

    /// 6.3.1.
    pub fn seal(&self, block: &[u8]) -> Vec<u8> {
        let last = self.keys.len() - 1;
        let mut state = add(&block.to_vec(), &self.keys[0]);
        for key in &self.keys[1..last] {
            state = xor(&substitute_shift_mix(&state), key);
        }
        add(&substitute_shift_mix(&state), &self.keys[last])
    }

    /// 6.4.1.
    pub fn open(&self, block: &[u8]) -> Vec<u8> {
        let last = self.keys.len() - 1;
        let mut state = subtract(&block.to_vec(), &self.keys[last]);
        state = unmix_unshift_unsubstitute(&state);
        for key in self.keys[1..last].iter().rev() {
            state = unmix_unshift_unsubstitute(&xor(&state, key));
        }
        subtract(&state, &self.keys[0])
    }
}

/// The single steps that sections 6 and В.2.1 give examples of.
pub mod steps {
    use super::*;

    pub fn substitution(row: usize, byte: u8) -> u8 {
        SUBSTITUTIONS[row % 4][byte as usize]
    }

    pub fn inverse(row: usize, byte: u8) -> u8 {
        INVERSES[row % 4][byte as usize]
    }

    pub fn substituted(column: &[u8]) -> Vec<u8> {
        substitute(&column.to_vec(), &SUBSTITUTIONS)
    }

    pub fn mixed(column: &[u8]) -> Vec<u8> {
        mix(&column.to_vec(), &MIX)
    }

    pub fn start_number(suite: Suite) -> usize {
        (8 * suite.block + 8 * suite.key + 64) / 64
    }

    pub fn moved(row: usize, columns: usize) -> usize {
        row_shift(row, columns)
    }

    pub fn odd_after(key: &[u8]) -> Vec<u8> {
        odd_key(key)
    }
}
