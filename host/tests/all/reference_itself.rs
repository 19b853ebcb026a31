//! The plain implementation against the documents' own examples and laws, without the library.

use crate::desk::Cases;
use crate::random::{recipe, Random};
use crate::reference::block::{self, steps, suite, Cipher};
use crate::reference::modes;
use crate::reference::texts::read;
use crate::reference::tree::{Tree, Values};
use crate::vectors::{bytes, vectors};

#[test]
fn key_schedules_are_the_printed_ones() {
    let mut cases = Cases::new("reference: printed round keys");
    for vector in vectors().into_iter().filter(|v| v.call == "keys") {
        let suite = suite(vector.suite).expect("1 to 5");
        let mut keys = vec![block::helper_key(suite, &vector.arguments[0])];
        keys.extend(block::round_keys(suite, &vector.arguments[0]));
        assert_eq!(keys, vector.answers, "{}", vector.name);
        keys.iter().for_each(|_| cases.one());
    }
    cases.say();
}

/// P1 to P7 of document 01, section 8.
#[test]
fn single_steps_are_the_printed_ones() {
    let mut cases = Cases::new("reference: P1 to P7");
    let mut equal = |a: Vec<u8>, b: Vec<u8>| {
        assert_eq!(a, b);
        cases.one();
    };
    equal(vec![steps::substitution(0, 0x23)], vec![0x4F]);
    equal(vec![steps::inverse(0, 0xA3)], vec![0x22]);
    equal(
        steps::substituted(&bytes("0501020304050607")),
        bytes("75BB9A4D6BCB452A"),
    );
    equal(
        steps::mixed(&bytes("75BB9A4D1790511F")),
        bytes("62C97C6E6ABF4133"),
    );
    let starts = (1..=5).map(|n| steps::start_number(suite(n).expect("1 to 5")) as u8);
    equal(starts.collect(), vec![5, 7, 9, 13, 17]);
    equal(vec![steps::moved(5, 4) as u8], vec![2]);
    equal(
        steps::odd_after(&bytes("16505E6B9B3AB1E6865B77DCE082A0F4")),
        bytes("E6865B77DCE082A0F416505E6B9B3AB1"),
    );
    cases.say();
}

#[test]
fn the_tables_undo_each_other() {
    let mut cases = Cases::new("reference: substitutions and inverses");
    for row in 0..4 {
        for byte in 0..=255 {
            assert_eq!(steps::inverse(row, steps::substitution(row, byte)), byte);
            assert_eq!(steps::substitution(row, steps::inverse(row, byte)), byte);
            cases.one();
        }
    }
    cases.say();
}

#[test]
fn opening_undoes_sealing() {
    let mut cases = Cases::new("reference: opening undoes sealing");
    let mut random = Random::new(11);
    for number in 1..=5 {
        let suite = suite(number).expect("1 to 5");
        for _ in 0..40 {
            let cipher = Cipher::new(suite, &random.bytes(suite.key));
            let (iv, block) = (random.bytes(suite.block), random.bytes(suite.block));
            let length = 1 + random.below(200);
            let text = random.bytes(length);
            assert_eq!(cipher.open(&cipher.seal(&block)), block);
            assert_eq!(
                modes::uncfb(&cipher, &iv, &modes::cfb(&cipher, &iv, &text)),
                text
            );
            assert_eq!(
                modes::uncbp(&cipher, &iv, &modes::cbp(&cipher, &iv, &text)),
                Some(text)
            );
            cases.one();
        }
    }
    cases.say();
}

/// CMAC examples of odd bits, on their printed filled text: В.5.3 and В.5.4.
#[test]
fn tags_of_filled_bits_are_the_printed_ones() {
    let mut cases = Cases::new("reference: tags over filled bits");
    for vector in vectors().into_iter().filter(|v| v.call == "filled-mac") {
        let cipher = Cipher::new(suite(vector.suite).expect("1 to 5"), &vector.arguments[0]);
        let tag = modes::mac_of_blocks(&cipher, &vector.arguments[1], true);
        assert_eq!(tag, vector.answers[0], "{}", vector.name);
        cases.one();
    }
    cases.say();
}

/// Demand 3 on the plain implementation, the spelling read back, and the law of constants.
#[test]
fn folding_keeps_the_meaning() {
    let mut cases = Cases::new("reference: folding keeps the meaning");
    let mut random = Random::new(12);
    for _ in 0..3000 {
        let made = recipe(&mut random, 6, 20);
        let text = made.tree.spelled();
        let tree = read(text.as_bytes()).expect("a spelling can be read");
        assert_eq!(tree.spelled(), text);
        if tree.first_unbound(&made.bound).is_some() {
            continue;
        }
        let folded = tree.folded(&made.bound);
        let all = Values([made.bound.0.clone(), made.run.0.clone()].concat());
        assert_eq!(folded.value(&made.run), tree.value(&all), "{text}");
        let constant = matches!(folded, Tree::Constant(_));
        assert_eq!(constant, tree.value(&made.bound).is_ok(), "{text}");
        cases.one();
    }
    cases.say();
}
