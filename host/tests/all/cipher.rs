//! The twelve cipher entries against the plain implementation.

use crate::desk::{Cases, Desk};
use crate::random::Random;
use crate::reference::block::{suite as row, Cipher};
use crate::reference::modes;
use katsunebyo::cipher::{Call, Suite, SUITES};

/// The calls that seal a text under an IV.
const SEALING: [Call; 5] = [Call::Ctr, Call::Ofb, Call::Cfb, Call::Cbc, Call::Cbp];

/// Every length to past the second block, around every block end, and around the bound.
fn lengths(block: usize) -> Vec<usize> {
    let mut lengths: Vec<usize> = (0..=2 * block + 1).collect();
    for end in (3 * block..=1024).step_by(block) {
        lengths.extend([end - 1, end, end + 1]);
    }
    lengths.extend([1026, 1024 + block - 1, 1024 + block, 2048]);
    lengths.sort();
    lengths.dedup();
    lengths
}

/// Good arguments with a text of this length; the text of an opening call is not one that was sealed.
fn arguments(random: &mut Random, call: Call, suite: Suite, length: usize) -> Vec<Vec<u8>> {
    call.arguments()
        .iter()
        .map(|what| match *what {
            "key" => random.bytes(suite.key),
            "IV" => random.bytes(suite.block),
            "tag" => {
                let bytes = 8 + random.below(suite.block - 7);
                random.bytes(bytes)
            }
            _ => random.bytes(length),
        })
        .collect()
}

#[test]
fn every_length_around_a_block_end() {
    let mut desk = Desk::new("cipher: every length around a block end");
    let mut random = Random::new(31);
    for suite in SUITES {
        for call in Call::ALL {
            for length in lengths(suite.block) {
                let arguments = arguments(&mut random, call, suite, length);
                desk.cipher(call, suite.number, &arguments).ok();
            }
        }
    }
    desk.done();
}

/// Keys, IVs, tags and blocks of every length: each has only its own length check.
#[test]
fn every_length_of_the_other_arguments() {
    let mut desk = Desk::new("cipher: every length of key, IV, tag and block");
    let mut random = Random::new(32);
    for suite in SUITES {
        for call in Call::ALL {
            for place in 0..call.arguments().len() {
                for length in (0..=70).chain([127, 128, 129, 1024, 1025, 5000]) {
                    let mut arguments = arguments(&mut random, call, suite, 2 * suite.block);
                    arguments[place] = random.bytes(length);
                    desk.cipher(call, suite.number, &arguments).ok();
                }
            }
        }
    }
    desk.done();
}

/// Good and bad lengths in any mixture: which refusal goes first.
#[test]
fn mixtures_of_refusals() {
    let mut desk = Desk::new("cipher: mixtures of good and bad arguments");
    let mut random = Random::new(33);
    for _ in 0..12_000 {
        let suite = random.pick(&SUITES);
        let call = random.pick(&Call::ALL);
        let number = match random.percent(85) {
            true => suite.number,
            false => random.pick(&[0, 6, 7, 255, 257, 1 << 32 | 1, 1 << 63, u64::MAX]),
        };
        let arguments: Vec<Vec<u8>> = call
            .arguments()
            .iter()
            .map(|what| {
                let length = any_length(&mut random, what, suite);
                random.bytes(length)
            })
            .collect();
        desk.cipher(call, number, &arguments).ok();
    }
    desk.cases.saw(&[0, 1, 2, 3, 4, 5, 6, 7, 8, 9]);
    desk.done();
}

fn any_length(random: &mut Random, what: &str, suite: Suite) -> usize {
    let good = match what {
        "key" => suite.key,
        "IV" | "block" => suite.block,
        "tag" => 8 + random.below(suite.block - 7),
        _ => suite.block * (1 + random.below(4)),
    };
    let bad = match what {
        "key" => [0, suite.key - 1, suite.key + 1, 2048],
        "IV" | "block" => [0, suite.block - 1, suite.block + 1, 1025],
        "tag" => [0, 7, suite.block + 1, 1025],
        _ => [0, suite.block - 1, 1024, 1025],
    };
    match random.percent(70) {
        true => good,
        false => random.pick(&bad),
    }
}

#[test]
fn every_suite_number() {
    let mut desk = Desk::new("cipher: suite numbers");
    let mut random = Random::new(34);
    let far = (0..64).flat_map(|bit| [1u64 << bit, (1 << bit) | 3, u64::MAX >> bit]);
    for number in (0..=300).chain(far) {
        let call = random.pick(&Call::ALL);
        let suite = row(number).map_or(SUITES[0], |_| SUITES[number as usize - 1]);
        let arguments = arguments(&mut random, call, suite, suite.block);
        let judged = desk.cipher(call, number, &arguments);
        assert_eq!(judged == Err((1, 0)), !(1..=5).contains(&number));
        desk.cipher(
            call,
            number,
            &arguments.iter().map(|_| vec![]).collect::<Vec<_>>(),
        )
        .ok();
    }
    desk.done();
}

/// Texts whose last bytes look like fills, sealed by plain chaining and opened with the fill taken off.
#[test]
fn fills_good_and_bad() {
    let mut desk = Desk::new("cipher: fills, good and bad");
    let mut random = Random::new(35);
    for suite in SUITES {
        let block = suite.block;
        for blocks in [1, 2, 3, 1024 / block] {
            for shape in 0..10 {
                for at in 0..=block {
                    let mut plain = random.bytes(block * blocks);
                    shape_end(&mut plain, shape, at);
                    open_filled(&mut desk, &mut random, suite, &plain);
                }
            }
        }
    }
    desk.done();
}

/// `at` counts from the text's end.
fn shape_end(plain: &mut [u8], shape: usize, at: usize) {
    let length = plain.len();
    let tail = &mut plain[length - at..];
    tail.fill(0);
    match (shape, tail) {
        (_, []) => {}
        (0..=2, tail) => tail[0] = 0x80,
        (3, tail) => tail[0] = 0x81,
        (4, tail) => tail[0] = 0x40,
        (5, tail) => tail[0] = 0x01,
        (6, [first, .., last]) => (*first, *last) = (0x80, 0x80),
        (7, [first, .., last]) => (*first, *last) = (0x80, 0x01),
        // 8: zeros alone, so that the 80 may stand before the last block.
        _ => {}
    }
    if shape == 8 && length > 2 * at {
        plain[length - at - 1] = 0x80;
    }
    if shape == 9 {
        plain.fill(0);
        plain[0] = 0x80;
    }
}

fn open_filled(desk: &mut Desk, random: &mut Random, suite: Suite, plain: &[u8]) {
    let (key, iv) = (random.bytes(suite.key), random.bytes(suite.block));
    let cipher = Cipher::new(row(suite.number).expect("1 to 5"), &key);
    let sealed = modes::cbc(&cipher, &iv, plain);
    desk.cipher(Call::Uncbp, suite.number, &[key, iv, sealed])
        .ok();
}

/// 80 at the end of the block before the last one, the last all zero: no text seals to that.
#[test]
fn zeros_past_the_last_block_are_not_stripped() {
    let mut desk = Desk::new("cipher: 80 before the last block");
    let mut random = Random::new(36);
    for suite in SUITES {
        let mut plain = random.bytes(3 * suite.block);
        plain[2 * suite.block - 1..].fill(0);
        plain[2 * suite.block - 1] = 0x80;
        let (key, iv) = (random.bytes(suite.key), random.bytes(suite.block));
        let cipher = Cipher::new(row(suite.number).expect("1 to 5"), &key);
        let sealed = modes::cbc(&cipher, &iv, &plain);
        let judged = desk.cipher(Call::Uncbp, suite.number, &[key, iv, sealed]);
        assert_eq!(judged, Err((8, 0)));
    }
    desk.done();
}

/// Opening undoes sealing, by the library alone, at every length.
#[test]
fn round_trips() {
    let mut cases = Cases::new("cipher: round trips by the library alone");
    let mut random = Random::new(37);
    let (mut sealed, mut opened) = ([0; 1024], [0; 1024]);
    for suite in SUITES {
        for call in SEALING {
            let undoing = crate::vectors::undoing(call).expect("a mode");
            for length in 1..=1024 {
                let given = arguments(&mut random, call, suite, length);
                let lent: Vec<&[u8]> = given.iter().map(Vec::as_slice).collect();
                let Ok(n) = call.call(suite.number, &lent, &mut sealed) else {
                    assert!(matches!(call, Call::Cbc | Call::Cbp));
                    continue;
                };
                let back = [lent[0], lent[1], &sealed[..n]];
                let n = undoing.call(suite.number, &back, &mut opened);
                assert_eq!(n, Ok(length));
                assert!(opened[..length] == *lent[2], "{} {length}", call.name());
                cases.one();
            }
        }
    }
    cases.say();
}

/// A right tag at every length; any one bit of it turned; a tag of another text.
#[test]
fn tags() {
    let mut desk = Desk::new("cipher: tags");
    let mut random = Random::new(38);
    for suite in SUITES {
        let cipher_row = row(suite.number).expect("1 to 5");
        for length in [
            1,
            suite.block - 1,
            suite.block,
            suite.block + 1,
            3 * suite.block,
            1024,
        ] {
            let (key, text) = (random.bytes(suite.key), random.bytes(length));
            let whole = modes::mac(&Cipher::new(cipher_row, &key), &text);
            for bytes in 0..=suite.block + 2 {
                let mut tag = whole.clone();
                tag.resize(bytes, 0);
                let judged =
                    desk.cipher(Call::Chk, suite.number, &[key.clone(), tag, text.clone()]);
                let good = (8..=suite.block).contains(&bytes);
                assert_eq!(judged, if good { Ok(vec![1]) } else { Err((7, 0)) });
            }
            for bit in 0..8 * suite.block {
                let mut tag = whole.clone();
                tag[bit / 8] ^= 1 << (bit % 8);
                let judged =
                    desk.cipher(Call::Chk, suite.number, &[key.clone(), tag, text.clone()]);
                assert_eq!(judged, Ok(vec![0]));
            }
        }
    }
    desk.done();
}

/// Encrypted IVs near the tops of their halves: counters that carry.
#[test]
fn counters_that_carry() {
    let mut desk = Desk::new("cipher: counters that carry");
    let mut random = Random::new(39);
    for suite in SUITES {
        for carried in 0..=suite.block {
            for below in [1, 2, 40] {
                let mut start = random.bytes(suite.block);
                start[..carried].fill(0xFF);
                if carried > 0 {
                    start[0] = 255 - below + 1;
                }
                let key = random.bytes(suite.key);
                let cipher = Cipher::new(row(suite.number).expect("1 to 5"), &key);
                let iv = cipher.open(&start);
                let text = vec![0; 1024];
                desk.cipher(Call::Ctr, suite.number, &[key, iv, text]).ok();
            }
        }
    }
    desk.done();
}

/// Keys, IVs and texts of runs and single bits, where carries and zeros meet.
#[test]
fn plain_looking_inputs() {
    let mut desk = Desk::new("cipher: inputs of runs and single bits");
    let mut random = Random::new(40);
    let plain = |random: &mut Random, length: usize| -> Vec<u8> {
        let mut bytes = vec![random.pick(&[0x00, 0xFF, 0x80, 0x01]); length];
        if random.percent(50) && length > 0 {
            let at = random.below(length);
            bytes[at] ^= 1 << random.below(8);
        }
        bytes
    };
    for suite in SUITES {
        for call in Call::ALL {
            for _ in 0..40 {
                let blocks = suite.block * (1 + random.below(4));
                let arguments: Vec<Vec<u8>> = arguments(&mut random, call, suite, blocks)
                    .iter()
                    .map(|argument| plain(&mut random, argument.len()))
                    .collect();
                desk.cipher(call, suite.number, &arguments).ok();
            }
        }
    }
    desk.done();
}
