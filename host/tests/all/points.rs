//! The points of document 01, section 8, and other single cases that the documents decide.

use crate::desk::Desk;
use crate::random::Random;
use crate::reference::block::{suite, Cipher};
use crate::reference::modes;
use crate::reference::records::list_of;
use crate::reference::tree::{Tree, Values};
use crate::vectors::bytes;
use katsunebyo::cipher::{Call, SUITES};

fn bound_42() -> Vec<u8> {
    list_of(&Values(vec![('#', 0, vec![0x42])]))
}

#[test]
fn images_of_p8_to_p11() {
    let mut desk = Desk::new("points P8 to P11");
    for (text, image) in [
        ("cat('41',#0)", "020001004142"),
        ("cat(cat('41',#0),@1)", "0B0010000200010041420100030001"),
        ("xor('41','4142')", "0B00110001000100410200010041 42"),
        ("when('01',$0,xor('41','4142'))", "0100020000"),
    ] {
        let image = bytes(&image.replace(' ', ""));
        assert_eq!(desk.prepare(text.as_bytes(), &bound_42()), Ok(image));
    }
    let refusing = bytes("0B0011000100010041020001004142");
    let mut random = Random::new(41);
    for _ in 0..200 {
        let made = crate::random::recipe(&mut random, 1, 1);
        assert_eq!(desk.run(&refusing, &list_of(&made.run)), Err((10, 0)));
    }
    desk.done();
}

#[test]
fn fills_and_tags_at_the_bounds() {
    let mut desk = Desk::new("points: cbp of 46, 48, 1,023, 1,024; tags of 7 and B+1");
    let mut random = Random::new(42);
    let (key, iv) = (random.bytes(16), random.bytes(16));
    for (length, answer) in [
        (46, Ok(48)),
        (48, Ok(64)),
        (1023, Ok(1024)),
        (1024, Err((6, 0))),
    ] {
        let judged = desk.cipher(
            Call::Cbp,
            1,
            &[key.clone(), iv.clone(), random.bytes(length)],
        );
        assert_eq!(judged.map(|sealed| sealed.len()), answer);
    }
    for suite in SUITES {
        for length in [7, suite.block + 1] {
            let tag = random.bytes(length);
            let judged = desk.cipher(
                Call::Chk,
                suite.number,
                &[random.bytes(suite.key), tag, random.bytes(20)],
            );
            assert_eq!(judged, Err((7, 0)));
        }
    }
    desk.done();
}

/// A cell whose counter carries out of the low half of the block.
#[test]
fn the_counter_runs_over_the_whole_block() {
    let mut desk = Desk::new("points: the counter cell");
    let answer = desk.cipher(
        Call::Ctr,
        1,
        &[
            bytes("000102030405060708090A0B0C0D0E0F"),
            bytes("E2F44E0F199563508CFC85876AE356B2"),
            vec![0; 32],
        ],
    );
    let whole = bytes("DBF3DA2E704335A67FF4F877E664D78AC09D61ACEF3684F97EF1540CF7497E66");
    assert_eq!(answer, Ok(whole));
    desk.done();
}

/// Section 10's readings that look right give other bytes, so the cells here tell them apart.
#[test]
fn readings_that_look_right_are_told_apart() {
    let mut desk = Desk::new("points: readings that look right");
    let mut random = Random::new(43);
    for row in SUITES {
        let (key, iv) = (random.bytes(row.key), random.bytes(row.block));
        let text = random.bytes(row.block + 5);
        let cipher = Cipher::new(suite(row.number).expect("1 to 5"), &key);
        let arguments = [key.clone(), iv.clone(), text.clone()];
        let counted = desk
            .cipher(Call::Ctr, row.number, &arguments)
            .expect("a value");
        let from_start =
            crate::reference::block::xor(&text[..row.block], &cipher.seal(&cipher.seal(&iv)));
        assert_ne!(counted[..row.block], from_start);
        let fed = desk
            .cipher(Call::Cfb, row.number, &arguments)
            .expect("a value");
        let gamma = cipher.seal(&fed[..row.block]);
        let front = crate::reference::block::xor(&text[row.block..], &gamma[..5]);
        assert_ne!(fed[row.block..], front);
        assert_eq!(fed, modes::cfb(&cipher, &iv, &text));
    }
    let joined = desk.prepare(b"cat('41',cat('42',@0))", &[]);
    let inner = Tree::Call("cat", 0, vec![Tree::Constant(vec![0x42]), Tree::Run(0)]);
    let outer = Tree::Call("cat", 0, vec![Tree::Constant(vec![0x41]), inner]);
    assert_eq!(joined.ok(), crate::reference::records::image(&outer));
    let unchosen = desk.prepare(b"when(@0,xor('41',''),'42')", &[]);
    assert!(unchosen.is_ok());
    desk.done();
}
