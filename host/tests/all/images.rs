//! Images: which bytes are one, and what running them answers.

use crate::desk::Desk;
use crate::random::{damaged, recipe, Random};
use crate::reference::records::{image, list_of, record, LARGEST};
use crate::reference::tree::{Tree, Values};

/// Names become constants or row names, so that any tree has an image; it need not be folded.
fn without_bound(tree: &Tree) -> Tree {
    match tree {
        Tree::Bound(digit, _) => Tree::Constant(vec![*digit; 3]),
        Tree::Call(name, suite, arguments) => {
            Tree::Call(name, *suite, arguments.iter().map(without_bound).collect())
        }
        Tree::When(parts) => {
            let [c, a, b] = &**parts;
            Tree::When(Box::new([c, a, b].map(without_bound)))
        }
        _ => tree.clone(),
    }
}

#[test]
fn unfolded_images() {
    let mut desk = Desk::new("images: unfolded trees, run");
    let mut random = Random::new(81);
    for _ in 0..6000 {
        let made = recipe(&mut random, 7, 24);
        let Some(bytes) = image(&without_bound(&made.tree)) else {
            continue;
        };
        desk.run(&bytes, &list_of(&made.run)).ok();
    }
    desk.done();
}

#[test]
fn damaged_images() {
    let mut desk = Desk::new("images: damaged");
    let mut random = Random::new(82);
    for _ in 0..20_000 {
        let made = recipe(&mut random, 5, 10);
        let Some(bytes) = image(&without_bound(&made.tree)) else {
            continue;
        };
        let changed = damaged(
            &mut random,
            &bytes,
            &[0, 1, 2, 3, 4, 5, 6, 7, 8, 0x10, 0x14, 0x15, 0xB5],
        );
        desk.run_once(&changed, &list_of(&made.run)).ok();
    }
    desk.done();
}

/// Small images with each byte set to each value, cut at each place, and lengthened.
#[test]
fn every_single_change() {
    let mut desk = Desk::new("images: every single change");
    let list = list_of(&Values(vec![
        ('$', 0, vec![1; 16]),
        ('$', 1, vec![2; 16]),
        ('@', 1, vec![0; 16]),
    ]));
    for text in [
        "cat(cat('41',$0),@1)",
        "xor('41','4142')",
        "when($0,$1,'')",
        "ctr.1($0,@1,'4142')",
        "mac.1($0,head('02',$1))",
        "eq($7,@3)",
    ] {
        let bytes = desk.prepare(text.as_bytes(), &[]).expect("good");
        for at in 0..bytes.len() {
            desk.run_once(&bytes[..at], &list).ok();
            let mut changed = bytes.clone();
            for byte in 0..=255 {
                changed[at] = byte;
                desk.run_once(&changed, &list).ok();
            }
        }
        for byte in 0..=255 {
            desk.run_once(&[&bytes[..], &[byte]].concat(), &list).ok();
        }
    }
    desk.done();
}

/// Every kind of sixteen bits over payloads that would suit a leaf, two arguments or three.
#[test]
fn every_kind() {
    let mut desk = Desk::new("images: every kind");
    let leaf = record(0x0001, &[1]).expect("short");
    let payloads = [vec![], vec![0], leaf.repeat(2), leaf.repeat(3)];
    for kind in 0..=0xFFFF {
        for payload in &payloads {
            // The whole range once, the kinds that could be near a good one with all payloads.
            if kind < 0x0300 || payload.len() < 2 {
                desk.run_once(&record(kind, payload).expect("short"), &[])
                    .ok();
            }
        }
    }
    for digit in 0..=255u8 {
        for kind in [0x0002, 0x0003, 0x0004] {
            desk.run_once(&record(kind, &[digit]).expect("short"), &[])
                .ok();
            desk.run_once(&record(kind, &[digit, 0]).expect("short"), &[])
                .ok();
        }
    }
    desk.done();
}

/// Depth 16 and 17, nodes 128 and 129, constants of 1,024 and 1,025, images of 16,384 and 16,385 bytes.
#[test]
fn both_sides_of_the_bounds() {
    let mut desk = Desk::new("images: both sides of the bounds");
    let values = list_of(&Values((0..8).map(|digit| ('$', digit, vec![1])).collect()));
    for depth in 1..=40 {
        for place in 0..3 {
            let mut tree = Tree::Row(0);
            for _ in 1..depth {
                let mut parts = [Tree::Row(1), Tree::Row(2), Tree::Row(3)];
                parts[place] = tree;
                tree = Tree::When(Box::new(parts));
            }
            let judged = desk.run(&image(&tree).expect("small"), &values);
            assert_eq!(judged == Err((28, 0)), depth > 16);
        }
    }
    for nodes in 100..=140 {
        let text = crate::texts::wide(nodes);
        let bytes = image(&tree_of_any(&text)).expect("small");
        let judged = desk.run(&bytes, &values);
        assert_eq!(judged == Err((28, 0)), nodes > 128, "{nodes} nodes");
    }
    for length in 1020..=1030 {
        let judged = desk.run(&record(0x0001, &vec![3; length]).expect("short"), &[]);
        assert_eq!(judged == Err((28, 0)), length > 1024);
    }
    for total in LARGEST - 40..=LARGEST + 40 {
        let judged = desk.run(&of_size(total), &values);
        assert_eq!(of_size(total).len(), total);
        assert_eq!(judged == Err((28, 0)), total > LARGEST, "{total} bytes");
    }
    for length in [0, 1, 2, 3, 4, 65_535, 65_536, 65_540, 70_000] {
        desk.run(&vec![0; length], &[]).ok();
        desk.run(&vec![0xFF; length], &[]).ok();
    }
    for work in (0..5).chain([65_534, 65_535, 65_536, 65_537, 65_600]) {
        for bytes in [&[1, 0, 1, 0, 9][..], &[], &[1, 2, 3]] {
            let number = desk.run_at(bytes, &[], 100, work);
            assert_eq!(number == 14, work < 65_536);
        }
    }
    desk.done();
}

/// The text's tree without the bounds of reading: images may be built past them.
fn tree_of_any(text: &str) -> Tree {
    fn go(text: &[u8], at: &mut usize) -> Tree {
        if text[*at] == b'$' {
            *at += 2;
            return Tree::Row(text[*at - 1] - b'0');
        }
        let open = text[*at..].iter().position(|b| *b == b'(').expect("a call") + *at;
        let name = &text[*at..open];
        *at = open;
        let mut arguments = Vec::new();
        while text[*at] != b')' {
            *at += 1;
            arguments.push(go(text, at));
        }
        *at += 1;
        match name {
            b"cat" => Tree::Call("cat", 0, arguments),
            _ => Tree::When(Box::new(arguments.try_into().expect("three"))),
        }
    }
    go(text.as_bytes(), &mut 0)
}

/// A good image of this size but for its size: seventeen constants in a balanced tree of `cat`.
fn of_size(total: usize) -> Vec<u8> {
    const LEAVES: usize = 17;
    let payload = total - 4 * (2 * LEAVES - 1);
    let leaves: Vec<Tree> = (0..LEAVES)
        .map(|leaf| Tree::Constant(vec![5; (payload + leaf) / LEAVES]))
        .collect();
    image(&joined(&leaves)).expect("it fits its head")
}

fn joined(leaves: &[Tree]) -> Tree {
    match leaves {
        [leaf] => leaf.clone(),
        _ => {
            let (left, right) = leaves.split_at(leaves.len() / 2);
            Tree::Call("cat", 0, vec![joined(left), joined(right)])
        }
    }
}
