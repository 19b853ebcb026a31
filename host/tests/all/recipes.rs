//! Whole recipes: prepared, run, and compared with what they mean.

use crate::desk::Desk;
use crate::random::{recipe, Random};
use crate::reference::records::{image, list_of, LARGEST};
use crate::reference::texts::read;
use crate::reference::tree::{Tree, Values};
use crate::reference::WORK;

/// Prepared by the library and run by the library, a recipe answers what its own text means.
#[test]
fn random_recipes() {
    let mut desk = Desk::new("recipes: prepared and run");
    let mut random = Random::new(61);
    let mut values = 0;
    for round in 0..12_000 {
        let (levels, nodes) = random.pick(&[(2, 4), (4, 10), (6, 16), (16, 40)]);
        let made = recipe(&mut random, levels, nodes);
        let text = made.tree.spelled();
        let Ok(image) = desk.prepare(text.as_bytes(), &list_of(&made.bound)) else {
            continue;
        };
        let answer = match round % 4 {
            0 => desk.run(&image, &list_of(&made.run)),
            _ => desk.run_once(&image, &list_of(&made.run)),
        };
        let tree = read(text.as_bytes()).expect("it was prepared");
        let all = Values([made.bound.0, made.run.0].concat());
        assert_eq!(answer, tree.value(&all).map_err(|n| (n, 0)), "{text}");
        values += answer.is_ok() as usize;
    }
    assert!(values > 3000, "only {values} recipes had a value");
    desk.cases.saw(&[0, 2, 3, 4, 5, 6, 7, 8, 9, 10, 11, 12, 25]);
    desk.done();
}

/// Folding is exactly the rules: what stays, and what a dropped side costs.
#[test]
fn what_folds_and_what_stays() {
    let mut desk = Desk::new("recipes: what folds and what stays");
    let list = list_of(&Values(vec![
        ('#', 0, vec![0x11; 16]),
        ('#', 1, vec![]),
        ('#', 2, vec![1]),
    ]));
    for text in [
        "cat('',@0)",
        "xor($0,$0)",
        "head('00',$0)",
        "when('02',$0,$1)",
        "when('0001',$0,$1)",
        "when('',$0,$1)",
        "when(@0,'41','41')",
        "cat('41',cat('42',@0))",
        "blk.1('00','00')",
        "head('05','00')",
        "eq(@0,@0)",
    ] {
        let tree = read(text.as_bytes()).expect("a good text");
        let judged = desk.prepare(text.as_bytes(), &list);
        assert_eq!(judged.ok(), image(&tree), "{text} stays as it is");
    }
    for (text, folded) in [
        ("cat(#1,#0)", Tree::Constant(vec![0x11; 16])),
        ("when(#2,@3,$7)", Tree::Run(3)),
        ("when('00',blk.1('',''),$5)", Tree::Row(5)),
        ("when(eq(#1,''),@1,xor('','00'))", Tree::Run(1)),
        ("head('02','414243')", Tree::Constant(vec![0x41, 0x42])),
        ("eq(#0,#1)", Tree::Constant(vec![0])),
    ] {
        let judged = desk.prepare(text.as_bytes(), &list);
        assert_eq!(judged.ok(), image(&folded), "{text}");
    }
    desk.done();
}

/// A side that folds to over 16,384 bytes: dropped it costs nothing, kept it is 26.
#[test]
fn images_at_the_bound() {
    let mut desk = Desk::new("recipes: images at the bound");
    let bound = |length: usize| {
        list_of(&Values(vec![
            ('#', 0, vec![7; 1024]),
            ('#', 1, vec![9; length]),
        ]))
    };
    let big = joined(&["#0"; 17]);
    for (text, answer) in [
        (format!("when('00',{big},$0)"), Ok(vec![1, 0, 2, 0, 0])),
        (format!("when('01',$0,{big})"), Ok(vec![1, 0, 2, 0, 0])),
        (format!("when('02',{big},$0)"), Err((26, 0))),
        (format!("when($1,{big},$0)"), Err((26, 0))),
        (big, Err((26, 0))),
        // Over 65,535 bytes, where a record's length would not go into its field: `cat` of two of them refuses, so stays.
        (
            joined(&["#0"; 64]).replace("cat(#0,$0)", "#0"),
            Err((26, 0)),
        ),
    ] {
        assert_eq!(desk.prepare(text.as_bytes(), &bound(0)), answer, "{text}");
    }
    // Fifteen constants of 1,024 bytes, and one that brings the image to 16,384 bytes or past them.
    let mut leaves = ["#0"; 16];
    leaves[9] = "#1";
    let text = joined(&leaves);
    let start = desk
        .prepare(text.as_bytes(), &bound(0))
        .expect("small")
        .len();
    for length in 0..=1024 {
        let judged = desk.prepare_once(text.as_bytes(), &bound(length));
        match start + length <= LARGEST {
            true => assert_eq!(judged.expect("it fits").len(), start + length),
            false => assert_eq!(judged, Err((26, 0))),
        }
    }
    let exact = desk
        .prepare(text.as_bytes(), &bound(LARGEST - start))
        .expect("it fits");
    assert_eq!(exact.len(), LARGEST);
    desk.run(&exact, &[]).ok();
    desk.done();
}

/// A balanced tree of `cat` over `cat(leaf,$0)`, so that no leaf folds with its neighbour.
fn joined(leaves: &[&str]) -> String {
    match leaves {
        [leaf] => format!("cat({leaf},$0)"),
        _ => {
            let (left, right) = leaves.split_at(leaves.len() / 2);
            format!("cat({},{})", joined(left), joined(right))
        }
    }
}

/// Values at their bounds inside a recipe: `cat` and `cbp` past 1,024, `head` past what there is.
#[test]
fn values_at_the_bounds() {
    let mut desk = Desk::new("recipes: values at the bounds");
    for (a, b) in [
        (0, 0),
        (1, 1023),
        (512, 512),
        (1024, 0),
        (1024, 1),
        (513, 512),
        (1024, 1024),
    ] {
        let run = list_of(&Values(vec![('$', 0, vec![1; a]), ('@', 0, vec![2; b])]));
        let image = desk.prepare(b"cat($0,@0)", &[]).expect("good");
        assert_eq!(desk.run(&image, &run).is_ok(), a + b <= 1024);
        let sealed = desk.prepare(
            b"cbp.1('000102030405060708090A0B0C0D0E0F','000102030405060708090A0B0C0D0E0F',$0)",
            &[],
        );
        desk.run(&sealed.expect("good"), &run).ok();
    }
    let head = desk.prepare(b"head($0,$1)", &[]).expect("good");
    for n in 0..=255u8 {
        for has in [0, 1, 100, 254, 255, 256, 1024] {
            let run = list_of(&Values(vec![('$', 0, vec![n]), ('$', 1, vec![5; has])]));
            assert_eq!(desk.run_once(&head, &run).is_ok(), n as usize <= has);
        }
    }
    for count in [vec![], vec![0, 0], vec![1, 0]] {
        let run = list_of(&Values(vec![('$', 0, count), ('$', 1, vec![5; 9])]));
        assert_eq!(desk.run(&head, &run), Err((12, 0)));
    }
    let when = desk.prepare(b"when($0,'41',$1)", &[]).expect("good");
    for c in (0..=255u8)
        .map(|c| vec![c])
        .chain([vec![], vec![0, 0], vec![1, 0]])
    {
        let run = list_of(&Values(vec![('$', 0, c)]));
        desk.run(&when, &run).ok();
    }
    desk.done();
}

/// Every choice of what is wrong: the first number in the stated order.
#[test]
fn mixtures_of_refusals() {
    let mut desk = Desk::new("recipes: every mixture of refusals");
    for wrong in choices(&[14, 21, 20, 27, 25, 26, 9]) {
        let is = |number: u32| wrong.contains(&number);
        let mut text = joined(if is(26) { &["#0"; 17] } else { &["#0"; 2] });
        if is(25) {
            text = format!("cat({text},#3)");
        }
        if is(20) {
            text.push('?');
        }
        if is(21) {
            text.push_str(&"'".repeat(4097));
        }
        let mut list = list_of(&Values(vec![('#', 0, vec![7; 1024])]));
        if is(27) {
            list.push(0);
        }
        let number = desk.prepare_at(text.as_bytes(), &list, room(is(9)), work(is(14)));
        assert_eq!(number, wrong.first().copied().unwrap_or(0), "{wrong:?}");
    }
    let good = desk.prepare(b"cat($0,$1)", &[]).expect("good");
    for wrong in choices(&[14, 28, 27, 25, 9]) {
        let is = |number: u32| wrong.contains(&number);
        let mut image = good.clone();
        if is(28) {
            image.push(0);
        }
        let mut values = vec![('$', 0, vec![7])];
        if !is(25) {
            values.push(('$', 1, vec![8]));
        }
        let mut list = list_of(&Values(values));
        if is(27) {
            list.push(0);
        }
        let number = desk.run_at(&image, &list, room(is(9)), work(is(14)));
        assert_eq!(number, wrong.first().copied().unwrap_or(0), "{wrong:?}");
    }
    desk.cases.saw(&[0, 9, 14, 20, 21, 25, 26, 27, 28]);
    desk.done();
}

/// Every part of the numbers, each in the same order.
fn choices(numbers: &[u32]) -> Vec<Vec<u32>> {
    match numbers {
        [] => vec![vec![]],
        [first, rest @ ..] => choices(rest)
            .into_iter()
            .flat_map(|part| [part.clone(), [&[*first], &part[..]].concat()])
            .collect(),
    }
}

fn room(too_short: bool) -> usize {
    match too_short {
        true => 1,
        false => LARGEST,
    }
}

fn work(too_short: bool) -> usize {
    match too_short {
        true => WORK - 1,
        false => WORK,
    }
}
