//! Reading texts: numbers and places.

use crate::desk::Desk;
use crate::random::{damaged, recipe, Random};
use crate::reference::records::list_of;
use crate::reference::tree::Values;

/// Bytes that a rule of section 5 speaks of, and some that none does.
pub const ALPHABET: &[u8] = b"'09AFaf#$@.(),1567cateqxorhwnblkufpm G-\"\n\0\xff";

fn all_bound() -> Vec<u8> {
    list_of(&Values(
        (0..4).map(|digit| ('#', digit, vec![digit; 16])).collect(),
    ))
}

/// Single texts with the number and place that the readings give.
#[test]
fn numbers_and_places() {
    let mut desk = Desk::new("texts: numbers and places");
    let many = |text: &str, times: usize| text.repeat(times);
    let literal = |bytes: usize| format!("'{}'", many("41", bytes));
    let table: Vec<(String, u32, usize)> = [
        ("", 20, 0),
        ("cat(", 20, 4),
        ("cat", 20, 3),
        ("ca", 20, 0),
        ("catx(", 20, 0),
        ("cat1(", 20, 3),
        ("catA(", 20, 3),
        ("caT(", 20, 0),
        ("Cat(", 20, 0),
        ("cat('41',ca", 20, 9),
        ("cat.1('','')", 20, 3),
        ("ctr('','','')", 20, 3),
        ("ctr.0('','','')", 20, 4),
        ("ctr.6('','','')", 20, 4),
        ("ctr.x('','','')", 20, 4),
        ("ctr.", 20, 4),
        ("ctr.1", 20, 5),
        ("ctr.12(", 20, 5),
        ("ctr.1(", 20, 6),
        ("'", 20, 1),
        ("'4", 20, 2),
        ("'4'", 20, 2),
        ("'414'", 20, 4),
        ("'4a'", 20, 2),
        ("'a1'", 20, 1),
        ("'41", 20, 3),
        ("'' ", 20, 2),
        (" ''", 20, 0),
        ("cat('')", 20, 6),
        ("cat('','','')", 20, 9),
        ("cat('','')x", 20, 10),
        ("cat('','')'", 20, 10),
        ("cat()", 20, 4),
        ("cat(,)", 20, 4),
        ("#4", 20, 1),
        ("$8", 20, 1),
        ("@4", 20, 1),
        ("#", 20, 1),
        ("$", 20, 1),
        ("@", 20, 1),
        ("#00", 20, 2),
        ("when('01','')", 20, 12),
        ("blk.1('','','')", 20, 11),
        ("mac.1('')", 20, 8),
        ("chk.1('','')", 20, 11),
        ("unctr.1('','','')", 20, 0),
        ("katsu('')", 20, 0),
    ]
    .into_iter()
    .map(|(text, number, place)| (text.to_string(), number, place))
    .chain([
        (many("cat(", 16), 22, 64),
        (many("cat(", 15), 20, 60),
        (many("cat(", 16) + "?", 22, 64),
        (many("cat(", 17), 22, 64),
        (literal(1025), 6, 0),
        (format!("cat({},?", literal(1025)), 6, 4),
        (format!("cat(?,{}", literal(1025)), 20, 4),
        (format!("cat('',{})", literal(1025)), 6, 7),
        (format!("'{}", many("41", 1025)), 20, 2051),
        (format!("'{}4'", many("41", 1025)), 20, 2052),
        (format!("'{}4a'", many("41", 1025)), 20, 2052),
        (many("'", 4097), 21, 0),
        (many("'", 4096), 20, 2),
    ])
    .collect();
    for (text, number, place) in table {
        let judged = desk.prepare(text.as_bytes(), &all_bound());
        assert_eq!(judged, Err((number, place)), "{text}");
    }
    desk.done();
}

#[test]
fn unbound_names_and_bad_lists() {
    let mut desk = Desk::new("texts: 25 and 27 in their order");
    let one = list_of(&Values(vec![('#', 1, vec![7])]));
    let bad = [one.clone(), one.clone()].concat();
    for (text, list, answer) in [
        ("cat(#1,#2)", &one, Err((25, 7))),
        ("when('00',#3,#1)", &one, Err((25, 10))),
        ("when('01',#1,#0)", &one, Err((25, 13))),
        ("cat(#2,#3)", &one, Err((25, 4))),
        ("cat(#2,#3)", &bad, Err((27, 0))),
        ("cat(#2,#3", &bad, Err((20, 9))),
        ("#1", &bad, Err((27, 0))),
        ("$0", &bad, Err((27, 0))),
        ("#1", &one, Ok(vec![1, 0, 1, 0, 7])),
    ] {
        assert_eq!(desk.prepare(text.as_bytes(), list), answer, "{text}");
    }
    desk.done();
}

/// Every text of up to four bytes over an alphabet of marks, and every one with a call's front.
#[test]
fn short_texts() {
    let mut desk = Desk::new("texts: every short one");
    let list = all_bound();
    let fronts: [(&[u8], &[u8], usize); 8] = [
        (b"", b"'4A#$@a(,.)", 4),
        (b"", b"'04#$@categ(", 3),
        (b"cat(", b"'4#0,)c", 4),
        (b"cat('',", b"'#3@)(,", 4),
        (b"eq('','',", b"')(,", 3),
        (b"ctr", b".150('", 4),
        (b"mac.1(", b"'#0,)", 5),
        (b"when('01',$0,", b"'#3)$80", 4),
    ];
    for (front, marks, longest) in fronts {
        for length in 0..=longest {
            let mut text = front.to_vec();
            text.resize(front.len() + length, 0);
            for number in 0..marks.len().pow(length as u32) {
                let mut rest = number;
                for byte in &mut text[front.len()..] {
                    *byte = marks[rest % marks.len()];
                    rest /= marks.len();
                }
                desk.prepare_once(&text, &list).ok();
            }
        }
    }
    desk.done();
}

const GOOD: [&str; 7] = [
    "cat(@0,ctr.3(#0,@0,$0))",
    "when(chk.1(#0,$1,cat(@0,$0)),uncbp.1(#0,@0,$0),'')",
    "cat(cbc.2(cat(#0,#0),#1,#2),mac.1(#0,'00112233445566778899AABBCCDDEEFF'))",
    "head('08',xor(ofb.1(#0,#1,'4142434445464748'),$7))",
    "eq(blk.1(#0,#1),unblk.5(@1,@2))",
    "cat(cfb.4($0,$1,'00'),uncfb.4($0,$1,uncbc.3($2,$3,$4)))",
    "when(eq($0,''),cat('41',#3),when('00',cbp.1(#0,#1,'41'),@3))",
];

/// Every cut, every byte set to each byte of the alphabet, each byte taken out and each put in.
#[test]
fn good_texts_with_one_change() {
    let mut desk = Desk::new("texts: good ones with one change");
    let list = all_bound();
    for text in GOOD.map(str::as_bytes) {
        assert!(desk.prepare(text, &list).is_ok());
        for at in 0..=text.len() {
            desk.prepare_once(&text[..at], &list).ok();
            for &byte in ALPHABET {
                let put = [&text[..at], &[byte], &text[at..]].concat();
                desk.prepare_once(&put, &list).ok();
                if at < text.len() {
                    let set = [&text[..at], &[byte], &text[at + 1..]].concat();
                    desk.prepare_once(&set, &list).ok();
                }
            }
            if at < text.len() {
                let out = [&text[..at], &text[at + 1..]].concat();
                desk.prepare_once(&out, &list).ok();
            }
        }
    }
    desk.done();
}

#[test]
fn damaged_texts() {
    let mut desk = Desk::new("texts: random ones, damaged");
    let mut random = Random::new(51);
    for _ in 0..8000 {
        let made = recipe(&mut random, 7, 14);
        let text = damaged(&mut random, made.tree.spelled().as_bytes(), ALPHABET);
        desk.prepare(&text, &list_of(&made.bound)).ok();
    }
    desk.done();
}

/// Random bytes of the alphabet: long runs of letters, quotes, digits.
#[test]
fn random_bytes_as_texts() {
    let mut desk = Desk::new("texts: random bytes");
    let mut random = Random::new(52);
    for round in 0..6000 {
        let length = match round % 4 {
            0 => random.below(4200),
            _ => random.below(60),
        };
        let text: Vec<u8> = (0..length)
            .map(|_| match round % 3 {
                0 => random.next() as u8,
                _ => random.pick(ALPHABET),
            })
            .collect();
        desk.prepare_once(&text, &[]).ok();
    }
    desk.done();
}

/// Depth 16 and 17, nodes 128 and 129, texts of 4,096 and 4,097 bytes, literals of 1,024 and 1,025.
#[test]
fn both_sides_of_the_bounds() {
    let mut desk = Desk::new("texts: both sides of the bounds");
    for depth in 1..=20 {
        for (front, leaf, back) in [
            ("cat('',", "''", ")"),
            ("cat(", "''", ",'')"),
            ("when('01',", "$0", ",'')"),
            ("mac.1(#0,", "$0", ")"),
        ] {
            let text = front.repeat(depth - 1) + leaf + &back.repeat(depth - 1);
            let judged = desk.prepare(text.as_bytes(), &all_bound());
            // The first argument of the sixteenth call.
            let due = front.len() * 15 + front.find('(').expect("a call") + 1;
            assert_eq!(judged.err(), (depth > 16).then_some((22, due)));
        }
    }
    for nodes in 120..=135 {
        let text = wide(nodes);
        let judged = desk.prepare(text.as_bytes(), &[]);
        match nodes {
            ..=128 => assert!(judged.is_ok(), "{nodes} nodes"),
            _ => assert_eq!(judged.expect_err("too many").0, 23),
        }
    }
    // The 129th expression is due: 23 whatever stands there, the text's end too.
    let text = wide(140);
    let (_, due) = desk.prepare(text.as_bytes(), &[]).expect_err("too many");
    for rest in ["", "?", "'", "cat("] {
        let cut = format!("{}{rest}", &text[..due]);
        assert_eq!(desk.prepare(cut.as_bytes(), &[]), Err((23, due)));
    }
    // With 112 nodes on the left both are due at once, the seventeenth level and the 129th node: 22.
    for left in 105..=120 {
        let text = format!("cat({},{}", wide(left), "cat(".repeat(16));
        let judged = desk.prepare(text.as_bytes(), &[]);
        assert_eq!(
            judged.expect_err("too much").0,
            if left <= 112 { 22 } else { 23 }
        );
    }
    assert_eq!(desk.prepare(&vec![b'a'; 1 << 20], &[]), Err((21, 0)));
    for length in 4000..=4100 {
        desk.prepare(filler(length).as_bytes(), &[]).ok();
        desk.prepare_once(&vec![b'\''; length], &[]).ok();
    }
    assert!(desk.prepare(filler(4096).as_bytes(), &[]).is_ok());
    assert_eq!(desk.prepare(filler(4098).as_bytes(), &[]), Err((21, 0)));
    for bytes in 1020..=1030 {
        let text = format!("'{}'", "00".repeat(bytes));
        let judged = desk.prepare(text.as_bytes(), &[]);
        assert_eq!(judged.err(), (bytes > 1024).then_some((6, 0)));
    }
    for work in (0..5).chain([65_534, 65_535, 65_536, 65_537, 65_600]) {
        for text in ["'41'", "", "?"] {
            let number = desk.prepare_at(text.as_bytes(), &[], 100, work);
            assert_eq!(number == 14, work < 65_536);
        }
    }
    desk.done();
}

/// A tree of so many nodes, 7 levels deep: `when` takes three, so every count can be had.
pub fn wide(nodes: usize) -> String {
    match nodes {
        0 | 1 => "$0".to_string(),
        2 => panic!("no tree has two nodes"),
        3 => "cat($0,$1)".to_string(),
        4 => "when($0,$1,$2)".to_string(),
        _ => {
            let rest = nodes - 1;
            let left = match rest / 2 {
                2 => 1,
                half => half,
            };
            match rest - left {
                2 => format!("when({},$1,$2)", wide(left)),
                right => format!("cat({},{})", wide(left), wide(right)),
            }
        }
    }
}

/// A good text of this many bytes, if it is even: literals in a `cat`.
fn filler(length: usize) -> String {
    let digits = length.saturating_sub("cat('','')".len());
    let first = digits / 4 * 2;
    format!(
        "cat('{}','{}')",
        "0".repeat(first),
        "0".repeat(digits - first)
    )
}
