//! Lists: which are good, for preparing and for running.

use crate::desk::Desk;
use crate::random::{damaged, Random};
use crate::reference::records::{list_of, record};
use crate::reference::tree::Values;

/// Every kind of sixteen bits, alone in a list.
#[test]
fn every_kind() {
    let mut desk = Desk::new("lists: every kind");
    let run = desk.prepare(b"''", &[]).expect("good");
    for kind in 0..=0xFFFF {
        let list = record(kind, b"v").expect("short");
        let prepared = desk.prepare_once(b"''", &list);
        assert_eq!(prepared.is_ok(), (0x0200..=0x0203).contains(&kind));
        let ran = desk.run_once(&run, &list);
        let row = (0x0300..=0x0307).contains(&kind);
        assert_eq!(ran.is_ok(), row || (0x0400..=0x0403).contains(&kind));
    }
    desk.done();
}

/// Twice the same name, with the same bytes too; cut records; values around 1,024.
#[test]
fn bad_lists() {
    let mut desk = Desk::new("lists: twice, cut, too long");
    let run = desk.prepare(b"$0", &[]).expect("good");
    for length in (0..20).chain(1020..1030).chain([4000, 65_535]) {
        for kind in [0x0200, 0x0203, 0x0300, 0x0307, 0x0400, 0x0403] {
            let one = record(kind, &vec![1; length]).expect("it fits its head");
            let other = record(kind, &vec![2; length]).expect("it fits its head");
            desk.prepare(b"#0", &one).ok();
            desk.run(&run, &one).ok();
            for two in [
                [one.clone(), one.clone()].concat(),
                [one.clone(), other].concat(),
            ] {
                assert_eq!(desk.prepare(b"''", &two), Err((27, 0)));
                assert_eq!(desk.run(&run, &two), Err((27, 0)));
            }
        }
    }
    let good = list_of(&Values(vec![
        ('$', 0, vec![1; 5]),
        ('@', 3, vec![]),
        ('$', 7, vec![9; 300]),
    ]));
    for cut in 0..=good.len() {
        desk.run(&run, &good[..cut]).ok();
    }
    for long in [vec![0; 1 << 20], good.repeat(3000), vec![0xFF; 1 << 20]] {
        assert_eq!(desk.run(&run, &long), Err((27, 0)));
        assert_eq!(desk.prepare(b"''", &long), Err((27, 0)));
    }
    let bound = list_of(&Values(vec![('#', 2, vec![1; 5]), ('#', 0, vec![3; 40])]));
    for cut in 0..=bound.len() {
        desk.prepare(b"#0", &bound[..cut]).ok();
    }
    desk.done();
}

/// Full lists in every turn, the longest there are, and the same damaged.
#[test]
fn full_and_damaged_lists() {
    let mut desk = Desk::new("lists: full, turned, damaged");
    let mut random = Random::new(71);
    let image = desk
        .prepare(b"cat(head('02',$7),cat(head('01',@3),$0))", &[])
        .expect("good");
    for round in 0..4000 {
        let mut names: Vec<(char, u8)> = (0..8).map(|digit| ('$', digit)).collect();
        names.extend((0..4).map(|digit| ('@', digit)));
        let mut values = Vec::new();
        while !names.is_empty() && (round % 3 == 0 || random.percent(95)) {
            let (sign, digit) = names.remove(random.below(names.len()));
            let length = match round % 5 {
                0 => 1024,
                _ => random.below(30),
            };
            values.push((sign, digit, random.bytes(length)));
        }
        let list = list_of(&Values(values));
        desk.run_once(&image, &list).ok();
        let changed = damaged(&mut random, &list, &[0, 1, 2, 3, 4, 7, 8]);
        desk.run_once(&image, &changed).ok();
        let mut bound = Vec::new();
        for digit in 0..4 {
            if random.percent(80) {
                bound.push((
                    '#',
                    digit,
                    random.pick(&[vec![], vec![4; 17], vec![8; 1024]]),
                ));
            }
        }
        let bound = list_of(&Values(bound));
        desk.prepare_once(b"cat(#0,cat(#3,@0))", &bound).ok();
        let changed = damaged(&mut random, &bound, &[0, 1, 2, 3, 4]);
        desk.prepare_once(b"cat(#0,cat(#3,@0))", &changed).ok();
    }
    desk.done();
}
