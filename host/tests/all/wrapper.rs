//! The crate's own types: numbers, lists, images, names.

use crate::desk::Cases;
use katsunebyo::cipher::{self, Call, SUITES};
use katsunebyo::{hex, Image, List, ListError, Name, Number, Work};

#[test]
fn numbers_have_their_names() {
    let mut cases = Cases::new("numbers and names");
    for (number, name) in [
        (1, "SUITE"),
        (2, "KEY"),
        (3, "IV"),
        (4, "EMPTY"),
        (5, "PARTIAL"),
        (6, "LONG"),
        (7, "TAG"),
        (8, "FILL"),
        (9, "ROOM"),
        (10, "UNEQUAL"),
        (11, "CHOICE"),
        (12, "SHORT"),
        (13, "WRAP"),
        (14, "WORK"),
        (20, "SYNTAX"),
        (21, "TEXT"),
        (22, "DEEP"),
        (23, "MANY"),
        (25, "ABSENT"),
        (26, "IMAGE"),
        (27, "LIST"),
        (28, "FORM"),
    ] {
        let known = Number::from_u32(number).expect("a number of the table");
        assert_eq!((known.to_u32(), known.name()), (number, name));
        cases.one();
    }
    assert_eq!(Number::ALL.len(), 22);
    for unknown in [0, 15, 19, 24, 29, u32::MAX] {
        assert_eq!(Number::from_u32(unknown), None);
        cases.one();
    }
    cases.say();
}

#[test]
fn lists_refuse_what_the_library_would() {
    let mut cases = Cases::new("the list builder");
    let mut list = List::new();
    list.put(Name::Row(7), b"seven").expect("good");
    list.put(Name::Run(3), b"").expect("good");
    assert_eq!(hex::encode(list.as_bytes()), "05000703736576656E00000304");
    let before = list.clone();
    for (name, length, error) in [
        (Name::Row(7), 0, ListError::Twice(Name::Row(7))),
        (Name::Row(8), 0, ListError::NoSuchName(Name::Row(8))),
        (Name::Run(4), 0, ListError::NoSuchName(Name::Run(4))),
        (Name::Bound(4), 0, ListError::NoSuchName(Name::Bound(4))),
        (Name::Row(0), 1025, ListError::TooLong(Name::Row(0), 1025)),
    ] {
        assert_eq!(list.put(name, &vec![0; length]), Err(error));
        assert_eq!(list, before, "a refused value changes nothing");
        cases.one();
    }
    list.clear();
    assert_eq!(list, List::new());
    for (text, name) in [
        ("#0", Some(Name::Bound(0))),
        ("#3", Some(Name::Bound(3))),
        ("#4", None),
        ("$7", Some(Name::Row(7))),
        ("$8", None),
        ("@3", Some(Name::Run(3))),
        ("@4", None),
        ("", None),
        ("$", None),
        ("$00", None),
        ("x0", None),
        ("$x", None),
    ] {
        assert_eq!(Name::parse(text), name, "{text}");
        assert!(name.is_none() || name.map(|name| name.to_string()).as_deref() == Some(text));
        cases.one();
    }
    cases.say();
}

#[test]
fn images_prepared_once_and_run_many_times() {
    let mut cases = Cases::new("images as a type");
    let mut work = Work::new();
    let bound = List::new().with(Name::Bound(0), &[9; 32]).expect("good");
    let image = Image::prepare(b"ctr.3(#0,@0,$0)", &bound, &mut work).expect("a good text");
    let mut list = List::new();
    for row in 0..100u8 {
        let (iv, text) = ([row; 32], vec![row; 1 + row as usize]);
        list.clear();
        list.put(Name::Run(0), &iv).expect("good");
        list.put(Name::Row(0), &text).expect("good");
        let (mut sealed, mut same) = ([0; 1024], [0; 1024]);
        let n = image.run(&list, &mut sealed, &mut work).expect("a value");
        let m = cipher::ctr(3, &[9; 32], &iv, &text, &mut same).expect("a value");
        assert_eq!((n, &sealed[..n]), (m, &same[..m]));
        cases.one();
    }
    let absent = image.run(&List::new(), &mut [0; 1024], &mut work);
    assert_eq!(absent.map_err(|r| r.number), Err(Number::Absent));
    let form = Image::from_bytes([1, 2, 3]).run(&list, &mut [], &mut work);
    assert_eq!(form.map_err(|r| r.number), Err(Number::Form));
    let misread = Image::prepare(b"cat('41',?)", &bound, &mut work).expect_err("a bad text");
    assert_eq!((misread.number, misread.place), (Number::Syntax, 9));
    cases.say();
}

#[test]
fn each_safe_function_is_its_entry() {
    let mut cases = Cases::new("safe functions by name");
    for suite in SUITES {
        let (key, iv, text) = (
            vec![1; suite.key],
            vec![2; suite.block],
            vec![3; 2 * suite.block],
        );
        let n = suite.number;
        type Three = fn(u64, &[u8], &[u8], &[u8], &mut [u8]) -> Result<usize, katsunebyo::Refused>;
        let threes: [(Three, Call); 8] = [
            (cipher::ctr, Call::Ctr),
            (cipher::ofb, Call::Ofb),
            (cipher::cfb, Call::Cfb),
            (cipher::uncfb, Call::Uncfb),
            (cipher::cbc, Call::Cbc),
            (cipher::uncbc, Call::Uncbc),
            (cipher::cbp, Call::Cbp),
            (cipher::uncbp, Call::Uncbp),
        ];
        for (function, call) in threes {
            let (mut a, mut b) = ([0; 1024], [0; 1024]);
            let answer = function(n, &key, &iv, &text, &mut a);
            assert_eq!(answer, call.call(n, &[&key, &iv, &text], &mut b));
            assert_eq!(a, b);
            cases.one();
        }
        let (mut sealed, mut opened, mut tag) = ([0; 64], [0; 64], [0; 64]);
        let b = cipher::blk(n, &key, &iv, &mut sealed).expect("a block");
        cipher::unblk(n, &key, &sealed[..b], &mut opened).expect("a block");
        assert_eq!(&opened[..b], &iv[..]);
        let b = cipher::mac(n, &key, &text, &mut tag).expect("a tag");
        assert_eq!(cipher::chk(n, &key, &tag[..b], &text), Ok(true));
        tag[0] ^= 1;
        assert_eq!(cipher::chk(n, &key, &tag[..b], &text), Ok(false));
        let refused = cipher::chk(n, &key, &tag[..7], &text).expect_err("a short tag");
        assert_eq!(refused.number, Number::Tag);
        cases.one();
    }
    assert_eq!(Call::from_name("unctr"), None);
    cases.say();
}

#[test]
fn hexadecimal() {
    let mut cases = Cases::new("hexadecimal digits");
    for (text, bytes) in [
        ("", Some(vec![])),
        ("00fF", Some(vec![0, 255])),
        ("0", None),
        ("0g", None),
        ("é0", None),
    ] {
        assert_eq!(hex::decode(text).ok(), bytes, "{text}");
        cases.one();
    }
    assert_eq!(hex::encode(&[0, 0xAB]), "00AB");
    cases.say();
}
