//! `katsu`: what it prints and how it exits.

use crate::desk::Cases;
use std::process::Command;

struct Said {
    out: String,
    err: String,
    code: i32,
}

fn katsu(words: &[&str]) -> Said {
    let output = Command::new(env!("CARGO_BIN_EXE_katsu"))
        .args(words)
        .output()
        .expect("katsu starts");
    Said {
        out: String::from_utf8(output.stdout).expect("text"),
        err: String::from_utf8(output.stderr).expect("text"),
        code: output.status.code().expect("an exit status"),
    }
}

const KEY: &str = "000102030405060708090A0B0C0D0E0F";
const IV: &str = "101112131415161718191a1b1c1d1e1f";

#[test]
fn answers() {
    let mut cases = Cases::new("katsu: answers");
    let table: [(&[&str], &str); 10] = [
        (&["prepare", "cat('41',#0)", "#0=42"], "020001004142"),
        (
            &["run", "0B0010000200010041420100030001", "@1=43"],
            "414243",
        ),
        (&["run", "0100020000", "$0="], ""),
        (&["blk", "1", KEY, IV], "81BF1C7D779BAC20E1C9EA39B4D2AD06"),
        (
            &["unblk", "1", KEY, "81BF1C7D779BAC20E1C9EA39B4D2AD06"],
            "101112131415161718191A1B1C1D1E1F",
        ),
        (&["ctr", "1", KEY, IV, "2021222324"], "A90A6B9780"),
        (&["ofb", "1", KEY, IV, "2021222324"], "A19E3E5E53"),
        (&["chk", "1", KEY, "0000000000000000", "2021222324"], "00"),
        (&["prepare", "''"], "00000100"),
        (&["run", "00000100"], ""),
    ];
    for (words, answer) in table {
        let said = katsu(words);
        assert_eq!(
            (said.out.as_str(), said.err.as_str(), said.code),
            (format!("{answer}\n").as_str(), "", 0),
            "{words:?}"
        );
        cases.one();
    }
    cases.say();
}

#[test]
fn refusals_with_a_caret() {
    let mut cases = Cases::new("katsu: refusals");
    let table: [(&[&str], &str); 8] = [
        (
            &["prepare", "cat('41',?)"],
            "refused: 20 SYNTAX: the text is no recipe\n  cat('41',?)\n           ^ at 9\n",
        ),
        (
            &["prepare", "cat("],
            "refused: 20 SYNTAX: the text is no recipe\n  cat(\n      ^ at 4\n",
        ),
        (
            &["prepare", ""],
            "refused: 20 SYNTAX: the text is no recipe\n  \n  ^ at 0\n",
        ),
        (
            &["prepare", "cat(#1,#2)", "#1=00"],
            "refused: 25 ABSENT: a name has no value in the list\n  cat(#1,#2)\n         ^ at 7\n",
        ),
        (
            &["run", "0100020000"],
            "refused: 25 ABSENT: a name has no value in the list\n",
        ),
        (&["run", "00"], "refused: 28 FORM: the bytes are no image\n"),
        (
            &["ctr", "6", "", "", ""],
            "refused: 1 SUITE: the suite number is not 1 to 5\n",
        ),
        (
            &["ctr", "1", KEY, IV, ""],
            "refused: 4 EMPTY: the text is empty\n",
        ),
    ];
    for (words, err) in table {
        let said = katsu(words);
        assert_eq!(
            (said.out.as_str(), said.err.as_str(), said.code),
            ("", err, 1),
            "{words:?}"
        );
        cases.one();
    }
    // A long text is shown around its place.
    let said = katsu(&[
        "prepare",
        &format!("'{}?{}", "00".repeat(200), "11".repeat(200)),
    ]);
    let lines: Vec<&str> = said.err.lines().collect();
    assert!(lines[1].len() < 100, "{}", lines[1]);
    assert_eq!(
        lines[1].as_bytes()[lines[2].find('^').expect("a caret")],
        b'?'
    );
    assert!(lines[2].ends_with("^ at 401"));
    cases.one();
    cases.say();
}

#[test]
fn wrong_command_lines() {
    let mut cases = Cases::new("katsu: wrong command lines");
    let table: [(&[&str], &str); 12] = [
        (&[], "no command is given"),
        (&["frob"], "there is no command 'frob'"),
        (&["prepare"], "no text is given"),
        (&["run"], "no image is given"),
        (&["run", "0x00"], "IMAGE: 'x' at 1 is no hexadecimal digit"),
        (
            &["run", "000"],
            "IMAGE: 3 hexadecimal digits make no whole bytes",
        ),
        (
            &["ctr", "1", KEY],
            "ctr takes SUITE KEY IV TEXT, 4 arguments; 2 arguments given",
        ),
        (&["mac", "one", KEY, "00"], "SUITE: 'one' is no number"),
        (&["run", "00", "@0"], "'@0': a value is given as NAME=HEX"),
        (&["run", "00", "@9=00"], "'@9' is no name"),
        (&["run", "00", "@0=00", "@0=01"], "@0 is given twice"),
        (&["help", "me"], "help stands alone"),
    ];
    for (words, why) in table {
        let said = katsu(words);
        assert_eq!((said.out.as_str(), said.code), ("", 2), "{words:?}");
        assert!(said.err.contains(why), "{words:?}: {}", said.err);
        assert!(said.err.contains("katsu help"));
        cases.one();
    }
    cases.say();
}

#[test]
fn help_fits_one_screen() {
    let mut cases = Cases::new("katsu: help");
    for words in [&["help"][..], &["help", "numbers"]] {
        let said = katsu(words);
        assert_eq!((said.err.as_str(), said.code), ("", 0));
        let lines = said.out.lines().count();
        assert!(lines <= 24, "{lines} lines");
        assert!(said.out.lines().all(|line| line.len() <= 80));
        cases.one();
    }
    cases.say();
}
