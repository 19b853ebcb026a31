//! C: the header compiles without a word, and a program that calls every function links and runs.

use crate::desk::Cases;
use std::io::Write;
use std::path::{Path, PathBuf};
use std::process::{Command, Output};

fn top() -> PathBuf {
    Path::new(env!("CARGO_MANIFEST_DIR")).join("..")
}

fn compiler(variable: &str, usual: &str) -> String {
    std::env::var(variable).unwrap_or_else(|_| usual.to_string())
}

/// The output of a command, which must be there.
fn run(command: &mut Command) -> Output {
    command
        .output()
        .unwrap_or_else(|why| panic!("{command:?} did not start: {why}"))
}

fn must_pass(command: &mut Command) -> String {
    let output = run(command);
    let said = [&output.stdout[..], &output.stderr[..]].concat();
    let said = String::from_utf8_lossy(&said).into_owned();
    assert!(output.status.success(), "{command:?}:\n{said}");
    said
}

#[test]
fn the_header_alone() {
    let mut cases = Cases::new("the header, as C99, C11 and C++");
    let header = top().join("include/katsunebyo.h");
    let warnings = ["-Wall", "-Wextra", "-pedantic", "-Werror", "-fsyntax-only"];
    for standard in ["-std=c99", "-std=c11"] {
        must_pass(
            Command::new(compiler("CC", "cc"))
                .args(warnings)
                .args([standard, "-x", "c"])
                .arg(&header),
        );
        cases.one();
    }
    let cxx = compiler("CXX", "c++");
    if Command::new(&cxx).arg("--version").output().is_ok() {
        must_pass(
            Command::new(&cxx)
                .args(warnings)
                .args(["-std=c++11", "-x", "c++"])
                .arg(&header),
        );
        cases.one();
    } else {
        let _ = writeln!(
            std::io::stdout(),
            "    no {cxx}: the header was not tried as C++"
        );
    }
    cases.say();
}

#[test]
fn a_program_that_calls_every_function() {
    let mut cases = Cases::new("checks of a C program");
    let program = Path::new(env!("CARGO_TARGET_TMPDIR")).join("face");
    let manifest = Path::new(env!("CARGO_MANIFEST_DIR"));
    must_pass(
        Command::new(compiler("CC", "cc"))
            .args([
                "-std=c99",
                "-Wall",
                "-Wextra",
                "-pedantic",
                "-Werror",
                "-O1",
                "-I",
            ])
            .arg(top().join("include"))
            .arg(manifest.join("tests/c/face.c"))
            .arg(env!("KATSUNEBYO_ARCHIVE"))
            .arg("-o")
            .arg(&program),
    );
    let said = must_pass(&mut Command::new(&program));
    let count = said.lines().last().and_then(|line| line.split(' ').next());
    let count: u64 = count.and_then(|n| n.parse().ok()).expect("a count");
    (0..count).for_each(|_| cases.one());
    cases.say();
}

/// The header's numbers and bounds are this crate's.
#[test]
fn the_header_has_the_same_numbers() {
    let mut cases = Cases::new("numbers of the header");
    let header = std::fs::read_to_string(top().join("include/katsunebyo.h")).expect("the header");
    for number in katsunebyo::Number::ALL {
        let line = [
            &format!("KATSU_{}", number.name()),
            "=",
            &number.to_u32().to_string(),
        ];
        let stands = header.lines().any(|l| {
            l.split([' ', ','])
                .filter(|w| !w.is_empty())
                .take(3)
                .eq(line)
        });
        assert!(stands, "{line:?}");
        cases.one();
    }
    for (name, bound) in [
        ("MAX_VALUE", katsunebyo::cipher::LONGEST_VALUE),
        ("MAX_IMAGE", katsunebyo::LARGEST_IMAGE),
        ("WORK_ROOM", katsunebyo::WORK_ROOM),
        ("STACK_NEED", crate::stack::STACK),
    ] {
        let line = format!("#define KATSU_{name} {bound} ");
        assert!(header.contains(&line), "{line}");
        cases.one();
    }
    cases.say();
}
