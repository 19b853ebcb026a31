//! How fast each entry is, beside Crypto++ where that is installed, and beside what is aimed at.
//!
//!     cargo bench [-- --slices N]
//!
//! Every figure is the best of N slices of a quarter of a millisecond (60 unless said otherwise), or of N calls where
//! one takes longer, in each of four rounds. What is compared takes turns slice by slice, so that a busy moment hits all
//! of it; a round goes through everything, so that a busy stretch does not hit one figure alone. Keys, tables and round
//! keys are made for each cell.

mod ciphers;
mod clears;
mod growth;
mod peer;
mod recipes;
mod timing;
mod worst;

use std::time::Instant;
use timing::{Progress, Turns};

const ROUNDS: usize = 4;

/// A part of what is printed.
trait Section {
    /// All that it measures.
    fn turns(&mut self) -> Vec<&mut Turns>;
    /// Its tables, once that is measured.
    fn tables(&self) -> String;
}

fn sections() -> Vec<Box<dyn Section>> {
    vec![
        Box::new(ciphers::Ciphers::new()),
        Box::new(recipes::Recipes::new()),
        Box::new(clears::Clears::new()),
        Box::new(worst::Worst::new()),
        Box::new(growth::Growth::new()),
    ]
}

/// Whether an aim is met.
fn met(is_met: bool) -> &'static str {
    match is_met {
        true => "yes",
        false => "no",
    }
}

fn processor() -> String {
    let info = std::fs::read_to_string("/proc/cpuinfo").unwrap_or_default();
    let name = info.lines().find(|line| line.starts_with("model name"));
    let name = name.and_then(|line| line.split_once(": "));
    name.map_or("unknown processor", |(_, name)| name)
        .to_string()
}

/// N of `--slices N`; the word that cargo adds is passed over.
fn slices() -> Result<usize, String> {
    let words: Vec<String> = std::env::args()
        .skip(1)
        .filter(|word| word != "--bench")
        .collect();
    let wrong = "the benchmark takes nothing, or --slices N with N at least 1".to_string();
    match words.iter().map(String::as_str).collect::<Vec<_>>()[..] {
        [] => Ok(60),
        ["--slices", n] => n.parse().ok().filter(|n| *n > 0).ok_or(wrong),
        _ => Err(wrong),
    }
}

/// Everything once over.
fn take_round(sections: &mut [Box<dyn Section>], slices: usize, round: String) {
    let all: Vec<&mut Turns> = sections.iter_mut().flat_map(|s| s.turns()).collect();
    let mut progress = Progress::new(round, all.len());
    for turns in all {
        progress.step(&turns.what);
        turns.take(slices);
    }
    progress.end();
}

fn main() {
    let slices = slices().unwrap_or_else(|why| {
        eprintln!("{why}");
        std::process::exit(2);
    });
    let start = Instant::now();
    let mut sections = sections();
    for round in 1..=ROUNDS {
        take_round(&mut sections, slices, format!("round {round} of {ROUNDS}"));
    }
    println!(
        "{}; best of {ROUNDS} rounds of {slices} slices; {:.0} s.",
        processor(),
        start.elapsed().as_secs_f64()
    );
    match peer::IS_THERE {
        true => {
            println!("In brackets: times the speed of Crypto++ at the same work in the same run.")
        }
        false => println!(
            "Crypto++ (libcrypto++-dev) was not there when this was built, so the figures stand alone. After installing it: touch build.rs"
        ),
    }
    for section in sections {
        print!("\n{}", section.tables());
    }
}
