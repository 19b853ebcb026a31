//! The cipher entries by call, suite and size of the cell.

use crate::timing::{Job, Turns};
use crate::{met, peer, Section};
use katsunebyo::cipher::{Call, Suite, SUITES};
use std::hint::black_box;

const CELLS: [usize; 4] = [16, 64, 256, 1024];

/// What a call is given: a key; an IV, tag or block; a text.
pub struct Cell {
    pub key: Vec<u8>,
    pub second: Vec<u8>,
    pub text: Vec<u8>,
}

impl Cell {
    fn arguments(&self, call: Call) -> Vec<&[u8]> {
        match call {
            Call::Blk | Call::Unblk => vec![&self.key, &self.second],
            Call::Mac => vec![&self.key, &self.text],
            _ => vec![&self.key, &self.second, &self.text],
        }
    }
}

pub fn bytes(length: usize, seed: usize) -> Vec<u8> {
    (0..length)
        .map(|at| (at * 167 + seed * 59 + 13) as u8)
        .collect()
}

/// A cell of this many bytes for the call; none where its blocks do not fill it.
fn cell(call: Call, suite: Suite, length: usize) -> Option<Cell> {
    let whole_only = matches!(call, Call::Cbc | Call::Uncbc | Call::Cbp | Call::Uncbp);
    let past_blocks = length % suite.block;
    if whole_only && past_blocks != 0 {
        return None;
    }
    let (key, second) = (bytes(suite.key, 1), bytes(suite.block, 2));
    let mut out = [0; 1024];
    let text = match call {
        // The text whose sealing fills the cell.
        Call::Cbp => bytes(length - 1, 3),
        Call::Uncbp => {
            let given = [&key[..], &second[..], &bytes(length - 1, 3)[..]];
            let n = Call::Cbp.call(suite.number, &given, &mut out).ok()?;
            out[..n].to_vec()
        }
        _ => bytes(length, 3),
    };
    Some(Cell { key, second, text })
}

/// The call by its entry, on a cell of so many bytes.
pub fn job(call: Call, suite: Suite, length: usize) -> Job {
    ours(
        call,
        suite,
        kept(call, suite, length).expect("whole blocks"),
    )
}

/// A cell that stays, so that a job may hold parts of it.
fn kept(call: Call, suite: Suite, length: usize) -> Option<&'static Cell> {
    cell(call, suite, length).map(|cell| &*Box::leak(Box::new(cell)))
}

fn ours(call: Call, suite: Suite, cell: &'static Cell) -> Job {
    let (arguments, mut out) = (cell.arguments(call), [0; 1024]);
    Box::new(move || {
        black_box(call.answer(suite.number, black_box(&arguments), &mut out));
    })
}

fn theirs(call: Call, suite: Suite, cell: &'static Cell) -> Job {
    let (f, mut out) = (place(call), [0; 1088]);
    Box::new(move || {
        black_box(peer::call(f, suite.number, black_box(cell), &mut out));
    })
}

/// The number by which the peer knows the call.
fn place(call: Call) -> usize {
    Call::ALL.iter().position(|c| *c == call).expect("a call")
}

fn look_that_both_answer_the_same(call: Call, suite: Suite, cell: &Cell) {
    let (mut out, mut other) = ([0; 1024], [0; 1088]);
    let n = call.call(suite.number, &cell.arguments(call), &mut out);
    let m = peer::call(place(call), suite.number, cell, &mut other);
    assert!(
        out[..n.expect("a good cell")] == other[..m],
        "{} {}: Crypto++ answers otherwise",
        call.name(),
        suite.number
    );
}

/// One call on one cell, ours and the peer's.
struct Figure {
    call: Call,
    suite: Suite,
    length: usize,
    turns: Turns,
}

impl Figure {
    fn new(call: Call, suite: Suite, length: usize) -> Option<Figure> {
        let cell = kept(call, suite, length)?;
        let mut jobs = vec![ours(call, suite, cell)];
        if peer::IS_THERE {
            look_that_both_answer_the_same(call, suite, cell);
            jobs.push(theirs(call, suite, cell));
        }
        let what = format!("{} {} on {length} bytes", call.name(), suite.number);
        Some(Figure {
            call,
            suite,
            length,
            turns: Turns::new(what, jobs),
        })
    }

    /// Megabytes a second, and how many times the peer's.
    fn rate(&self) -> String {
        let megabytes = self.length as f64 * 1000.0 / self.turns.best()[0];
        match peer::IS_THERE {
            true => format!("{megabytes:.1} ({:.2})", self.times()),
            false => format!("{megabytes:.1}"),
        }
    }

    fn times(&self) -> f64 {
        self.turns.best()[1] / self.turns.best()[0]
    }
}

fn is_of_a_block(call: Call) -> bool {
    matches!(call, Call::Blk | Call::Unblk)
}

fn lengths(call: Call, suite: Suite) -> Vec<usize> {
    match is_of_a_block(call) {
        true => vec![suite.block],
        false => CELLS.to_vec(),
    }
}

fn calls_and_suites() -> impl Iterator<Item = (Call, Suite)> {
    Call::ALL
        .into_iter()
        .flat_map(|call| SUITES.map(|suite| (call, suite)))
}

pub struct Ciphers {
    figures: Vec<Figure>,
}

impl Ciphers {
    pub fn new() -> Ciphers {
        let all = calls_and_suites().flat_map(|(call, suite)| {
            let lengths = lengths(call, suite).into_iter();
            lengths.filter_map(move |length| Figure::new(call, suite, length))
        });
        Ciphers {
            figures: all.collect(),
        }
    }

    fn find(&self, call: Call, suite: Suite, length: usize) -> Option<&Figure> {
        self.figures
            .iter()
            .find(|figure| (figure.call, figure.suite, figure.length) == (call, suite, length))
    }

    fn rates(&self, call: Call, suite: Suite) -> String {
        let rate = |length| match self.find(call, suite, length) {
            Some(figure) => format!(" {} |", figure.rate()),
            None => " - |".to_string(),
        };
        lengths(call, suite).into_iter().map(rate).collect()
    }

    fn modes_table(&self) -> String {
        let rows = calls_and_suites()
            .filter(|(call, _)| !is_of_a_block(*call))
            .map(|(call, suite)| {
                let rates = self.rates(call, suite);
                format!("| {} | {} |{rates}\n", call.name(), suite.number)
            });
        format!(
            "| call | suite | 16 B | 64 B | 256 B | 1,024 B |\n|---|---|---|---|---|---|\n{}",
            rows.collect::<String>()
        )
    }

    fn blocks_table(&self) -> String {
        let rows = calls_and_suites()
            .filter(|(call, _)| is_of_a_block(*call))
            .map(|(call, suite)| {
                let (rates, name) = (self.rates(call, suite), call.name());
                format!("| {name} | {} | {} B |{rates}\n", suite.number, suite.block)
            });
        format!(
            "| call | suite | block | MB/s |\n|---|---|---|---|\n{}",
            rows.collect::<String>()
        )
    }

    fn aims_table(&self) -> String {
        let rows = AIMS.each_ref().map(|aim| aim.row(self));
        let all_met: usize = rows.iter().map(|(_, met)| met).sum();
        let rows = rows.map(|(row, _)| row).concat();
        format!(
            "Times the speed of Crypto++, by suite: measured / aimed at, and whether that is met.\n\n\
             | | 1 | 2 | 3 | 4 | 5 | met |\n|---|---|---|---|---|---|---|\n{rows}\n{all_met} of {} are met.\n",
            AIMS.len() * SUITES.len()
        )
    }
}

impl Section for Ciphers {
    fn turns(&mut self) -> Vec<&mut Turns> {
        self.figures
            .iter_mut()
            .map(|figure| &mut figure.turns)
            .collect()
    }

    fn tables(&self) -> String {
        let aims = match peer::IS_THERE {
            true => format!("\n## Against what is aimed at\n\n{}", self.aims_table()),
            false => String::new(),
        };
        format!(
            "## Cipher calls, MB/s by the size of the cell, key set for each cell\n\n{}\nOne block:\n\n{}{aims}",
            self.modes_table(),
            self.blocks_table()
        )
    }
}

/// At least so many times the peer's speed, by suite.
struct Aim {
    what: &'static str,
    call: Call,
    length: usize,
    times: [f64; SUITES.len()],
}

const OPENING: [f64; 5] = [1.3, 1.3, 1.1, 1.1, 1.0];
const SEALING: [f64; 5] = [0.8, 0.85, 0.85, 0.85, 0.95];

const AIMS: [Aim; 8] = [
    Aim {
        what: "CTR, 1,024 bytes",
        call: Call::Ctr,
        length: 1024,
        times: [1.5, 1.5, 1.3, 1.3, 1.15],
    },
    Aim {
        what: "CTR, 64 bytes",
        call: Call::Ctr,
        length: 64,
        times: [0.9, 0.95, 0.95, 0.95, 0.85],
    },
    Aim {
        what: "opening CBC, 1,024 bytes",
        call: Call::Uncbc,
        length: 1024,
        times: OPENING,
    },
    Aim {
        what: "opening CFB, 1,024 bytes",
        call: Call::Uncfb,
        length: 1024,
        times: OPENING,
    },
    Aim {
        what: "sealing CBC, 1,024 bytes",
        call: Call::Cbc,
        length: 1024,
        times: SEALING,
    },
    Aim {
        what: "sealing CFB, 1,024 bytes",
        call: Call::Cfb,
        length: 1024,
        times: SEALING,
    },
    Aim {
        what: "OFB, 1,024 bytes",
        call: Call::Ofb,
        length: 1024,
        times: SEALING,
    },
    Aim {
        what: "CMAC, 1,024 bytes",
        call: Call::Mac,
        length: 1024,
        times: SEALING,
    },
];

impl Aim {
    /// Its row, and how many of the suites meet it.
    fn row(&self, ciphers: &Ciphers) -> (String, usize) {
        let times = SUITES.map(|suite| {
            let figure = ciphers.find(self.call, suite, self.length);
            figure.expect("it was measured").times()
        });
        let pairs = || times.iter().zip(&self.times);
        let cells: String = pairs()
            .map(|(times, aimed)| format!(" {times:.3} / {aimed:.2} {} |", met(times >= aimed)))
            .collect();
        let count = pairs().filter(|(times, aimed)| times >= aimed).count();
        let row = format!("| {} |{cells} {count} of {} |\n", self.what, SUITES.len());
        (row, count)
    }
}
