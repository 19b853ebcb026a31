//! How the cost grows with the cell and with the image.

use crate::ciphers::{self, bytes};
use crate::recipes::{good, Recipe};
use crate::timing::Turns;
use crate::Section;
use katsunebyo::cipher::{Call, SUITES};
use katsunebyo::{List, Name};

const CELLS: [usize; 5] = [64, 128, 256, 512, 1024];

/// Leaves of `cat`s that halve them, and of `cat`s one in another.
const SPREAD: [usize; 4] = [2, 8, 32, 64];
const NESTED: [usize; 4] = [2, 4, 8, 16];

pub struct Growth {
    cells: Turns,
    spread: Turns,
    nested: Turns,
}

impl Growth {
    pub fn new() -> Growth {
        let cells = CELLS.map(|length| ciphers::job(Call::Ctr, SUITES[2], length));
        Growth {
            cells: Turns::new("growth with the cell", cells.into()),
            spread: runs(SPREAD.map(spread)),
            nested: runs(NESTED.map(nested)),
        }
    }
}

impl Section for Growth {
    fn turns(&mut self) -> Vec<&mut Turns> {
        vec![&mut self.cells, &mut self.spread, &mut self.nested]
    }

    fn tables(&self) -> String {
        let image_head = "| nodes | ns a run | ns for each further node |\n|---|---|---|\n";
        format!(
            "## Growth\n\n\
             With the cell, CTR of suite 3:\n\n\
             | bytes | ns | ns for each further byte |\n|---|---|---|\n{}\n\
             With the image, a run of `cat` on leaves of one byte; each `cat` halves them:\n\n\
             {image_head}{}\n\
             or has one and the next `cat`:\n\n\
             {image_head}{}",
            steps(&CELLS, self.cells.best()),
            steps(&SPREAD.map(nodes), self.spread.best()),
            steps(&NESTED.map(nodes), self.nested.best())
        )
    }
}

fn runs(texts: [String; 4]) -> Turns {
    let jobs = texts.map(|text| recipe(&text).into_job(Recipe::run));
    Turns::new("growth with the image", jobs.into())
}

/// Of `cat`s on so many leaves.
fn nodes(leaves: usize) -> usize {
    2 * leaves - 1
}

fn recipe(text: &str) -> Recipe {
    let row = good(List::new().with(Name::Row(0), &bytes(1, 3)));
    Recipe::that_runs(text, (List::new(), row))
}

fn spread(leaves: usize) -> String {
    match leaves {
        1 => "$0".to_string(),
        _ => format!("cat({0},{0})", spread(leaves / 2)),
    }
}

fn nested(leaves: usize) -> String {
    match leaves {
        1 => "$0".to_string(),
        _ => format!("cat($0,{})", nested(leaves - 1)),
    }
}

/// A row for each size, with what each step from the size before it costs.
fn steps(sizes: &[usize], times: &[f64]) -> String {
    let row = |at: usize| match at {
        0 => format!("| {} | {:.0} | |\n", sizes[0], times[0]),
        _ => format!(
            "| {} | {:.0} | {:.2} |\n",
            sizes[at],
            times[at],
            (times[at] - times[at - 1]) / (sizes[at] - sizes[at - 1]) as f64
        ),
    };
    (0..sizes.len()).map(row).collect()
}
