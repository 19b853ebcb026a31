//! Runs and preparations against clearing the work room, which each of them has to do.

use crate::recipes::{clear, fill, lists, Recipe};
use crate::timing::{Job, Turns};
use crate::{ciphers, met, Section};
use katsunebyo::cipher::{Call, SUITES};
use std::hint::black_box;

/// A run or a preparation, and the most that it may take.
struct Bound {
    what: &'static str,
    text: &'static str,
    job: fn(&mut Recipe),
    /// Bytes of `$0`.
    cell: usize,
    /// So many clears,
    clears: f64,
    /// and so many times `katsu_ctr` of suite 3 on the cell.
    calls: f64,
}

const BOUNDS: [Bound; 4] = [
    Bound {
        what: "run",
        text: "$0",
        job: Recipe::run,
        cell: 64,
        clears: 1.1,
        calls: 0.0,
    },
    Bound {
        what: "run",
        text: "cat('41',$0)",
        job: Recipe::run,
        cell: 64,
        clears: 1.2,
        calls: 0.0,
    },
    Bound {
        what: "run",
        text: "ctr.3(#0,@0,$0)",
        job: Recipe::run,
        cell: 256,
        clears: 1.0,
        calls: 1.2,
    },
    Bound {
        what: "prepare",
        text: "cat(@0,ctr.3(#0,@0,$0))",
        job: Recipe::prepare,
        cell: 64,
        clears: 3.0,
        calls: 0.0,
    },
];

/// What the room is full of where it is not zero.
const OTHER_BYTE: u8 = 0xA5;

pub struct Clears {
    /// For each of the above: the clear, `katsu_ctr`, and the run or preparation.
    turns: Vec<Turns>,
    /// The clear, filling the room, and both filling it and running `$0`.
    full_room: Turns,
}

impl Clears {
    pub fn new() -> Clears {
        let jobs = vec![clear(), fill(OTHER_BYTE), run_in_full_room()];
        Clears {
            turns: BOUNDS.iter().map(Bound::turns).collect(),
            full_room: Turns::new("run $0 in a full room", jobs),
        }
    }
}

impl Section for Clears {
    fn turns(&mut self) -> Vec<&mut Turns> {
        self.turns.iter_mut().chain([&mut self.full_room]).collect()
    }

    fn tables(&self) -> String {
        let rows = BOUNDS.iter().zip(&self.turns);
        let rows: String = rows.map(|(bound, turns)| bound.row(turns.best())).collect();
        format!(
            "## Recipes against the clear\n\n\
             Clear is 65,536 bytes set to zero, `katsu_ctr` the entry on the same cell with suite 3; all in turns.\n\n\
             | | cell | ns | clear, ns | in clears | `katsu_ctr`, ns | aimed at, at most | which is, ns | met |\n\
             |---|---|---|---|---|---|---|---|---|\n{rows}{}\n\
             The last row has the room full of other bytes before each run, the time of filling it taken off: the library \
             reads the room before it writes it, spares one that is zero already, as it is between calls, and pays for the \
             reading here.\n",
            full_room_row(self.full_room.best())
        )
    }
}

impl Bound {
    fn turns(&self) -> Turns {
        let recipe = Recipe::that_runs(self.text, lists(self.cell));
        let jobs = vec![
            clear(),
            ciphers::job(Call::Ctr, SUITES[2], self.cell),
            recipe.into_job(self.job),
        ];
        Turns::new(
            format!("{} {} against the clear", self.what, self.text),
            jobs,
        )
    }

    fn row(&self, best: &[f64]) -> String {
        let (clear, call, time) = (best[0], best[1], best[2]);
        let most = self.clears * clear + self.calls * call;
        let (aimed, call) = match self.calls == 0.0 {
            true => (format!("{} clears", self.clears), "-".to_string()),
            false => (
                format!("a clear and {} times `katsu_ctr`", self.calls),
                format!("{call:.0}"),
            ),
        };
        format!(
            "| {} `{}` | {} B | {time:.0} | {clear:.0} | {:.3} | {call} | {aimed} | {most:.0} | {} |\n",
            self.what,
            self.text,
            self.cell,
            time / clear,
            met(time <= most)
        )
    }
}

fn run_in_full_room() -> Job {
    let mut recipe = Recipe::that_runs("$0", lists(64));
    Box::new(move || {
        black_box(&mut recipe.work[..]).fill(OTHER_BYTE);
        recipe.run();
    })
}

fn full_room_row(best: &[f64]) -> String {
    let (clear, time) = (best[0], best[2] - best[1]);
    format!(
        "| run `$0`, room full | 64 B | {time:.0} | {clear:.0} | {:.3} | - | - | - | - |\n",
        time / clear
    )
}
