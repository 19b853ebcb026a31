//! Recipes that are often wanted, run and prepared.

use crate::ciphers::{self, bytes};
use crate::timing::{Job, Turns};
use crate::Section;
use katsunebyo::cipher::{Call, SUITES};
use katsunebyo::{prepare_answer, run_answer, List, Name, LARGEST_IMAGE, WORK_ROOM};
use std::hint::black_box;

/// A text, what it is prepared and run with, and its image.
pub struct Recipe {
    pub text: String,
    pub bound: List,
    pub row: List,
    pub image: Vec<u8>,
    pub out: Vec<u8>,
    pub work: Vec<u8>,
}

impl Recipe {
    /// Prepared once, so that it is known to be good.
    pub fn new(text: &str, bound: List, row: List) -> Recipe {
        let (mut out, mut work) = (vec![0; LARGEST_IMAGE], vec![0; WORK_ROOM]);
        let answer = prepare_answer(text.as_bytes(), bound.as_bytes(), &mut out, &mut work);
        let length = good(answer.result());
        Recipe {
            text: text.to_string(),
            bound,
            row,
            image: out[..length].to_vec(),
            out,
            work,
        }
    }

    /// The same, run once.
    pub fn that_runs(text: &str, (bound, row): (List, List)) -> Recipe {
        let mut recipe = Recipe::new(text, bound, row);
        let (image, row) = (&recipe.image, recipe.row.as_bytes());
        good(run_answer(image, row, &mut recipe.out, &mut recipe.work).result());
        recipe
    }

    pub fn prepare(&mut self) {
        let (text, bound) = (self.text.as_bytes(), self.bound.as_bytes());
        let (out, work) = (&mut self.out, &mut self.work);
        black_box(prepare_answer(black_box(text), bound, out, work));
    }

    pub fn run(&mut self) {
        let (image, row) = (&self.image, self.row.as_bytes());
        let (out, work) = (&mut self.out, &mut self.work);
        black_box(run_answer(black_box(image), row, out, work));
    }

    pub fn into_job(mut self, job: fn(&mut Recipe)) -> Job {
        Box::new(move || job(&mut self))
    }
}

pub fn good<T, E: std::fmt::Debug>(result: Result<T, E>) -> T {
    result.expect("a good value")
}

/// Suite 3 and a text of this many bytes; the tag is the right one.
pub fn lists(length: usize) -> (List, List) {
    let (key, iv, text) = (bytes(32, 1), bytes(32, 2), bytes(length, 3));
    let mut tag = [0; 32];
    let tagged = [&iv[..], &text[..]].concat();
    good(katsunebyo::cipher::mac(3, &key, &tagged, &mut tag));
    let bound = good(List::new().with(Name::Bound(0), &key));
    let bound = good(bound.with(Name::Bound(1), &key));
    let row = good(List::new().with(Name::Run(0), &iv));
    let row = good(row.with(Name::Row(0), &text));
    let row = good(row.with(Name::Row(1), &tag));
    (bound, good(row.with(Name::Row(2), &[0])))
}

/// A recipe that is often wanted, and the cipher calls that a run of it makes.
struct Typical {
    what: &'static str,
    text: &'static str,
    /// With the length of the text of each.
    calls: &'static [(Call, usize)],
}

const TYPICAL: [Typical; 7] = [
    Typical {
        what: "a leaf",
        text: "$0",
        calls: &[],
    },
    Typical {
        what: "two leaves",
        text: "cat($0,$1)",
        calls: &[],
    },
    Typical {
        what: "a constant in front",
        text: "cat('41',$0)",
        calls: &[],
    },
    Typical {
        what: "seal, IV in front",
        text: "cat(@0,ctr.3(#0,@0,$0))",
        calls: &[(Call::Ctr, 64)],
    },
    Typical {
        what: "seal and tag",
        text: "cat(mac.3(#1,cat(@0,ctr.3(#0,@0,$0))),ctr.3(#0,@0,$0))",
        calls: &[(Call::Ctr, 64), (Call::Mac, 96), (Call::Ctr, 64)],
    },
    Typical {
        what: "check the tag, open",
        text: "when(chk.3(#1,$1,cat(@0,$0)),ctr.3(#0,@0,$0),'')",
        calls: &[(Call::Chk, 96), (Call::Ctr, 64)],
    },
    Typical {
        what: "mask, no cipher",
        text: "when(eq($2,'01'),$0,cat(head('04',$0),'2A2A2A2A'))",
        calls: &[],
    },
];

pub struct Recipes {
    /// For each of the above: clearing, preparing, running, and its cipher calls.
    turns: Vec<Turns>,
}

impl Recipes {
    pub fn new() -> Recipes {
        Recipes {
            turns: TYPICAL.iter().map(Typical::turns).collect(),
        }
    }
}

impl Section for Recipes {
    fn turns(&mut self) -> Vec<&mut Turns> {
        self.turns.iter_mut().collect()
    }

    fn tables(&self) -> String {
        let clears = self.turns.iter().map(|turns| turns.best()[0]);
        let clear = clears.fold(f64::MAX, f64::min);
        let rows = TYPICAL.iter().zip(&self.turns);
        let rows: String = rows
            .map(|(typical, turns)| typical.row(turns.best(), clear))
            .collect();
        format!(
            "## Recipes on cells of 64 bytes\n\n\
             Clearing 65,536 bytes alone: {clear:.0} ns. `cost` is the time of a run over that of clearing and of its \
             cipher calls made alone.\n\n\
             | recipe | runs/s | ns a run | cipher calls alone, ns | cost | preparations/s |\n\
             |---|---|---|---|---|---|\n{rows}"
        )
    }
}

impl Typical {
    fn turns(&self) -> Turns {
        let recipe = || Recipe::that_runs(self.text, lists(64));
        let mut jobs = vec![
            clear(),
            recipe().into_job(Recipe::prepare),
            recipe().into_job(Recipe::run),
        ];
        let calls = self.calls.iter();
        jobs.extend(calls.map(|(call, length)| ciphers::job(*call, SUITES[2], *length)));
        Turns::new(self.what, jobs)
    }

    fn row(&self, best: &[f64], clear: f64) -> String {
        let (prepare, run) = (best[1], best[2]);
        let alone = best[3..].iter().fold(0.0, |sum, time| sum + time);
        format!(
            "| {}: `{}` | {:.0} | {run:.0} | {alone:.0} | {:.2} | {:.0} |\n",
            self.what,
            self.text,
            1e9 / run,
            run / (clear + alone),
            1e9 / prepare
        )
    }
}

/// What every run and preparation owes the work room: its bytes zero.
pub fn clear() -> Job {
    fill(0)
}

pub fn fill(byte: u8) -> Job {
    let mut room = vec![1u8; WORK_ROOM];
    Box::new(move || black_box(&mut room[..]).fill(byte))
}
