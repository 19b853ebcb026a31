//! Nanoseconds, and how far it is.

use std::io::{IsTerminal, Write};
use std::time::{Duration, Instant};

const SLICE: Duration = Duration::from_micros(250);

pub type Job = Box<dyn FnMut()>;

/// Jobs that take turns slice by slice, and the best time of each.
pub struct Turns {
    pub what: String,
    jobs: Vec<Job>,
    best: Vec<f64>,
}

impl Turns {
    pub fn new(what: impl Into<String>, jobs: Vec<Job>) -> Turns {
        let best = vec![f64::MAX; jobs.len()];
        Turns {
            what: what.into(),
            jobs,
            best,
        }
    }

    /// One round.
    pub fn take(&mut self, slices: usize) {
        let counts: Vec<usize> = self.jobs.iter_mut().map(calls_a_slice).collect();
        for _ in 0..slices {
            self.take_slices(&counts);
        }
    }

    fn take_slices(&mut self, counts: &[usize]) {
        for ((job, count), best) in self.jobs.iter_mut().zip(counts).zip(&mut self.best) {
            *best = best.min(slice(job, *count));
        }
    }

    /// Nanoseconds a call of each job, in the order in which they were given.
    pub fn best(&self) -> &[f64] {
        &self.best
    }
}

fn slice(job: &mut Job, count: usize) -> f64 {
    let start = Instant::now();
    for _ in 0..count {
        job();
    }
    start.elapsed().as_nanos() as f64 / count as f64
}

fn calls_a_slice(job: &mut Job) -> usize {
    let mut count = 1;
    loop {
        let start = Instant::now();
        (0..count).for_each(|_| job());
        if start.elapsed() >= SLICE / 2 {
            return count;
        }
        count *= 2;
    }
}

/// A line on the screen that says how far it is; elsewhere a line for each round.
pub struct Progress {
    round: String,
    done: usize,
    all: usize,
}

impl Progress {
    pub fn new(round: String, all: usize) -> Progress {
        Progress {
            round,
            done: 0,
            all,
        }
    }

    pub fn step(&mut self, what: &str) {
        self.done += 1;
        let mut err = std::io::stderr();
        if err.is_terminal() {
            let far = format!("{}: {:>3} of {}", self.round, self.done, self.all);
            let _ = write!(err, "\r{far}  {what:<50}");
            let _ = err.flush();
        }
    }

    pub fn end(&self) {
        let mut err = std::io::stderr();
        let _ = match err.is_terminal() {
            true => writeln!(err, "\r{:<75}", self.round),
            false => writeln!(err, "{}", self.round),
        };
    }
}
