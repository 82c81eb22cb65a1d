//! Times of several builds, interleaved, so that what else the machine does falls on all of them.

use std::hint::black_box;
use std::time::Instant;

use compare::Builder;

use crate::work::Work;

/// The least time for which a build is run in a round.
const SECONDS: f64 = 0.002;

/// Microseconds a unit for each build on a work: the least of all rounds, which is what it takes when nothing disturbs it.
pub struct Timed<'a> {
    work: Work,
    builds: &'a [&'a dyn Builder],
    repeats: Vec<u32>,
    seconds: Vec<f64>,
}

impl<'a> Timed<'a> {
    pub fn new(mut work: Work, builds: &'a [&'a dyn Builder]) -> Timed<'a> {
        Timed {
            repeats: builds.iter().map(|b| repeats(&mut work, *b)).collect(),
            seconds: vec![f64::INFINITY; builds.len()],
            work,
            builds,
        }
    }

    /// Every build once, another one first in each round.
    pub fn round(&mut self, round: usize) {
        for turn in 0..self.builds.len() {
            let b = (round + turn) % self.builds.len();
            let seconds = run(&mut self.work, self.builds[b], self.repeats[b]);
            self.seconds[b] = self.seconds[b].min(seconds);
        }
    }

    pub fn unit(&self) -> &str {
        self.work.unit
    }

    pub fn microseconds(&self) -> Vec<f64> {
        let per_unit = 1e6 / self.work.units as f64;
        self.seconds.iter().map(|s| s * per_unit).collect()
    }
}

fn repeats(work: &mut Work, build: &dyn Builder) -> u32 {
    run(work, build, 1);
    let seconds = run(work, build, 1);
    (SECONDS / seconds).ceil().max(1.0) as u32
}

/// Seconds a pass.
fn run(work: &mut Work, build: &dyn Builder, passes: u32) -> f64 {
    let start = Instant::now();
    for _ in 0..passes {
        black_box(work.pass(build));
    }
    start.elapsed().as_secs_f64() / passes as f64
}
