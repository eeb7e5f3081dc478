//! Parts of the work and their cases, shared among threads.

use crate::case::Case;
use crate::floors::{self, flips};
use crate::job::Job;
use crate::tally::Tally;
use crate::{runs, steel};
use std::fmt;
use std::ops::Range;
use std::thread;

/// How much is compared. Each is rounded up to whole cases.
#[derive(Clone, Copy, Debug, PartialEq, Eq)]
pub struct Amount {
    pub floors: u64,
    /// Floors every byte of which is flipped in one way.
    pub flipped: u64,
    pub changes: u64,
    pub queries: u64,
}

/// What cargo test compares.
pub const SHORT: Amount = Amount {
    floors: 5_000,
    flipped: 12,
    changes: 16_000,
    queries: 40_000,
};

pub const LONG: Amount = Amount {
    floors: 200_000,
    flipped: 40,
    changes: 1_000_000,
    queries: 1_000_000,
};

pub const UNDER_VALGRIND: Amount = Amount {
    floors: 2_000,
    flipped: 4,
    changes: 6_000,
    queries: 10_000,
};

/// How a case compares, told its number.
type Compare = fn(&mut Case, u64) -> Result<(), String>;

#[derive(Clone, Copy)]
pub struct Part {
    pub name: &'static str,
    /// How many floors, changes or queries a case has.
    pub in_a_case: u64,
    pub cases: u64,
    compare: Compare,
}

pub fn parts(amount: Amount) -> [Part; 4] {
    let part = |name, asked: u64, in_a_case, compare| Part {
        name,
        in_a_case,
        cases: asked.div_ceil(in_a_case),
        compare,
    };
    let Amount {
        floors,
        flipped,
        changes,
        queries,
    } = amount;
    [
        part("floors", floors, floors::FLOORS, |case, _| {
            floors::case(case)
        }),
        part("floors with every byte flipped", flipped, 1, flips::case),
        part("changes", changes, runs::CHANGES, |case, _| {
            runs::case(case)
        }),
        part("steel queries", queries, steel::QUERIES, |case, _| {
            steel::case(case)
        }),
    ]
}

/// Where the library and the reference differ.
#[derive(Clone, Debug, PartialEq, Eq)]
pub struct Difference {
    pub seed: u64,
    pub part: &'static str,
    pub case: u64,
    pub words: String,
}

impl fmt::Display for Difference {
    fn fmt(&self, f: &mut fmt::Formatter) -> fmt::Result {
        let Difference {
            seed,
            part,
            case,
            words,
        } = self;
        write!(f, "difference: seed {seed}, {part}, case {case}: {words}")
    }
}

impl Part {
    fn case(&self, job: &Job, number: u64, tally: &mut Tally) -> Result<(), Difference> {
        let draw = job.draw(self.name, number);
        let mut case = Case { job, draw, tally };
        (self.compare)(&mut case, number).map_err(|words| Difference {
            seed: job.seed,
            part: self.name,
            case: number,
            words,
        })
    }

    /// The cases of one thread: from its first one on, past those of the other threads.
    fn share(&self, job: &Job, cases: Range<u64>, threads: usize) -> Result<Tally, Difference> {
        let mut tally = Tally::default();
        for case in cases.step_by(threads) {
            self.case(job, case, &mut tally)?;
        }
        Ok(tally)
    }

    /// Each thread stops at its first difference.
    pub fn compare(
        &self,
        job: &Job,
        cases: Range<u64>,
        threads: usize,
    ) -> Result<Tally, Difference> {
        thread::scope(|scope| {
            let share = |thread| {
                let cases = cases.start + thread as u64..cases.end;
                scope.spawn(move || self.share(job, cases, threads))
            };
            let shares: Vec<_> = (0..threads).map(share).collect();
            let mut all = Tally::default();
            for share in shares {
                all.merge(share.join().expect("a thread that ends")?);
            }
            Ok(all)
        })
    }
}
